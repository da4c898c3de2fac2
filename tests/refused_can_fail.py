#!/usr/bin/env python3
"""refused_can_fail.py: shows that tests/refused can fail, on a crate of one function and edits made for it, in a folder of its own."""
import os
import subprocess
import sys
import tempfile

HERE = os.path.dirname(os.path.abspath(__file__))
CRATE = {
    "crates.txt": "tiny:\n",
    "crates/tiny/src/lib.rt": """\
// A number is given back.
#![tactic(auto)]

ghost use Rattle.std.specs.Prelude.{◌≡◌};
ghost use Rattle.tiny.specs.Tiny.{given};

pub fn give(x: usize) -> usize
    ensures { result ≡ given x }
{
    x
}
""",
    "crates/tiny/specs/Lib.antt": "pub mod Tiny\n",
    "crates/tiny/specs/Tiny.antt": """\
use Rattle.std.specs.Prelude.{ℕ, ◌+◌, ◌≡◌, refl}

unfoldable pub given : ℕ → ℕ
given x = x

-- a sum, and two laws of it
abbrev pub twice : ℕ → ℕ
twice x = x + x

pub twice_is : (x : ℕ) → twice x ≡ x + x
twice_is x = refl

pub twice_again : (x : ℕ) → twice x ≡ x + x
twice_again x = twice_is x
""",
    "crates/tiny/proofs/Lib.antt": "pub mod Same\n",
    "crates/tiny/proofs/Same.antt": """\
use Rattle.std.specs.Prelude.{◌≡◌, refl, ℕ}
use Rattle.tiny.specs.Tiny.{given}

pub same : (x : ℕ) → x ≡ given x
unfolding given
same x = refl
""",
    "crates/tiny/proofs/give/Answers.antt": """\
use Rattle.tiny.proofs.Same.{same}
use Rattle.tiny.proofs.give.Goals as goal

pub returns : goal.returns
returns c = same c.args.x
""",
}
# name, the edit, what tests/refused must say of it
GOOD = (
    ("another_number", "file: src/lib.rt\nold:     x\nnew:     7\n", "refused, first at proofs/give/Answers.antt:5:13"),
    ("another_definition", "file: specs/Tiny.antt\nold: given x = x\nnew: given x = 7\n", "refused, first at proofs/Same.antt:6:10"),
)
# in refused/ it counts, while rt calls it bad
FALLS = (("a_law_falls", "file: specs/Tiny.antt\nold: twice x = x + x\nnew: twice x = 7\n", "refused, the law twice_is of specs/ does not hold"),)
BAD = (
    ("comment", "file: src/lib.rt\nold: given back\nnew: handed back\n", "NOT REFUSED"),
    ("no_program", "file: src/lib.rt\nold:     x\nnew:     true\n", "BAD EDIT: it did not reach the prover"),
    ("renamed", "file: proofs/Same.antt\nold: pub same\nnew: pub equal\nold: same x =\nnew: equal x =\n", "SHOWS NOTHING: refused (only because a proof file names"),
    ("no_text", "file: proofs/Same.antt\nold: same x = refl\nnew: same x = (refl\n", "BAD EDIT: the prover cannot read the edited text"),
    ("no_type", "file: specs/Tiny.antt\nold: given x = x\nnew: given x = λ y. y\n", "SHOWS NOTHING: the first error refuses no fact"),
    ("falls_by_type", "file: specs/Tiny.antt\nold: twice x = x + x\nnew: twice x = twice\n", "BAD EDIT: the prover cannot read the edited text"),
)
UNFIT = (
    ("not_there", "file: src/lib.rt\nold: nothing of the kind\nnew: 7\n", "BAD EDIT: its old text does not stand just once"),
    ("twice", "file: specs/Tiny.antt\nold: ℕ\nnew: 7\n", "BAD EDIT: its old text does not stand just once"),
    ("outside", "file: src/../../../crates.txt\nold: tiny:\nnew: tiny: std\n", "BAD EDIT: its file is not one of the crate's"),
    ("no_pair", "# nothing\n", "BAD EDIT: it has no pair"),
    ("same", "file: src/lib.rt\nold:     x\nnew:     x\n", "BAD EDIT: it changes nothing"),
)


class Room:
    def __init__(self, folder):
        self.folder, self.troubles = folder, []
        for path, text in CRATE.items():
            self.write(path, text)

    def write(self, path, text):
        os.makedirs(os.path.dirname(os.path.join(self.folder, path)), exist_ok=True)
        with open(os.path.join(self.folder, path), "w", encoding="utf-8") as file:
            file.write(text)

    def edits(self, edits, folder="refused"):
        for name, edit, _ in edits:
            self.write(f"crates/tiny/{folder}/{name}.edit", edit)

    def remove(self, edits, folder="refused"):
        for name, _, _ in edits:
            os.remove(f"{self.folder}/crates/tiny/{folder}/{name}.edit")

    def run(self, *options):
        command = [os.path.join(HERE, "refused"), "--root", self.folder, *options]
        done = subprocess.run(command, stdout=subprocess.PIPE, stderr=subprocess.STDOUT, encoding="utf-8")
        return done.returncode, done.stdout

    def expect(self, what, ran, status, last, said=()):
        """What a run must end with, and say of each edit."""
        lines = [f"refused tiny/{name}: {verdict}" for name, _, verdict in said]
        wrong = [line for line in lines if line not in ran[1]]
        if ran[0] != status or not ran[1].endswith(last + "\n") or wrong:
            self.troubles.append(f"{what}: status {ran[0]}, not {status}, or not the end: {last}, or not: {wrong}\n{ran[1]}")


def main():
    with tempfile.TemporaryDirectory(prefix="refused-can-fail-") as folder:
        good = (*GOOD, *FALLS)
        room, every = Room(folder), (*good, *BAD, *UNFIT)
        room.edits(every)
        room.expect("--fits", room.run("--fits"), 1, f"refused: {len(good + BAD)} edits fit, {len(UNFIT)} do not", UNFIT)
        last = f"tests/refused: {len(good)} edits refused, {len(BAD + UNFIT)} not"
        room.expect("over what rt check kept", room.run("tiny"), 1, last, every)
        room.expect("by rt ci", room.run("--ci"), 1, last, every)
        # without those that show nothing it passes, also by the clock; with no time nothing is tried
        room.remove((*BAD, *UNFIT))
        last = f"tests/refused: {len(good)} edits refused, 0 not"
        room.expect("the good ones", room.run(), 0, last, good)
        room.expect("the good ones by the clock", room.run("--ci", "--seconds", "600", "--seed", "1"), 0, last, good)
        room.expect("no time", room.run("--ci", "--seconds", "0"), 0, f"tests/refused: 0 edits refused, 0 not, {len(good)} left for other runs")
        # what rt ci prints of must-fail/ is looked at in the same way
        room.remove(good)
        room.edits((*GOOD, *BAD), "must-fail")
        room.write("ci.log", subprocess.run(["rt", "ci"], cwd=folder, stdout=subprocess.PIPE, stderr=subprocess.STDOUT, encoding="utf-8").stdout)
        room.expect("--look", room.run("--look", f"{folder}/ci.log"), 1, f"tests/refused --look: {len(GOOD)} edits of must-fail/ refused by a fact, {len(BAD)} not", BAD)
        room.write("ci.log", "")
        room.expect("--look at nothing", room.run("--look", f"{folder}/ci.log"), 1, f"tests/refused --look: 0 edits of must-fail/ refused by a fact, {len(GOOD + BAD)} not")
        # a crate that is not proved fails
        room.remove((*GOOD, *BAD), "must-fail")
        room.edits(GOOD[1:])
        room.write("crates/tiny/src/lib.rt", CRATE["crates/tiny/src/lib.rt"].replace("    x\n", "    7\n"))
        for options in ((), ("--ci",)):
            room.expect(f"not proved {options}", room.run(*options), 1, "tests/refused: 0 edits refused, 1 not")
    if room.troubles:
        sys.exit("\n".join([*room.troubles, "refused_can_fail: tests/refused does not fail where it must"]))
    print(f"refused_can_fail: {len(every)} edits tried over what rt check kept and by rt ci, each judged as it must be")


if __name__ == "__main__":
    main()
