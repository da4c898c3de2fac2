#!/usr/bin/env python3
"""random_session.py SEED PLACE: the random session that compare-sessions makes at this place from this seed, as text
(tools/calls.py text hex makes a session file of it).

A session first fills the 64 blocks of the store, then makes copies and changes files, mostly with numbers for which the
call can be accepted. It keeps only the tree of sets, writeability and which files are present; room and marks are not
looked at, so that full stores, refusals and marked files come by themselves. Many truncates and deletes are of files that
a child has too, so that blocks are handed over.
"""
import os
import random
import sys

sys.dont_write_bytecode = True
sys.path.insert(0, os.path.join(os.path.dirname(os.path.dirname(os.path.abspath(__file__))), "tools"))
import calls  # noqa: E402

SETS, FILES, PAGE, FILE_BYTES, LEVEL = 8, 16, 512, 32768, 5
LONG_PLACE, LONG_CALLS = 0, 20000


class Set:
    def __init__(self, parent, level, writeable, files):
        self.parent, self.level, self.writeable, self.files = parent, level, writeable, set(files)


class Maker:
    """Makes calls one after another."""

    def __init__(self, dice):
        self.dice = dice
        self.sets = {0: Set(None, 0, True, ())}
        self.files = dice.choice((1, 2, 3, 5, FILES))
        self.pages = dice.choice((8, 24, 24, 64))
        self.data = b""

    def add(self, op, **fields):
        self.data += calls.pack(calls.Call(**dict.fromkeys(calls.WIDTHS, 0) | {"op": op} | fields))

    # Numbers, mostly fitting ones

    def any_set(self, fits=lambda entry: True):
        fitting = [number for number, entry in self.sets.items() if fits(entry)]
        if fitting and self.dice.random() < 0.96:
            return self.dice.choice(fitting)
        return self.dice.randrange(SETS) if self.dice.random() < 0.8 else self.dice.randrange(16)

    def place(self, present):
        """A set and a file, present there or not, as asked."""
        fits = [
            (number, file)
            for number, entry in self.sets.items()
            for file in range(self.files)
            if entry.writeable and (file in entry.files) == present
        ]
        if fits and self.dice.random() < 0.94:
            return self.dice.choice(fits)
        return self.any_set(), self.dice.randrange(self.files if self.dice.random() < 0.8 else FILES)

    def place_above(self):
        """Often a set and a file that a child has too; else any with the file."""
        fits = [
            (entry.parent, file)
            for entry in self.sets.values()
            if entry.parent is not None and self.sets[entry.parent].writeable
            for file in sorted(entry.files & self.sets[entry.parent].files)
        ]
        if fits and self.dice.random() < 0.6:
            return self.dice.choice(fits)
        return self.place(present=True)

    def offset(self):
        edge = self.dice.randrange(self.pages) * PAGE
        near = max(0, edge + self.dice.choice((-1, 0, 0, 0, 1, self.dice.randrange(PAGE))))
        return self.dice.choice((near,) * 12 + (self.dice.randrange(FILE_BYTES + 2),) + (self.dice.randrange(1 << 16),))

    def length(self):
        return self.dice.choice((0, 1, 1, 2, 100, 511, 512, 513, 1024, 2048, 4095, 4096, self.dice.randrange(4097)))

    # Calls

    def create(self):
        number, file = self.place(present=False)
        self.add(1, set=number, file=file)
        if number in self.sets and self.sets[number].writeable:
            self.sets[number].files.add(file)
        return number, file

    def write(self):
        number, file = self.place(present=True)
        self.add(2, set=number, file=file, offset=self.offset(), length=self.length(), fill=self.dice.randrange(256))

    def truncate(self, place=None):
        number, file = place or self.place_above()
        self.add(3, set=number, file=file, offset=self.offset())

    def delete(self, place=None):
        number, file = place or self.place_above()
        self.add(4, set=number, file=file)
        if number in self.sets and self.sets[number].writeable:
            self.sets[number].files.discard(file)

    def make(self, parent=None):
        deepest = max(entry.level for entry in self.sets.values())
        lowest = self.dice.choice((0, 0, 0, deepest - 1, deepest))
        if parent is None:
            parent = self.any_set(lambda entry: lowest <= entry.level < LEVEL)
        unused = [number for number in range(SETS) if number not in self.sets]
        new = self.dice.choice(unused) if unused and self.dice.random() < 0.95 else self.dice.randrange(16)
        writeable = self.dice.random() < 0.7
        self.add(6 if writeable else 5, set=parent, other=new)
        if parent in self.sets and self.sets[parent].level < LEVEL and new < SETS and new not in self.sets:
            above = self.sets[parent]
            self.sets[new] = Set(parent, above.level + 1, writeable, above.files)

    def remove(self):
        parents = {entry.parent for entry in self.sets.values()}
        leaves = [number for number in self.sets if number != 0 and number not in parents]
        number = self.dice.choice(leaves) if leaves and self.dice.random() < 0.9 else self.any_set()
        self.add(7, set=number)
        if number in leaves:
            del self.sets[number]

    def fill(self):
        """Creates files and asks for 64 blocks and more."""
        names = self.dice.sample(range(self.files), min(self.files, self.dice.choice((1, 2, 4))))
        for file in names:
            self.add(1, set=0, file=file)
            self.sets[0].files.add(file)
        for _ in range(self.dice.choice((8, 8, 9, 12, 20))):
            at = self.dice.randrange(8) * 4096 if self.dice.random() < 0.7 else self.offset()
            self.add(2, set=0, file=self.dice.choice(names), offset=at, length=4096, fill=self.dice.randrange(256))

    def sweep(self):
        """A new file, written in pieces of eight pages."""
        number, file = self.create()
        for _ in range(self.dice.choice((1, 2, 4))):
            self.add(2, set=number, file=file, offset=self.dice.randrange(4) * 4096, length=4096, fill=self.dice.randrange(256))

    def retire(self):
        """Copies of a set are made, some pages written, and then a file of the set is cut or deleted."""
        number, file = self.place(present=True)
        for _ in range(min(self.dice.choice((1, 2, 3)), SETS - len(self.sets))):
            self.make(number)
        for _ in range(self.dice.randrange(4)):
            self.write()
        self.dice.choice((self.truncate, self.delete))((number, file))

    def end(self):
        """Bytes that end the session, or none."""
        if self.dice.random() < 0.7:
            return
        tail = self.dice.randbytes(self.dice.choice((1, 2, 3, 4, 5, 6, 7, 8, 8, 8)))
        self.data += tail
        if len(tail) == calls.CALL_BYTES:
            self.add(1)


# Three mixtures of calls: one that keeps the store full and its copies young, one that changes everything, and one that deletes and
# cuts files that have copies, and stores new ones.
NAMES = ("write", "truncate", "delete", "create", "make", "remove", "sweep", "retire")
FULL, MIXED, HANDING = (52, 3, 1, 6, 24, 18, 0, 0), (45, 14, 6, 9, 12, 5, 0, 0), (24, 8, 6, 3, 4, 22, 14, 19)


def session(seed, place):
    """The bytes of a session."""
    dice = random.Random(f"{seed} {place}")
    maker = Maker(dice)
    maker.fill()
    count = LONG_CALLS if int(place) == LONG_PLACE else dice.choice((20, 60, 150, 400))
    most = len(maker.data) + count * calls.CALL_BYTES
    for name in dice.choices(NAMES, dice.choice((FULL, FULL, MIXED, HANDING, HANDING)), k=count):
        if len(maker.data) >= most:
            break
        getattr(maker, name)()
    maker.end()
    return maker.data


if __name__ == "__main__":
    if len(sys.argv) != 3:
        print(__doc__, end="", file=sys.stderr)
        sys.exit(2)
    print(f"# Random session {sys.argv[2]} of seed {sys.argv[1]}.")
    print(calls.write_text(calls.read_bytes(session(*sys.argv[1:]))[0]), end="")
