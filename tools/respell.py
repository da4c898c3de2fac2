#!/usr/bin/env python3
"""respell.py [ROOT]: brings the names of definitions and lemmas to snake case, once, right after port.py.

Names of the repository's own that are declared in crates/*/specs and crates/*/proofs: camel case that begins in a small letter, as
`getWord`, and words joined by hyphens, as `first-ahead`, become snake case, `get_word` and `first_ahead`. A name that a library declares too
is left. Names that the toolchain makes of the code (goals, steps) are left: they are declared nowhere in the files. Types and modules stay.
Two names that would fall together in one file are kept apart by the table TWINS. Text of comments changes between backticks alone.
With a file respelled.tsv beside this script its table is taken; else it is made of the files and written there.
"""
import glob
import os
import re
import sys

HERE = os.path.dirname(os.path.abspath(__file__))
TABLE = os.path.join(HERE, "respelled.tsv")
NAME = r"[^\s(){}\[\];,.\"`:→λ]+"
DECLARED = re.compile(r"^\s*(?:(?:abbrev|unfoldable|opaque|pub|instance) )*(" + NAME + r") :(?= |$)")
BOUND = re.compile(r"\blet (" + NAME + r") (?:=|:)(?= |$)")
FIELDS = re.compile(r"^\s*(?:pub )?(?:record|data) ")
USED = re.compile(r"^\s*(?:pub )?(?:ghost )?use ([^{;\s]+)\.\{([^}]*)\}")
OWN = re.compile(r"^(?:Rattle\.(?!std|core|io|libc|os)|crate)")
PATH = re.compile(r"^(\s*(?:pub )?(?:ghost )?use )([^{;\s]+)")


def sources(root):
    for part in ("specs", "proofs"):
        for path in sorted(glob.glob(f"{root}/crates/*/{part}/**/*.antt", recursive=True)):
            if "/out/" not in path:
                yield path


def plain(name):
    """The name in snake case, or the name itself."""
    if not re.match(r"[a-zα-ωμ]", name) and not ("-" in name and name[:1].islower()):
        return name
    new = name.replace("-", "_")
    new = re.sub(r"(?<=[a-z0-9])([A-Z])(?=[a-z0-9])", lambda m: "_" + m[1].lower(), new)
    new = re.sub(r"(?<=[a-z0-9])([A-Z])(?=$|['_0-9′])", lambda m: "_" + m[1].lower(), new)
    return new


def declared(root):
    """Names that the files declare, and names that they take from libraries."""
    own, taken = {}, set()
    for path in sources(root):
        proof = os.path.basename(path) == "Proof.antt"
        for line in open(path, encoding="utf-8"):
            used = USED.match(line)
            if used and not OWN.match(used[1]):
                taken |= {w.strip().split(" as ")[0] for w in used[2].split(",")}
            if used or line.lstrip().startswith("--"):
                continue
            for m in ([] if proof else DECLARED.finditer(line)):
                own.setdefault(m[1], set()).add(path)
            for m in ([] if proof else BOUND.finditer(line)):
                own.setdefault(m[1], set()).add(path)
    return own, taken


def table(root):
    """Old and new names. Where a lemma and a definition fall together in one file, the lemma's name ends in `_law`."""
    own, taken = declared(root)
    turned = {n: plain(n) for n in own if n not in taken and plain(n) != n}
    for old, new in turned.items():
        if re.search(r"[a-z][A-Z]", old):
            continue
        if any(other != old and other not in turned and other == new for other in own):
            turned[old] = new + "_law"
    while True:
        losers = {}
        for pair, path in twins(root, turned, own):
            lemmas = [w for w in pair if not re.search(r"[a-z][A-Z]", w)]
            if len(lemmas) != 1 or len(pair) != 2:
                sys.exit(f"fall together: {pair} in {path}")
            losers[lemmas[0]] = plain(lemmas[0]) + "_law"
        if not losers:
            return turned
        turned.update(losers)


def twins(root, turned, own):
    """Names that fall together in one file."""
    found = set()
    for path in sources(root):
        here = {}
        text = "\n".join(PATH.sub("", re.sub(r"--.*", "", line)) for line in open(path, encoding="utf-8"))
        for word in set(re.findall(r"(?<![\w.])" + NAME, text)):
            if word in own:
                here.setdefault(turned.get(word, word), set()).add(word)
        found |= {(tuple(sorted(ws)), os.path.relpath(path, root)) for ws in here.values() if len(ws) > 1}
    return found


def words(text, turned):
    """A text with its names turned. The path of a `use` line is none, nor is a name that the toolchain makes, as in `tie.X` or `c.X`,
    where X is in snake case already."""
    path = PATH.match(text)
    head = path[0] if path else ""
    return head + re.sub(r"(\.?)(" + NAME + ")", lambda m: m[1] + (m[2] if m[1] and "_" in m[2] and "-" not in m[2] else turned.get(m[2], m[2])), text[len(head):])


def in_comment(text, turned):
    return re.sub(r"`[^`]*`", lambda m: words(m[0], turned), text)


def antt(line, turned):
    code, mark, comment = line.partition("--") if re.match(r"\s*--", line) or " -- " in line else (line, "", "")
    return words(code, turned) + (mark + in_comment(comment, turned) if mark else "")


def rt(line, turned):
    code, mark, comment = line.partition("//")
    clause = re.search(r"\b(ghost use|ghost|requires|ensures)\b", code) or re.search(r"[≡×→λ≤∀]", code)
    if clause:
        code = words(code, turned)
    return code + (mark + in_comment(comment, turned) if mark else "")


def main():
    root = os.path.abspath(sys.argv[1] if len(sys.argv) > 1 else os.path.join(HERE, ".."))
    if os.path.exists(TABLE):
        turned = dict(line.rstrip("\n").split("\t") for line in open(TABLE, encoding="utf-8"))
    else:
        turned = table(root)
        with open(TABLE, "w", encoding="utf-8") as out:
            out.writelines(f"{a}\t{b}\n" for a, b in sorted(turned.items()))
    changed = 0
    kinds = [(sources(root), antt), (sorted(glob.glob(f"{root}/crates/*/src/**/*.rt", recursive=True)), rt)]
    for paths, turn in kinds:
        for path in paths:
            old = open(path, encoding="utf-8").read()
            new = "\n".join(turn(line, turned) for line in old.split("\n"))
            if new != old:
                changed += 1
                with open(path, "w", encoding="utf-8") as out:
                    out.write(new)
    print(f"{len(turned)} names, {changed} files")


if __name__ == "__main__":
    main()
