#!/usr/bin/env python3
"""Counts forms of the code (docs/DESIGN-PASS.md): forms.py loops|facts|groups|enums|numbers [COMMIT]

loops    each loop: `while` and `loop`, and how many `for`
facts    facts that stand in the requires of three or more functions
groups   parameters that stand side by side in five or more functions
enums    enums, and fields and parameters that are a flag
numbers  functions that answer a number of the table of refusals, or take a number for a kind
Without COMMIT the files as they stand are read."""
import collections
import re
import subprocess
import sys
from pathlib import Path

TOP = Path(__file__).resolve().parent.parent


def sources(commit):
    """The texts of crates/*/src/*.rt by name."""
    if not commit:
        return {str(f.relative_to(TOP)): f.read_text() for f in sorted(TOP.glob("crates/*/src/**/*.rt"))}
    git = ["git", "-C", str(TOP)]
    names = subprocess.run([*git, "ls-tree", "-r", "--name-only", commit, "crates"], capture_output=True, text=True, check=True).stdout.split()
    names = [n for n in names if re.fullmatch(r"crates/\w+/src/.*\.rt", n)]
    return {n: subprocess.run([*git, "show", f"{commit}:{n}"], capture_output=True, text=True, check=True).stdout for n in names}


def conjuncts(text):
    """The parts of a fact that × joins at the top."""
    out, depth, part = [], 0, ""
    for c in text:
        depth += (c in "([{") - (c in ")]}")
        if c == "×" and depth == 0:
            out.append(part.strip())
            part = ""
        else:
            part += c
    out.append(part.strip())
    return [p[1:-1] if p.startswith("(") and p.endswith(")") else p for p in out]


def functions(texts):
    """Each function: file, name, its head up to the body."""
    for name, text in texts.items():
        for m in re.finditer(r'^ *(?:pub )?(?:extern "C" )?fn (\w+)', text, re.M):
            rest = text[m.start() :]
            end = re.search(r"\n *\{\n", rest)
            yield name, m[1], rest[: end.start()] if end else rest[:400]


def lines(texts, pattern):
    """The lines that a pattern fits, comments left out."""
    for name, text in texts.items():
        for at, line in enumerate(text.splitlines(), 1):
            if re.search(pattern, line) and not line.lstrip().startswith("//"):
                yield f"{name}:{at}: {line.strip()}"


def facts(texts):
    where = collections.defaultdict(set)
    for file, name, head in functions(texts):
        for r in re.finditer(r"requires (?:\w+ )?\{(.*)\}", head):
            for fact in conjuncts(r[1].strip()):
                where[fact].add((file, name))
    found = sorted(((len(v), k) for k, v in where.items() if len(v) >= 3), reverse=True)
    return [f"{n} {fact}" for n, fact in found]


def groups(texts):
    where = collections.defaultdict(set)
    for file, name, head in functions(texts):
        m = re.search(r"\((.*?)\)\s*(?:->|\n|$)", head, re.S)
        names = [p.split(":")[0].replace("mut ", "").strip() for p in m[1].split(",") if ":" in p] if m else []
        for i in range(len(names)):
            for j in range(i + 2, min(i + 5, len(names)) + 1):
                where[tuple(names[i:j])].add((file, name))
    found = sorted(((len(v), k) for k, v in where.items() if len(v) >= 5), reverse=True)
    return [f"{n} {', '.join(g)}" for n, g in found]


def main():
    if len(sys.argv) not in (2, 3) or sys.argv[1] not in ("loops", "facts", "groups", "enums", "numbers"):
        sys.exit(__doc__)
    what, texts = sys.argv[1], sources(sys.argv[2] if len(sys.argv) == 3 else None)
    if what == "loops":
        found = list(lines(texts, r"^\s*(?:'\w+: )?(?:while|loop)\b"))
        print("\n".join(found))
        print(f"{len(found)} while or loop, {len(list(lines(texts, r'^ *for ')))} for")
        return
    if what == "enums":
        found = list(lines(texts, r"^\s*(?:pub )?enum |^\s*(?:pub )?\w+: bool,$"))
    elif what == "numbers":
        found = list(lines(texts, r"counts_0\(|^\s*return (?:1?[0-9]);|\bop == [0-9]|\bk == [0-9]|/ 1073741824|op: u(?:8|32)"))
    else:
        found = facts(texts) if what == "facts" else groups(texts)
    print("\n".join(found))
    print(f"{len(found)} found")


if __name__ == "__main__":
    main()
