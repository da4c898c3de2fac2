#!/usr/bin/env python3
"""uses.py FILE...: writes the `use` lines of logic modules (specs/ and proofs/, not the proofs of functions) anew from the names in them.

A name is looked up in the public names of the crates that the file's crate rests on (crates.txt), then among the names of
the kit's libraries as other modules of this repository import them. A line with `as`, without braces, or of declared structs is kept. A local
variable with the name of a public definition is imported too: look at what changed. (`rt check --fix-imports` writes missing `use` lines of a
crate that is being checked, and `rt tidy` drops needless ones of one that is proved; this looks at the text alone.)
"""
import collections
import glob
import os
import re
import sys

ROOT = os.path.dirname(os.path.dirname(os.path.abspath(__file__)))
PLACE = re.compile(re.escape(ROOT) + r"/crates/([^/]+)/(specs|proofs)/(.*)\.antt")
NAME = r"([^\s:{(]+)(?: \{[^}]*\})? :"
OWN = re.compile(r"Rattle\.(?!std\b|core\b)")  # paths of this repository; those of the kit's libraries begin otherwise
OF_FUNCTIONS = ("Answers", "Invariants", "Proof")
KEYWORDS = set(
    "data record where let in if module pub abbrev unfoldable unfolding use mod elim as Type tt rw simp cc search omega"
    " absurd".split()
)


def text(path):
    with open(path, encoding="utf-8") as f:
        return f.read()


def modules():
    return sorted(
        glob.glob(ROOT + "/crates/*/specs/**/*.antt", recursive=True)
        + glob.glob(ROOT + "/crates/*/proofs/**/*.antt", recursive=True)
    )


def library_names(kind):
    """name -> module of the kit, the one most used in specs/ or in proofs/; what only the other uses too"""
    found = collections.defaultdict(collections.Counter)
    for path in modules():
        weight = 1000 if PLACE.match(path)[2] == kind else 1
        for m in re.finditer(r"^use ([^\s{]+)\.\{([^}]*)\}", text(path), re.M):
            if OWN.match(m.group(1)):
                continue
            for name in m.group(2).split(","):
                if name.strip() and " as " not in name:
                    found[name.strip()][m.group(1)] += weight
    return {name: c.most_common(1)[0][0] for name, c in found.items()}


def public_names(path):
    """the public definitions, records, data types and constructors of a module; no fields"""
    source = text(path)
    types, fields, inside = [], set(), None
    for line in source.split("\n"):
        record = re.match(r"( *)pub record (\S+)", line)
        data = re.match(r"( *)(?:pub )?data (\S+)", line)
        if record or data:
            m = record or data
            types.append(m.group(2))
            inside = ("record" if record else "data", len(m.group(1)))
        elif inside and line.strip():
            if len(line) - len(line.lstrip()) <= inside[1]:
                inside = None
                continue
            field = re.match(r" *pub (\S+) :", line)
            constructor = re.match(r" *([^:]+) :", line)
            if inside[0] == "record" and field:
                fields.add(field.group(1))
            elif inside[0] == "data" and constructor:
                types += constructor.group(1).split()
    names = re.findall(r"^ *(?:unfoldable |abbrev )?pub " + NAME, source, re.M)
    return [n for n in dict.fromkeys(types + names) if n not in fields or n in types]


def near(crate):
    """a crate and those that it rests on: only these can be named"""
    for line in text(ROOT + "/crates.txt").split("\n"):
        name, _, on = line.split("#")[0].partition(":")
        if name.split()[:1] == [crate]:
            return {crate, *on.split()}
    return {crate}


def order_in(crate, kind):
    path = ROOT + f"/crates/{crate}/{kind}/Lib.antt"
    return [l.split()[-1] for l in text(path).split("\n") if "mod " in l] if os.path.exists(path) else []


def repository_names(mine):
    """name -> module, for every name that the module `mine` may import"""
    crate, kind, place = PLACE.match(mine).groups()
    known, crates = {}, near(crate)
    for path in modules():
        c, k, p = PLACE.match(path).groups()
        if p == "Lib" or p.split("/")[-1] in OF_FUNCTIONS or c not in crates or path == mine:
            continue
        if c == crate:
            if k == "proofs" and kind == "specs":
                continue
            order = order_in(c, k) if k == kind else []
            if p in order and place in order and order.index(p) > order.index(place):
                continue
        elif k == "proofs" and "/" in p:
            continue
        for name in public_names(path):
            known.setdefault(name, f"Rattle.{c}.{k}.{p.replace('/', '.')}")
    return known


def rank(module):
    for i, start in enumerate(("mathlib", "Prim", "native", "lib.", "Rattle.core", "Rattle.std")):
        if module.startswith(start):
            return (i, module)
    return (7 if module.startswith("Rattle") else 6, module)


def rewrite(path, library):
    known = repository_names(path)
    lines = text(path).split("\n")
    start = next((i for i, l in enumerate(lines) if not l.startswith("--")), len(lines))
    kept, mods, body = [], [], []
    for line in lines[start:]:
        if line.startswith("use "):
            if "{" not in line or " as " in line or ".declared." in line:
                kept.append(line)
        elif re.match(r"(pub )?mod ", line):
            mods.append(line)
        else:
            body.append(line)
    body = "\n".join(body).strip("\n")
    code = re.sub(r"--[^\n]*", "", body)
    words = {w for w in re.split(r"[\s(){}\[\];,]+", code) if w and not w.startswith(".")}
    words |= {w.split(".")[0] for w in words}  # `value.field`
    own = set(public_names(path)) | set(re.findall(r"^ *(?:unfoldable |abbrev |pub )*" + NAME + " ", code, re.M))
    operators = {k.replace("◌", ""): k for k in library if "◌" in k}
    need = collections.defaultdict(list)
    for word in sorted(words - KEYWORDS - own):
        name = word if word in known or word in library else operators.get(word)
        if name:
            need[known.get(name) or library[name]].append(name)
    if "[]" in code and "[]" in library:
        need[library["[]"]].append("[]")
    uses = [f"use {m}.{{{', '.join(dict.fromkeys(need[m]))}}}" for m in sorted(need, key=rank)]
    with open(path, "w", encoding="utf-8") as f:
        f.write("\n".join(lines[:start] + uses + kept + mods + ["", body, ""]))


def main():
    library = {kind: library_names(kind) for kind in ("specs", "proofs")}
    for path in map(os.path.abspath, sys.argv[1:]):
        rewrite(path, library[PLACE.match(path)[2]])


main()
