#!/usr/bin/env python3
"""places.py [ROOT]: no file of the crates but the one of the laws has a place or width of the tables as a bare number.

The numbers are those of the laws in crates/tables/proofs/LayoutNumbers.antt, each beside its name. Looked at are all files of
crates/*/src, specs and proofs: their text and their comments, where a number may also be written 17,468. A sentence of
document 01 that a comment quotes may have them.
"""
import glob
import os
import re
import sys

LAWS = "crates/tables/proofs/LayoutNumbers.antt"
NAMES = ("sets_at", "files_at", "maps_at", "file_bytes", "set_files_bytes", "table_bytes", "old_files_at", "old_table_bytes")
NUMBER = re.compile(r"(?<![\w.])(0x[0-9a-fA-F_]+|\d{1,3}(?:,\d{3})+|\d[\d_]*)(?:[iu](?:8|16|32|64|size))?(?!\w)")


def read(path):
    with open(path, encoding="utf-8") as file:
        return file.read()


def numbers(root):
    """The numbers of the laws, by name."""
    told = {name: int(number) for name, number in re.findall(r"\((\w+) ≡ (\d+)\)", read(os.path.join(root, LAWS)))}
    missing = [name for name in NAMES if name not in told]
    if missing:
        sys.exit(f"places: {LAWS} has no number for {', '.join(missing)}")
    return {name: told[name] for name in NAMES}


def values(line):
    """The numbers of a line, but those of a comment's quotations."""
    text, mark, comment = (re.search(r"^(.*?)(//|--)(.*)$", line) or re.search("^(.*)()()$", line)).groups()
    for number in NUMBER.findall(text + mark + re.sub(r'"[^"]*"', '""', comment)):
        yield int(number.replace(",", "").replace("_", ""), 16 if number.startswith("0x") else 10)


def bare(root, told):
    """Every line with such a number, as path, line and name."""
    names = {number: name for name, number in told.items()}
    for part in ("src/**/*.rt", "specs/**/*.antt", "proofs/**/*.antt"):
        for path in sorted(glob.glob(os.path.join(root, "crates/*", part), recursive=True)):
            if os.path.relpath(path, root) == LAWS:
                continue
            for place, line in enumerate(read(path).splitlines(), 1):
                for number in values(line):
                    if number in names:
                        yield os.path.relpath(path, root), place, number, names[number]


def main(arguments):
    root = arguments[0] if arguments else os.path.dirname(os.path.dirname(os.path.abspath(__file__)))
    told = numbers(root)
    found = list(bare(root, told))
    for path, place, number, name in found:
        print(f"{path}:{place}: {number} stands for {name}: say it by name (tables/specs/Layout.antt, tables/src/places.rt)")
    said = ", ".join(f"{name} {number}" for name, number in told.items())
    print(f"places: {len(found)} bare numbers of {said}")
    return 1 if found else 0


if __name__ == "__main__":
    sys.exit(main(sys.argv[1:]))
