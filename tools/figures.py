#!/usr/bin/env python3
"""figures.py [LOG]: lines of code, definitions and proof of each crate, its edits that must be refused, and the seconds that its check took.

The seconds are read from LOG, what `rt ci` of an older kit printed (without it target-gate/rt-ci.log of the last run of the gate); today's
prints none, and a crate of which LOG has none gets a dash.
Lines count without empty ones. Code is src/ without the lines of contracts and `ghost use`; definitions are specs/, laws in them included.
"""
import glob
import os
import re
import sys

ROOT = os.path.dirname(os.path.dirname(os.path.abspath(__file__)))


def lines(pattern, skip=None):
    count = 0
    for path in glob.glob(os.path.join(ROOT, pattern), recursive=True):
        with open(path, encoding="utf-8") as file:
            for line in file:
                if line.strip() and not (skip and skip.match(line)):
                    count += 1
    return count


def crates():
    with open(os.path.join(ROOT, "crates.txt"), encoding="utf-8") as file:
        return [line.split(":")[0].split()[0] for line in file if ":" in line and not line.startswith("#")]


def seconds(log):
    with open(log, encoding="utf-8", errors="replace") as file:
        return dict(re.findall(r"^rt: (\w+) proved \((\d+) s\)", file.read(), re.M))


def main():
    log = sys.argv[1] if len(sys.argv) > 1 else os.path.join(ROOT, "target-gate", "rt-ci.log")
    took = seconds(log) if os.path.exists(log) else {}
    contract = re.compile(r"\s*(ghost use|requires|ensures)\b")
    rows = []
    for name in crates():
        base = f"crates/{name}/"
        edits = sum(len(glob.glob(os.path.join(ROOT, base, folder, "*.edit"))) for folder in ("must-fail", "refused"))
        rows.append((name, lines(base + "src/**/*.rt", contract), lines(base + "specs/**/*.antt"), lines(base + "proofs/**/*.antt"), edits, took.get(name, "-")))
    print("| crate | code | definitions | proof | edits | check, s |")
    print("|---|---|---|---|---|---|")
    for row in rows:
        print("| `{}` | {:,} | {:,} | {:,} | {} | {} |".format(*row))
    total = [sum(row[k] for row in rows) for k in range(1, 5)]
    checked = sum(int(row[5]) for row in rows if row[5] != "-")
    print("| together | {:,} | {:,} | {:,} | {} | {} |".format(*total, checked or "-"))


if __name__ == "__main__":
    main()
