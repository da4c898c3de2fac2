#!/usr/bin/env python3
"""respell_docs.py: brings the names that the documents cite to the spelling of today's definitions and lemmas.

The names are those of respelled.tsv (tools/respell.py) and of respelled-by-port.tsv (what port.py respelled itself, and words of the
kit). Turned are the documents below: words between backticks, in docs/TRACE.md also those of the cells that cite, in the figure of
docs/ARCHITECTURE.md those in camel case. Names of functions of the code, of calls and of session files, which are spelled otherwise
already, stay; so do names of docs/changes/ that were gone before.
"""
import glob
import os
import re

HERE = os.path.dirname(os.path.abspath(__file__))
ROOT = os.path.dirname(HERE)
NAME = r"[^\s(){}\[\];,.\"`:→λ]+"
DOCUMENTS = ("README.md", "docs/ARCHITECTURE.md", "docs/DECISIONS.md", "docs/MANUAL.md", "docs/PERFORMANCE.md", "docs/PROMISES.md", "docs/TRACE.md")
PLAIN = {"read-only"}  # words of the language


def table():
    found = {}
    for name in ("respelled-by-port.tsv", "respelled.tsv"):
        with open(os.path.join(HERE, name), encoding="utf-8") as file:
            found.update(line.rstrip("\n").split("\t") for line in file)
    # a name in snake case is one of the code too, which keeps it
    return {old: new for old, new in found.items() if not re.fullmatch(r"\w*[a-z0-9]_[a-z0-9_]\w*", old) and old not in PLAIN}


def words(text, turned):
    return re.sub(NAME, lambda match: turned.get(match[0], match[0]), text)


def line_of(path, line, turned, is_figure):
    if is_figure:
        camel = {old: new for old, new in turned.items() if re.search("[a-z][A-Z]", old)}
        return words(line, camel) if path == "docs/ARCHITECTURE.md" else line
    cell = re.match(r"(\| [A-Z]\d+ \| .* \| )(.*)( \|)$", line) if path == "docs/TRACE.md" else None
    if cell:
        return cell[1] + words(cell[2], turned) + cell[3]
    return re.sub(r"`[^`]*`", lambda match: words(match[0], turned), line)


def main():
    turned, changed = table(), 0
    changes = sorted(glob.glob("docs/changes/*.md", root_dir=ROOT))
    for path in (*DOCUMENTS, *changes):
        with open(os.path.join(ROOT, path), encoding="utf-8") as file:
            old = file.read()
        is_figure, lines = False, []
        for line in old.split("\n"):
            is_figure ^= line.startswith("```")
            lines.append(line_of(path, line, turned, is_figure))
        new = "\n".join(lines)
        if new != old:
            changed += 1
            with open(os.path.join(ROOT, path), "w", encoding="utf-8") as file:
                file.write(new)
    print(f"respell_docs: {changed} documents changed")


if __name__ == "__main__":
    main()
