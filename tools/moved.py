#!/usr/bin/env python3
"""moved.py [--all] BEFORE [AFTER]: which definitions, contracts, theorems and proofs were added, changed, removed, moved and kept.

BEFORE and AFTER are git revisions; without AFTER it is the working tree. What must be believed (docs/PROMISES.md of either side) is
told by name, the rest by count; --all lists every name that is not kept. Comments and layout do not count, nor do `use` lines and the
marks `pub`, `abbrev` and `unfoldable`.

  definition  data types, records and functions of specs/ (and of proofs/, told apart); changed: its type or its clauses
  contract    a function's signature, requires and ensures; code: its body
  theorem     a statement in proofs/, or a law in specs/; proof: its clauses. A theorem that is kept may have another proof.
A name that stands in another file or crate than before is moved, not removed and added; where its text differs too, it is told as
moved and changed (if there is only one such name on each side).
"""
import collections
import io
import os
import subprocess
import sys
import tarfile

sys.dont_write_bytecode = True
sys.path.insert(0, os.path.dirname(os.path.abspath(__file__)))
import sources  # noqa: E402

PROMISES = "docs/PROMISES.md"
Item = collections.namedtuple("Item", "sort path name statement body")
WORDS = ("added", "changed", "removed", "moved", "moved and changed")
SORTS = (
    ("definition", "definitions that must be believed"),
    ("definition for contracts", "definitions for contracts"),
    ("definition of a proof", "definitions in proofs"),
    ("exported contract", "contracts that must be believed"),
    ("contract", "contracts"),
    ("type of code", "structs, enums and constants of code"),
    ("theorem", "theorems and laws"),
)


def wanted(path):
    return path == PROMISES or sources.place(path) is not None


def tree_of(revision, root):
    """path -> text, of a revision or of the working tree"""
    if revision is None:
        found = {}
        for top in ("crates", "docs"):
            for folder, _, names in os.walk(os.path.join(root, top)):
                for name in names:
                    path = os.path.relpath(os.path.join(folder, name), root)
                    if wanted(path):
                        with open(os.path.join(root, path), encoding="utf-8") as file:
                            found[path] = file.read()
        return found
    made = subprocess.run(["git", "-C", root, "archive", "--format=tar", revision], capture_output=True)
    if made.returncode:
        sys.exit(f"moved.py: {made.stderr.decode().strip()}")
    with tarfile.open(fileobj=io.BytesIO(made.stdout)) as archive:
        return {m.name: archive.extractfile(m).read().decode() for m in archive if m.isfile() and wanted(m.name)}


def sort_of(declared, path, files, general):
    crate, folder, _ = sources.place(path)
    short = path[len("crates/") :]
    if declared.kind == "fn":
        return "exported contract" if short in files else "contract"
    if folder == "src":
        return "type of code"
    if declared.kind == "law":
        return "theorem"
    if folder == "proofs":
        return "definition of a proof"
    return "definition" if short in files or declared.name in general.get(short, ()) else "definition for contracts"


def items_of(tree, files, general):
    found = {}
    for path, text in tree.items():
        if path == PROMISES:
            continue
        for d in sources.read_source(path, text):
            found[path, d.name] = Item(sort_of(d, path, files, general), path, d.name, d.statement, d.body)
    return found


def kin(item):
    """definitions are matched with definitions, wherever they stand"""
    return "definition" if item.sort.startswith("definition") else "contract" if item.sort.endswith("contract") else item.sort


def pairs_by(key, before, after):
    """takes out of both those whose key stands once on each side"""
    sides = []
    for side in (before, after):
        at = collections.defaultdict(list)
        for item in side:
            at[key(item)].append(item)
        sides.append(at)
    found = [(sides[0][k][0], sides[1][k][0]) for k in sides[0] if len(sides[0][k]) == 1 == len(sides[1].get(k, ()))]
    for old, new in found:
        before.remove(old)
        after.remove(new)
    return found


def own_place(item):
    """what tells apart the many proofs that name their parts alike: the folder of the function"""
    parts = item.path.split("/")
    return parts[-2] if parts[-1] in ("Answers.antt", "Invariants.antt", "Proof.antt") else ""


def compare(old, new):
    """(word of its statement, word of its body, item), for all items"""
    told = []
    for key in old.keys() & new.keys():
        told.append((old[key], new[key]))
    before = [old[k] for k in sorted(old.keys() - new.keys())]
    after = [new[k] for k in sorted(new.keys() - old.keys())]
    gone = []
    for key in (
        lambda i: (kin(i), own_place(i), i.name, i.statement, i.body),
        lambda i: (kin(i), own_place(i), i.name, i.statement),
        lambda i: (kin(i), i.name, i.statement, i.body),
        lambda i: (kin(i), own_place(i), i.name),
    ):
        gone += pairs_by(key, before, after)
    for a, b in told + gone:
        moved = "moved" if a.path != b.path else ""
        whole = b.sort.startswith("definition")
        same = a.statement == b.statement and (a.body == b.body or not whole)
        word = " and ".join(w for w in (moved, "" if same else "changed") if w) or "kept"
        body = " and ".join(w for w in (moved, "" if a.body == b.body else "changed") if w) or "kept"
        yield word, body, b, a
    for a in before:
        yield "removed", "removed", a, a
    for b in after:
        yield "added", "added", b, b


def short(path):
    return path[len("crates/") :].rsplit(".", 1)[0]


def tell(title, rows, by_name):
    """rows: (word, item, item before)"""
    count = collections.Counter(word for word, _, _ in rows)
    parts = [f"{count[w]} {w}" for w in WORDS if count[w] or w in ("added", "changed", "removed", "moved")]
    print(f"{title}: {', '.join(parts)}, {count['kept']} kept")
    if not by_name:
        return
    for word in WORDS:
        at = collections.defaultdict(list)
        for w, item, old in rows:
            if w == word:
                way = short(item.path) if old.path == item.path else f"{short(old.path)} -> {short(item.path)}"
                at[way].append(item.name)
        for way in sorted(at):
            print(f"  {word}: {way}: {', '.join(sorted(at[way]))}")


def main(arguments):
    everything = "--all" in arguments
    revisions = [a for a in arguments if a != "--all"]
    if not 1 <= len(revisions) <= 2 or any(a.startswith("-") for a in revisions):
        sys.exit(__doc__)
    root = subprocess.run(["git", "rev-parse", "--show-toplevel"], capture_output=True, text=True, check=True).stdout.strip()
    trees = [tree_of(r, root) for r in (revisions + [None])[:2]]
    tables = [sources.believed(tree.get(PROMISES, "")) for tree in trees]
    files = {path for table, _ in tables for path in table}
    general = collections.defaultdict(set)
    for _, table in tables:
        for path, names in table.items():
            general[path] |= set(names)
    told = list(compare(*(items_of(tree, files, general) for tree in trees)))
    for sort, title in SORTS:
        rows = [(word, item, old) for word, _, item, old in told if item.sort == sort]
        tell(title, rows, everything or sort in ("definition", "exported contract"))
        if sort in ("exported contract", "contract"):
            tell(f"  code of these {title}", [(body, item, old) for _, body, item, old in told if item.sort == sort], everything)
    proofs = [(body, item, old) for _, body, item, old in told if item.sort == "theorem"]
    tell("proofs", proofs, everything)
    kept = [(body, item, old) for word, body, item, old in told if item.sort == "theorem" and word in ("kept", "moved")]
    tell("  proofs of theorems whose statement is the same", kept, everything)


if __name__ == "__main__":
    main(sys.argv[1:])
