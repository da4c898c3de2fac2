#!/usr/bin/env python3
"""Do the documents cite what is there? Run: python3 tests/trace.py [--lines]

- docs/TRACE.md: every `crate/file: name`, function, must-fail edit, test and heading that a row cites exists.
- README, tests/README and the documents of docs/: every path in them exists, and the names that stand after a file or a crate are in it.
- docs/ARCHITECTURE.md: each crate has a row with its modules; the table of what is shown of the rules has the modules of each folder;
  the table of definitions of packing that are unfolded above it is whole.
- docs/PROMISES.md names the logic of the kit that is at hand, and edits that are there. The claims (history/specs/Claims) are inhabited
  by a theorem of just that type. Every public function has an `ensures`.
- docs/PROMISES.md, "What must be believed": the table of files is closed under what their definitions use, each file after those that
  it uses, with the right number of lines; the general definitions and the notions of the kit are just those that are used besides.
With --lines the numbers of lines in that table are written anew first.
Exit status: 0 all well, 1 not. Each trouble is a line.
"""
import functools
import glob
import os
import re
import shutil
import subprocess
import sys

sys.dont_write_bytecode = True
ROOT = os.path.dirname(os.path.dirname(os.path.abspath(__file__)))
sys.path.insert(0, os.path.join(ROOT, "tools"))
import sources  # noqa: E402

DOCUMENTS = ("README.md", "tests/README.md", "CHANGELOG.md") + tuple(
    f"docs/{name}.md" for name in ("ARCHITECTURE", "DECISIONS", "MANUAL", "PERFORMANCE", "PROMISES", "TRACE")
)
# what rt, the gate and `make` write; lib/ is in the package
MADE = re.compile(r"(target-gate|dist|build|lib|crates/\w+/out)/")
EDIT_FOLDERS = ("must-fail", "refused")


@functools.lru_cache(maxsize=None)
def read(path):
    with open(os.path.join(ROOT, path), encoding="utf-8") as file:
        return file.read()


@functools.lru_cache(maxsize=None)
def declared(path):
    """the declarations of crates/PATH"""
    return sources.read_source("crates/" + path, read("crates/" + path))


def crates():
    return [line.split(":")[0].split()[0] for line in read("crates.txt").split("\n") if ":" in line and not line.startswith("#")]


def source(path):
    """the file below crates/ that `crate/specs/File`, `crate/proofs/Folder/File` or the like names, or nothing"""
    for end in ("", ".antt", ".rt"):
        if re.search(r"\.(antt|rt)$", path + end) and os.path.isfile(os.path.join(ROOT, "crates", path + end)):
            return path + end
    return None


def has(path, name):
    """is the name declared in the file; `record.field` and `value.field` too"""
    owner, _, field = name.partition(".")
    for d in declared(path):
        if d.name == name or (not field and name in d.members):
            return True
        if field and d.name == owner and (field in d.members or re.search(rf"\b{re.escape(field)} = ", d.body)):
            return True
    return False


def code_has(crate, name):
    """`module::name`, or a name of lib.rt or main.rt"""
    module, _, rest = name.partition("::")
    places = [(f"{crate}/src/{module}.rt", rest)] if rest else [(f"{crate}/src/{top}.rt", name) for top in ("lib", "main")]
    return any(source(path) and has(path, inner) for path, inner in places)


def edit_file(crate, name):
    """the edit, in either of the folders that hold edits"""
    found = [f"crates/{crate}/{folder}/{name}.edit" for folder in EDIT_FOLDERS]
    return next((path for path in found if os.path.isfile(os.path.join(ROOT, path))), None)


# ---- docs/TRACE.md

PIECE = re.compile(r"(?:(?P<path>[\w/]+): )?(?P<name>[^\s,;:()/]+)$")
WORDS = ("def", "law", "thm", "contract", "contracts", "code", "edit", "edits")


class Row:
    """one row: what it cites is looked up item by item; a file, a crate or a folder holds for the names after it"""

    def __init__(self, number):
        self.number, self.troubles, self.cited = number, [], 0
        self.word = self.file = self.crate = self.edits = None

    def trouble(self, text):
        self.troubles.append(f"docs/TRACE.md, row {self.number}: {text}")

    def item(self, text):
        bare = re.sub(r" \([^()]*\)", "", text.strip())
        first, _, rest = bare.partition(" ")
        if first in WORDS and not rest.startswith("of crate"):
            self.word, bare = first, rest
        elif first == "test:":
            self.word = None
            self.paths(bare)
            return
        elif re.match(r"\w+/(specs|proofs)/", bare) or (re.match(r"[\w.]+$", bare) and self.word):
            self.word = self.word or "def"  # one more of the same
        else:
            self.word = None
            self.text(text)
            return
        for piece in re.split(r", (?:and )?", bare):
            if self.word.startswith("edit"):
                self.edit(piece)
            elif self.word in ("contract", "contracts", "code"):
                self.function(piece)
            else:
                self.definition(piece)

    def definition(self, piece):
        self.cited += 1
        if source(piece):
            self.file = source(piece)
            return
        match = PIECE.match(piece)
        if not match:
            self.trouble(f"cannot read '{piece}'")
            return
        if match["path"]:
            beside = f"{os.path.dirname(self.file)}/{match['path']}" if self.file else ""
            self.file = source(match["path"]) or source(beside)
            if not self.file:
                self.trouble(f"there is no file {match['path']}")
                return
        if not self.file:
            self.trouble(f"'{piece}' stands without a file")
        elif not has(self.file, match["name"]):
            self.trouble(f"{self.file} has no {match['name']}")

    def function(self, piece):
        self.cited += 1
        crate, _, name = piece.rpartition(" ")
        self.crate = crate or self.crate
        if not self.crate or not code_has(self.crate, name):
            self.trouble(f"crate {self.crate} has no function or type {name}")

    def edit(self, piece):
        self.cited += 1
        parts = piece.split("/")
        if len(parts) == 3 and parts[1] in EDIT_FOLDERS:
            self.edits = parts[0]
        elif len(parts) != 1:
            self.trouble(f"cannot read the edit '{piece}'")
            return
        if not self.edits or not edit_file(self.edits, parts[-1]):
            self.trouble(f"there is no edit {piece} (in {' or '.join(EDIT_FOLDERS)})")

    def paths(self, text):
        found = re.findall(r"[\w.-]+/[\w./-]*", text)
        self.cited += len(found)
        self.troubles += path_troubles(f"docs/TRACE.md, row {self.number}", " ".join(f"`{path}`" for path in found))

    def text(self, text):
        """plain words: the paths, crates, headings and numbers of decisions in them"""
        self.paths(text)
        for path, heading in re.findall(r"(docs/\w+\.md), \"([^\"]+)\"", text):
            if f"# {heading}\n" not in read(path):
                self.trouble(f"{path} has no heading '{heading}'")
        for number in re.findall(r"docs/DECISIONS\.md (\d+)", text):
            if f"\n{number}. " not in read("docs/DECISIONS.md"):
                self.trouble(f"docs/DECISIONS.md has no {number}")
        for name in re.findall(r"(?:crates?|and|program) `(\w+)`", text):
            self.cited += 1
            if name not in crates():
                self.trouble(f"there is no crate {name}")


def trace_troubles(text):
    """(troubles, rows, things cited)"""
    troubles, rows, cited = [], 0, 0
    for line in text.split("\n"):
        match = re.match(r"\| ([A-Z]\d+) \| (.*) \| (.*) \|$", line)
        if not match:
            continue
        row = Row(match.group(1))
        for item in re.split(r"; ", match.group(3)):
            row.item(item)
        troubles, rows, cited = troubles + row.troubles, rows + 1, cited + row.cited
    return troubles, rows, cited


# ---- paths in any document


def exists(path, near):
    """a path of the repository, near the document, below crates/ or inside a crate; globs allowed; a module without its ending too"""
    if MADE.match(path):
        return True
    path = path.rstrip("/")
    for start in ("", near, "crates/", "crates/*/"):
        for end in ("", ".antt", ".rt", ".edit"):
            if glob.glob(os.path.join(ROOT, start + glob_text(path + end, start))):
                return True
    parts = path.split("/")
    return len(parts) == 3 and parts[1] in EDIT_FOLDERS and edit_file(parts[0], parts[2]) is not None


def glob_text(path, start):
    """`proofs/m/f/Proof.antt` speaks of any module m and function f"""
    return re.sub(r"(?<=/)[mf](?=/|$)", "*", path) if start == "crates/*/" else path


def path_troubles(document, text):
    """paths in backquotes or below a folder of the repository, and the names that follow them"""
    troubles = []
    text = re.sub(r"^```.*?^```", "", text, flags=re.S | re.M)
    bare = re.findall(r"(?<![\w/.`+*-])((?:docs|tests|tools|bench|examples|include|oracle|crates|\.ci)/[\w./*-]*\w)", text)
    for path in re.findall(r"`([\w.*+-]+/[\w./*+-]*)`", text) + bare:
        if not exists(path, re.match(r"(\w+/)?", document).group(0)):
            troubles.append(f"{document}: there is no {path}")
    # `file.antt`: `name`, `name` and `file.antt` (`name`)
    for path, names in re.findall(r"`([\w/+]+\.(?:antt|rt))`(?::| \() ?((?:`[^`\s]+`(?:, )?)+)", text):
        if source(path):
            troubles += [f"{document}: {path} has no {n}" for n in re.findall(r"`([^`]+)`", names) if not has(source(path), n)]
    # `crate`: `module::name`, `name`
    for crate, names in re.findall(r"`(\w+)`: ((?:`\w+::\w+`(?:, )?)+)", text):
        if crate in crates():
            troubles += [f"{document}: crate {crate} has no {n}" for n in re.findall(r"`([^`]+)`", names) if not code_has(crate, n)]
    return troubles


# ---- docs/ARCHITECTURE.md


def quoted(cell):
    return re.findall(r"`([^`]+)`", cell)


def named_somewhere(crate, folder, name):
    """a file or folder of that name in a crate's folder, or something that its files declare"""
    start = os.path.join(ROOT, "crates", crate, folder)
    if glob.glob(f"{start}/**/{glob.escape(name)}", recursive=True) or glob.glob(f"{start}/**/{glob.escape(name)}.*", recursive=True):
        return True
    paths = [os.path.relpath(path, os.path.join(ROOT, "crates")) for path in glob.glob(f"{start}/**/*.*", recursive=True)]
    return any(has(path, name) for path in paths if path.endswith((".antt", ".rt")))


def modules_of(crate, folder):
    """the modules that a reader looks for by name: of specs/ and src/"""
    paths = glob.glob(os.path.join(ROOT, "crates", crate, folder, "**/*.*"), recursive=True)
    return {os.path.splitext(os.path.basename(path))[0] for path in paths} - {"Lib", "lib", "main"}


def architecture_troubles(text):
    troubles, rows = [], {}
    for row in re.findall(r"^\| `(\w+)` \| ([^|]*) \| ([^|]*) \| ([^|]*) \| ([^|]*) \|$", text, re.M):
        rows[row[0]] = dict(zip(("specs", "src", "proofs"), row[2:]))
    for crate in crates():
        if crate not in rows:
            troubles.append(f"docs/ARCHITECTURE.md: crate {crate} has no row")
            continue
        for folder, cell in rows[crate].items():
            names = [name for name in quoted(cell) if not re.search(r"[/\s]", name)]
            lost = [name for name in names if not (folder == "proofs" and name[0].islower()) and not named_somewhere(crate, folder, name)]
            troubles += [f"docs/ARCHITECTURE.md: {folder}/ of crate {crate} has no {name}" for name in lost]
            if folder != "proofs":
                more = sorted(modules_of(crate, folder) - set(names))
                troubles += [f"docs/ARCHITECTURE.md: {folder}/ of crate {crate} has {name} too" for name in more]
    for folder, cell in re.findall(r"^\| `(\w+)` \| ([^|]*) \| [^|]* \|$", text.partition("(`rules/proofs/`)")[2], re.M):
        there = {os.path.basename(p)[:-5] for p in glob.glob(os.path.join(ROOT, "crates/rules/proofs", folder, "*.antt"))}
        names = set(quoted(cell))
        wrong = names - there if " to " in cell else names ^ there
        troubles += [f"docs/ARCHITECTURE.md: rules/proofs/{folder}: {name}" for name in sorted(wrong)]
    return troubles


def unfolded(crate):
    """(definition, module) wherever a definition of a crate is unfolded by name in another, in a proof or by a function's tactic"""
    found = set()
    for path in sorted(glob.glob(os.path.join(ROOT, "crates/*/src/**/*.rt"), recursive=True)):
        path = os.path.relpath(path, os.path.join(ROOT, "crates"))
        opened = re.findall(rf"\b{crate}::specs::[\w:]*::(\w+)", " ".join(re.findall(r"\bunfolding\(([^)]*)\)", read("crates/" + path))))
        found |= {(name, path[: -len(".rt")]) for name in opened if not path.startswith(crate + "/")}
    for path in sorted(glob.glob(os.path.join(ROOT, "crates/*/*/**/*.antt"), recursive=True)):
        path = os.path.relpath(path, os.path.join(ROOT, "crates"))
        if path.startswith(crate + "/") or path.split("/")[1] not in ("specs", "proofs"):
            continue
        names = Uses.imports(path)[0]
        for d in declared(path):
            mine = [names[name] for name in d.unfolds if name in names]
            found |= {(name, path[: -len(".antt")]) for module, name in mine if module.startswith(f"Rattle.{crate}.")}
    return found


def unfold_troubles(text):
    """the table of docs/ARCHITECTURE.md that says where definitions of packing are unfolded above it"""
    part = text.partition("\n## Where things stand\n")[2].partition("\n## ")[0]
    rows = re.findall(r"^\| [^|`]+ \| ((?:`[^`]+`(?:, )?)+) \| ((?:`[^`]+`(?:, )?)+) \|$", part, re.M)
    told = {(name, module) for names, modules in rows for name in quoted(names) for module in quoted(modules)}
    there = unfolded("packing")
    start = "docs/ARCHITECTURE.md, Where things stand:"
    return [f"{start} {module} unfolds {name}, and no row says so" for name, module in sorted(there - told)] + [
        f"{start} {module} does not unfold {name}" for name, module in sorted(told - there)
    ]


# ---- contracts and edits


def contract_troubles():
    """a public function without an `ensures`"""
    found = []
    for path in sorted(glob.glob(os.path.join(ROOT, "crates/*/src/**/*.rt"), recursive=True)):
        path = os.path.relpath(path, os.path.join(ROOT, "crates"))
        found += [f"crates/{path}: {d.name} is public and has no ensures" for d in declared(path) if lacks_outcome(d)]
    return found


def lacks_outcome(d):
    return d.kind == "fn" and d.public and " ensures " not in d.statement


def edit_troubles(promises):
    """docs/PROMISES.md, "It can fail": the edits of the rules"""
    part = promises.partition("\n## It can fail\n")[2].partition("\n## ")[0]
    names = [name for cell in re.findall(r"^\| ((?:`\w+`(?:, )?)+) \|", part, re.M) for name in quoted(cell)]
    return [f"docs/PROMISES.md: there is no edit {name} of rules" for name in names if not edit_file("rules", name)]


# ---- docs/PROMISES.md, "What must be believed"


class Uses:
    """the definitions that those of some files use, directly or by way of others"""

    def __init__(self, files):
        self.files, self.found, self.kit, self.pairs, self.lost = files, set(), set(), set(), set()
        for path in files:
            for d in declared(path):
                if d.kind != "law":
                    self.follow(path, d)

    @staticmethod
    def imports(path):
        mark = "ghost use" if path.endswith(".rt") else "use"
        names, modules = {}, {}
        for module, pairs, other in sources.uses(read("crates/" + path), mark):
            if pairs is None:
                modules[other] = module
            else:
                names.update({local: (module, name) for name, local in pairs})
        return names, modules

    def follow(self, path, d):
        if (path, d.name) in self.found:
            return
        self.found.add((path, d.name))
        names, modules = self.imports(path)
        operators = {name.strip("◌"): name for name in names if "◌" in name}
        own = {name: other for other in declared(path) if other.kind != "law" for name in (other.name, *other.members)}
        text = d.statement if d.kind == "fn" else f"{d.statement} {d.body}"
        for word in re.split(r"[\s(){}\[\];,]+", text):
            word = word.rstrip(".")
            name = word if word in names else operators.get(word)
            owner, _, inner = word.partition(".")  # `module.name`, or `value.field`
            if name or owner in names:
                self.target(path, d, *names[name or owner])
            elif owner in modules and inner:
                self.target(path, d, modules[owner], inner)
            elif owner in own:
                self.follow(path, own[owner])

    def target(self, path, d, module, name):
        ours = re.match(r"Rattle\.(\w+)\.(specs|proofs)\.(.+)", module)
        if not ours or ours[1] not in crates():
            self.kit.add(name)
            return
        crate, folder, inner = ours.groups()
        code = re.match(r"declared\.(?:(\w+)\.)?(\w+)", inner)
        place = f"{crate}/src/{code.group(1) or 'lib'}.rt" if code else f"{crate}/{folder}/{inner.replace('.', '/')}.antt"
        found = [other for other in (declared(place) if source(place) else ()) if name == other.name or name in other.members]
        if not found:
            self.lost.add(f"{path}: {d.name} uses {name}, which {place} does not have")
            return
        self.pairs.add((path, place))
        self.follow(place, found[0])


# notions of the kit that every reader knows, or that the prelude has
PLAIN = set(
    "Bool true false not ◌&&◌ ◌||◌ List [] ◌∷◌ ◌++◌ Option none some ℕ zero suc ◌+◌ ◌*◌ ◌/◌ ◌%◌ ◌^◌ ◌<◌ ◌≤◌ ◌≡◌ ◌↔◌ ◌⊎◌ min max".split()
)


def with_lines(promises):
    """the document with the numbers of lines of its table of files written anew"""
    files, total = sources.believed(promises)[0], 0
    for path in filter(source, files):
        count = read("crates/" + path).count("\n")
        promises = re.sub(rf"^(\| `{re.escape(path)}` \| .* \| )\d+( \|)$", rf"\g<1>{count}\2", promises, count=1, flags=re.M)
        total += count
    return re.sub(r"^(\| \| together \| )\d+( \|)$", rf"\g<1>{total}\2", promises, flags=re.M)


def believed_troubles(promises):
    document = "docs/PROMISES.md, What must be believed"
    files, general = sources.believed(promises)
    missing = [path for path in (*files, *general) if not source(path)]
    if missing or not files or not general:
        return [f"{document}: there is no {path}" for path in missing] or [f"{document}: a table is missing"]
    troubles = []
    for path, lines in files.items():
        count = read("crates/" + path).count("\n")
        if count != lines:
            troubles.append(f"{document}: {path} has {count} lines, not {lines}")
    together = re.search(r"^\| \| together \| (\d+) \|$", promises, re.M)
    total = sum(read("crates/" + path).count("\n") for path in files)
    if not together or int(together.group(1)) != total:
        troubles.append(f"{document}: together they are {total} lines")
    uses = Uses(files)
    troubles += sorted(uses.lost)
    listed = {(path, name) for path, names in general.items() for name in names}
    besides = {(path, name) for path, name in uses.found if path not in files}
    troubles += [f"{document}: {path}: {name} is used and not listed" for path, name in sorted(besides - listed)]
    troubles += [f"{document}: {path}: {name} is listed and not used" for path, name in sorted(listed - besides)]
    order = list(files)
    for path, place in sorted(uses.pairs):
        if path in files and place in files and order.index(place) > order.index(path):
            troubles.append(f"{document}: {path} stands before {place}, which it uses")
    kit = re.search(r"Of the kit they use ((?:`[^`]+`(?:, | and )?\s*)+)", promises)
    told = set(re.findall(r"`([^`]+)`", kit.group(1))) if kit else set()
    wanted = {name for name in uses.kit if name not in PLAIN}
    troubles += [f"{document}: the kit's {name} is used and not named" for name in sorted(wanted - told)]
    troubles += [f"{document}: the kit's {name} is named and not used" for name in sorted(told - wanted)]
    return troubles


def claim_troubles():
    """the theorem that inhabits the closed claims, with no parameter and no hypothesis"""
    place = "history/proofs/Claims.antt"
    right = Uses.imports(place)[0].get("Claims") == ("Rattle.history.specs.Claims", "Claims")
    stated = any(d.public and d.statement == "claims : Claims" for d in declared(place))
    return [] if right and stated else [f"crates/{place}: there is no 'pub claims : Claims'"]


def kit_troubles(promises):
    """the logic of the kit at hand is the one that docs/PROMISES.md names"""
    if not shutil.which("rt"):
        return []
    logic = subprocess.run(["rt", "version"], capture_output=True, text=True, check=True).stdout.split()[-1]
    return [] if f"logic {logic}" in promises else [f"docs/PROMISES.md: the logic of this kit is {logic}"]


def main():
    if "--lines" in sys.argv[1:]:
        text = with_lines(read("docs/PROMISES.md"))
        with open(os.path.join(ROOT, "docs/PROMISES.md"), "w", encoding="utf-8") as file:
            file.write(text)
        read.cache_clear()
    troubles, rows, cited = trace_troubles(read("docs/TRACE.md"))
    for document in DOCUMENTS:
        troubles += path_troubles(document, read(document))
    troubles += architecture_troubles(read("docs/ARCHITECTURE.md")) + unfold_troubles(read("docs/ARCHITECTURE.md"))
    troubles += believed_troubles(read("docs/PROMISES.md")) + edit_troubles(read("docs/PROMISES.md"))
    troubles += kit_troubles(read("docs/PROMISES.md")) + contract_troubles() + claim_troubles()
    for trouble in troubles:
        print(trouble)
    print(f"trace: {rows} rows cite {cited} things; {len(DOCUMENTS)} documents; {len(troubles)} troubles")
    return 1 if troubles else 0


if __name__ == "__main__":
    sys.exit(main())
