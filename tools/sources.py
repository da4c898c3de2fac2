"""Reads the sources of the crates as text: what a logic module (.antt) declares, and the functions and types of code (.rt).

Both follow the layout that `rt fmt` writes: a declaration begins at its block's column, and what belongs to it stands further in. Comments
and layout are left out of the texts, so two texts are equal exactly when the same words stand in the same order.
"""
import collections
import re

# kind: definition, data, record, law (antt); fn, struct, enum, const (rt). statement: signature or contract; body: clauses, proof
# or code; members: constructors, fields or variants; unfolds: the definitions that it unfolds by name
Declaration = collections.namedtuple("Declaration", "name kind public statement body members unfolds")

SIGNATURE = re.compile(r"((?:unfoldable |abbrev |pub |axiom )*)([^\s:(){}.;,@\"]+)((?: \{[^}]*\})?) : (.*)", re.S)
BLOCK = re.compile(r"((?:pub )?)(data|record) (\S+)(.*)", re.S)


def without_comments(text, mark):
    """each comment, from `mark` to the end of its line, taken out; strings are kept"""
    kept = []
    for line in text.split("\n"):
        found = re.search(r"^(?:[^\"]|\"(?:[^\"\\]|\\.)*\")*?(?=(?:^|(?<=\s))" + re.escape(mark) + ")", line)
        kept.append(found.group(0) if found else line)
    return "\n".join(kept)


def squeeze(text):
    return " ".join(text.split())


def indent(line):
    return len(line) - len(line.lstrip(" "))


def items(lines):
    """the lines of a block as items: a line at the block's column with those further in below it"""
    found = []
    for line in lines:
        if not line.strip():
            continue
        if found and indent(line) > indent(found[0][0]):
            found[-1].append(line)
        else:
            found.append([line])
    return found


def is_law(marks, type_text, proofs):
    """a fact and not a notion: neither `abbrev` nor `unfoldable`; in specs/ its type speaks of values: it names an argument or has
    a relation"""
    return not re.search(r"abbrev|unfoldable", marks) and (proofs or bool(re.search(r"\([^(){}:]+ : |[≡≤<¬]", type_text)))


def block_members(lines):
    """constructors of a data type, fields of a record"""
    found = []
    for line in lines[1:]:
        match = re.match(r"\s+(?:pub )?([^:]+) : ", line)
        if match and indent(line) == indent(lines[1]) and not line.strip().startswith("deriving"):
            found += match.group(1).split()
    return tuple(found)


class Module:
    """a logic module as it is read, item by item"""

    def __init__(self, text, proofs):
        self.proofs, self.found = proofs, []
        self.block(without_comments(text, "--").split("\n"), [])

    def block(self, lines, context):
        """context: the heads of the blocks around, with their parameters"""
        self.closed = True
        for item in items(lines):
            self.item(item, squeeze("\n".join(item)), context)

    def item(self, item, flat, context):
        if re.match(r"(pub |unfoldable pub )?(use|mod) |open |infix", flat):
            return
        inner = re.match(r"((unfoldable |abbrev )*mutual)\b|module ", flat)
        if inner:
            end = 0 if inner.group(1) else next(i for i, line in enumerate(item) if squeeze(line).endswith("where"))
            self.block(item[end + 1 :], context + [squeeze("\n".join(item[: end + 1]))])
            self.closed = True
            return
        typed = BLOCK.match(flat)
        if typed:
            self.add(typed[3], typed[2], typed[1], context + [f"{typed[2]} {typed[3]}{typed[4]}"], block_members(item))
            self.closed = True
            return
        signed = SIGNATURE.match(flat)
        if signed:
            marks, name, levels, type_text = signed.groups()
            kind = "law" if is_law(marks, " ".join([*context, type_text]), self.proofs) else "definition"
            self.add(name, kind, marks, context + [f"{name}{levels} : {type_text}"], ())
        elif not self.closed:
            self.clause(flat)

    def add(self, name, kind, marks, statement, members):
        self.found.append(Declaration(name, kind, "pub" in marks, " ".join(statement), "", members, ()))
        self.closed = False

    def clause(self, flat):
        """one more line of the declaration that is read: its `unfolding` line or a clause"""
        if flat.startswith("unfolding "):
            opened = flat.split(" ")[1:]
        else:
            opened = [name for m in re.finditer(r"\bunfold ((?:\S+ )+?)in\b", flat) for name in m.group(1).split()]
        last = self.found.pop()
        body = f"{last.body} ; {flat}" if last.body else flat
        self.found.append(last._replace(body=body, unfolds=last.unfolds + tuple(opened)))


def read_antt(text, proofs=False):
    """the declarations of a logic module, in order, without their marks; one inside `module _ (..) where` has the block's parameters
    in its statement"""
    return Module(text, proofs).found


def uses(text, mark="use"):
    """(module, names, other name): of each `use` line; names is None for a whole module; other names by `as`"""
    found = []
    text = without_comments(text, "--" if mark == "use" else "//")
    for line in text.split("\n"):
        match = re.match(r"\s*(?:pub |unfoldable pub )?" + mark + r" ([^\s{;]+?)(?:\.\{([^}]*)\})?(?: as (\S+?))?;?\s*$", line)
        if not match:
            continue
        module, names, other = match.groups()
        if names is None:
            found.append((module, None, other or module.split(".")[-1]))
        else:
            pairs = [tuple(n.split(" as ")) if " as " in n else (n, n) for n in (n.strip() for n in names.split(",")) if n]
            found.append((module, pairs, None))
    return found


FUNCTION = re.compile(r"((?:#\[[^\]]*\] )*)(pub )?((?:extern \"C\" )?fn (\w+).*)", re.S)
TYPE = re.compile(r"((?:#\[[^\]]*\] )*)(pub )?((struct|enum|const) (\w+).*)", re.S)


def code_items(lines):
    """the items of a file or of an `impl`: each ends at its own column, with a brace or a semicolon"""
    found, current = [], []
    for line in lines:
        if not line.strip():
            continue
        current.append(line)
        if indent(line) == indent(current[0]) and line.rstrip().endswith((";", "}")):
            found.append(current)
            current = []
    return found


def read_function(item, prefix):
    """what stands before the body's brace is the contract"""
    alone = [i for i, line in enumerate(item) if line.rstrip() == " " * indent(item[0]) + "{"]
    cut = alone[0] if alone else next(i for i, line in enumerate(item) if line.rstrip().endswith("{"))
    head = squeeze("\n".join(item[: cut + 1])).rstrip("{ ")
    marks, public, statement, name = FUNCTION.match(head).groups()
    return Declaration(prefix + name, "fn", bool(public), marks + statement, squeeze("\n".join(item[cut + 1 : -1])), (), ())


def read_type(flat):
    marks, public, statement, kind, name = TYPE.match(flat).groups()
    inside = re.search(r"\{(.*)\}", statement) if kind != "const" else None
    bare = re.sub(r"\([^()]*\)|\{[^{}]*\}", "", inside.group(1)) if inside else ""
    members = tuple(re.findall(r"(?:^|,)\s*(?:pub )?(\w+)", bare))
    return Declaration(name, kind, bool(public), marks + statement, "", members, ())


def read_rt(text):
    """functions with contract and body, structs, enums and constants, without `pub`; functions of `impl T`, or of `impl<'a> T<'a>`, are
    named T::f, those of `impl Trait for T` "Trait for T::f"; the ghost members of such a block stand in none"""
    found = []
    lines = [line for line in without_comments(text, "//").split("\n") if not line.startswith("#![")]
    for item in code_items(lines):
        flat = squeeze("\n".join(item))
        owner = re.match(r"impl(?:<.*?>)? (.*?) ?\{", flat)
        if owner:
            name = re.sub(r"<'\w+>", "", owner.group(1))
            for inner in code_items(item[1:-1]):
                part = squeeze("\n".join(inner))
                if FUNCTION.match(part):
                    found.append(read_function(inner, name + "::"))
                elif TYPE.match(part):
                    found.append(read_type(part))
        elif FUNCTION.match(flat):
            found.append(read_function(item, ""))
        elif TYPE.match(flat):
            found.append(read_type(flat))
    return found


FOLDER = re.compile(r"crates/([^/]+)/(specs|proofs|src)/(.+)\.(antt|rt)$")


def place(path):
    """crate, folder and file of a source, or nothing: crates/rules/specs/State.antt is ("rules", "specs", "State")"""
    found = FOLDER.match(path)
    return found.groups()[:3] if found else None


def read_source(path, text):
    return read_rt(text) if path.endswith(".rt") else read_antt(text, proofs="/proofs/" in path)


def believed(promises):
    """of docs/PROMISES.md, "What must be believed": the files of its table with their lines, and the general definitions by file"""
    part = promises.partition("## What must be believed\n")[2].partition("\n## ")[0]
    files = {path: int(lines) for path, lines in re.findall(r"^\| `([^`]+)` \| .* \| (\d+) \|$", part, re.M)}
    rows = re.findall(r"^\| `([^`]+)` \| ((?:`[^`]+`(?:, )?)+) \|$", part, re.M)
    return files, {path: re.findall(r"`([^`]+)`", names) for path, names in rows}
