#!/usr/bin/env python3
"""calls.py: the calls of the session program as text, as hexadecimal and as bytes.

usage: calls.py FROM TO [FILE]      FROM and TO are text, hex or bytes; without FILE standard input is read
       calls.py help

Text, one call a line; numbers are decimal or 0x...; '#' begins a comment:
    create set S file F
    write set S file F at OFFSET length LENGTH fill BYTE
    truncate set S file F to SIZE
    delete set S file F
    make read-only set NEW from set S
    make writeable set NEW from set S
    remove set S
    raw DIGITS                  1 to 8 bytes in hexadecimal: what is no call, and ends a session

Hexadecimal: 16 digits a call; the text of the call follows as a comment, and after it the rest of the text's comment.
Bytes: 8 a call, as the session program reads them.
Exit status: 0 well, 1 bad input (each bad line is named on standard error with what was expected), 2 bad usage.
"""
import collections
import re
import sys

CALL_BYTES = 8
LONGEST_WRITE = 4096

# "A call is op 4 bits, set 4, file 4, other 4, offset 16, length 16, fill 8, zero 8."
WIDTHS = {"op": 4, "set": 4, "file": 4, "other": 4, "offset": 16, "length": 16, "fill": 8, "zero": 8}
Call = collections.namedtuple("Call", WIDTHS)

# For each op: its name, and its text with the fields that it uses in braces.
TEXTS = {
    1: ("create", "create set {set} file {file}"),
    2: ("write", "write set {set} file {file} at {offset} length {length} fill {fill}"),
    3: ("truncate", "truncate set {set} file {file} to {offset}"),
    4: ("delete", "delete set {set} file {file}"),
    5: ("make read-only", "make read-only set {other} from set {set}"),
    6: ("make writeable", "make writeable set {other} from set {set}"),
    7: ("remove", "remove set {set}"),
}
USED = {op: tuple(re.findall(r"{(\w+)}", text)) for op, (_, text) in TEXTS.items()}
STARTS = "create, write, truncate, delete, make, remove or raw"


class Bad(Exception):
    """Bad input: what was expected, and what was found."""

    def __init__(self, expected, found):
        super().__init__(f"expected {expected}; found {found}")


# The 8-byte form


def pack(call):
    number = 0
    for width, value in zip(WIDTHS.values(), call):
        number = number << width | value
    return number.to_bytes(CALL_BYTES, "big")


def unpack(data):
    number = int.from_bytes(data, "big")
    values = []
    for width in reversed(WIDTHS.values()):
        values.append(number & (1 << width) - 1)
        number >>= width
    return Call(*reversed(values))


def reasons_to_end(data):
    """All reasons for which the session program ends at these 1 to 8 bytes; none for a call. A reason is a tuple:
    ("short", bytes), ("op", op), ("length", op), ("field", op, name)."""
    if len(data) < CALL_BYTES:
        return [("short", len(data))]
    call = unpack(data)
    if call.op not in TEXTS:
        return [("op", call.op)]
    reasons = []
    if call.length > LONGEST_WRITE:
        reasons.append(("length", call.op))
    for name in WIDTHS:
        # A length over 4,096 is a reason in any op; one up to 4,096 only where the op does not use it.
        if name != "op" and name not in USED[call.op] and getattr(call, name) != 0:
            reasons.append(("field", call.op, name))
    return reasons


def reason_text(reason):
    kind = reason[0]
    if kind == "short":
        return f"a short call, bytes: {reason[1]}"
    if kind == "op":
        return f"op {reason[1]} is none of 1 to 7"
    name = TEXTS[reason[1]][0]
    if kind == "length":
        return f"{name} with a length over {LONGEST_WRITE}"
    return f"{name} does not use the field {reason[2]}, which is not 0"


# Text


def to_text(data):
    """The text of 1 to 8 bytes: that of the call, or a raw line."""
    if reasons_to_end(data):
        return "raw " + data.hex().upper()
    call = unpack(data)
    return TEXTS[call.op][1].format(**call._asdict() | {"fill": f"0x{call.fill:02X}"})


def shown(word):
    return "the end of the line" if word is None else f"'{word}'"


def number(word, name):
    """The number that a word gives, in the range of the field."""
    most = LONGEST_WRITE if name == "length" else (1 << WIDTHS[name]) - 1
    expected = f"a number from 0 to {most} for {name}"
    if word is None or not re.fullmatch(r"[0-9]+|0[xX][0-9a-fA-F]+", word):
        raise Bad(expected, shown(word))
    value = int(word, 16 if word[1:2] in ("x", "X") else 10)
    if value > most:
        raise Bad(expected, shown(word))
    return value


def op_of(words):
    """The op that a line's first words name, and the number of these words."""
    first = words[0]
    if first == "make":
        second = words[1] if len(words) > 1 else None
        for op in (5, 6):
            if TEXTS[op][0] == f"make {second}":
                return op
        raise Bad("read-only or writeable after make", shown(second))
    for op, (name, _) in TEXTS.items():
        if name == first:
            return op
    raise Bad(STARTS, shown(first))


def raw_bytes(words):
    if len(words) == 2 and re.fullmatch(r"([0-9a-fA-F]{2}){1,8}", words[1]):
        return bytes.fromhex(words[1])
    raise Bad("raw and 2 to 16 hexadecimal digits, two for each byte", shown(" ".join(words)))


def from_text(text):
    """The bytes of one line's text (without comment)."""
    words = text.split()
    if words[0] == "raw":
        return raw_bytes(words)
    op = op_of(words)
    values = dict.fromkeys(WIDTHS, 0) | {"op": op}
    given = iter(words)
    for wanted in TEXTS[op][1].split():
        word = next(given, None)
        if wanted.startswith("{"):
            name = wanted.strip("{}")
            values[name] = number(word, name)
        elif word != wanted:
            raise Bad(f"'{wanted}' (a line of this kind is: {pattern(op)})", shown(word))
    left = next(given, None)
    if left is not None:
        raise Bad("the end of the line", shown(left))
    return pack(Call(**values))


def pattern(op):
    names = {"set": "S", "file": "F", "other": "NEW", "offset": "SIZE" if op == 3 else "OFFSET", "length": "LENGTH", "fill": "BYTE"}
    return TEXTS[op][1].format(**names)


# Whole inputs: a list of lines (bytes, comment); a line may have no bytes, or no comment (None).

Line = collections.namedtuple("Line", "data comment")


def split_comment(line):
    text, mark, comment = line.partition("#")
    return text.strip(), comment.strip() if mark else None


def read_lines(source, read_one):
    """Lines and a list of troubles (line number, text)."""
    lines, troubles = [], []
    for count, line in enumerate(source.splitlines(), 1):
        text, comment = split_comment(line)
        try:
            lines.append(Line(read_one(text) if text else b"", comment))
        except Bad as bad:
            troubles.append((count, str(bad)))
    return lines, troubles


def hex_bytes(text):
    data = b""
    for word in text.split():
        if not re.fullmatch(r"([0-9a-fA-F]{2})+", word):
            raise Bad("an even number of hexadecimal digits", shown(word))
        data += bytes.fromhex(word)
    return data


def without_text(line):
    """A comment of a hexadecimal line without the call's own text in front."""
    if line.data and line.comment is not None:
        text = to_text(line.data) if len(line.data) <= CALL_BYTES else None
        if text and (line.comment == text or line.comment.startswith(text + " ")):
            return Line(line.data, line.comment[len(text):].strip() or None)
    return line


def read_text(source):
    return read_lines(source, from_text)


def read_hex(source):
    lines, troubles = read_lines(source, hex_bytes)
    return [without_text(line) for line in lines], troubles


def read_bytes(data):
    return [Line(data[at:at + CALL_BYTES], None) for at in range(0, len(data), CALL_BYTES)], []


def all_bytes(lines):
    return b"".join(line.data for line in lines)


def calls_of(lines):
    """Lines with at most one call each. Hexadecimal may have several calls in a line, or one call over several."""
    whole = all(len(line.data) in (0, CALL_BYTES) for line in lines[:-1]) and (
        not lines or len(lines[-1].data) <= CALL_BYTES
    )
    if whole:
        return lines
    comments = [Line(b"", line.comment) for line in lines if line.comment is not None]
    return comments + read_bytes(all_bytes(lines))[0]


def write_text(lines):
    return "".join(text_line(line.data and to_text(line.data), line.comment) for line in calls_of(lines))


def write_hex(lines):
    made = ""
    for line in calls_of(lines):
        if not line.data:
            made += text_line("", line.comment)
            continue
        comment = " ".join(part for part in (to_text(line.data), line.comment) if part)
        made += text_line(line.data.hex().upper(), comment)
    return made


def text_line(text, comment):
    if comment is None:
        return f"{text}\n" if text else "\n"
    remark = f"# {comment}" if comment else "#"
    return f"{text}  {remark}\n" if text else f"{remark}\n"


def main(arguments):
    if arguments in (["help"], ["--help"], ["-h"]):
        print(__doc__, end="")
        return 0
    forms = ("text", "hex", "bytes")
    if len(arguments) not in (2, 3) or arguments[0] not in forms or arguments[1] not in forms:
        print("calls.py: expected FROM TO [FILE], FROM and TO each text, hex or bytes ('calls.py help')", file=sys.stderr)
        return 2
    try:
        if len(arguments) == 3:
            with open(arguments[2], "rb") as file:
                data = file.read()
        else:
            data = sys.stdin.buffer.read()
    except OSError as error:
        print(f"calls.py: cannot read {arguments[2]}: {error.strerror}", file=sys.stderr)
        return 2
    return convert(arguments[0], arguments[1], data)


def convert(come, go, data):
    if come == "bytes":
        lines, troubles = read_bytes(data)
    else:
        source = data.decode("utf-8", errors="replace")
        lines, troubles = (read_text if come == "text" else read_hex)(source)
    for count, trouble in troubles:
        print(f"line {count}: {trouble}", file=sys.stderr)
    if troubles:
        return 1
    if go == "bytes":
        sys.stdout.buffer.write(all_bytes(lines))
    else:
        sys.stdout.write((write_text if go == "text" else write_hex)(lines))
    return 0


if __name__ == "__main__":
    sys.exit(main(sys.argv[1:]))
