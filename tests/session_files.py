"""The session files (tests/sessions), the session program's output, and both put in words.

A session file is hexadecimal as tools/calls.py writes it. It begins with comment lines that say what the session shows.
Every later line is one call, and its comment is the call's text and the answer that documents 01 and 02 ask for:

    2000000004004100  # write set 0 file 0 at 0 length 1024 fill 0x41 => 0; 2, 0, 0: a remark

A refused call has its number alone (=> 8), bytes that end the session have `=> end`, what stands after them `=> not read`.
"""
import collections
import glob
import os
import re
import sys

ROOT = os.path.dirname(os.path.dirname(os.path.abspath(__file__)))
sys.path.insert(0, os.path.join(ROOT, "tools"))
import calls  # noqa: E402

FOLDER = os.path.join(ROOT, "tests", "sessions")
ANSWER = re.compile(r"=> (end|not read|0; \d+, \d+, \d+|[1-9]\d*)(?:: (.*))?")

# One call of a session file: its bytes, the answer it expects, a remark or None.
Step = collections.namedtuple("Step", "data answer remark")
Session = collections.namedtuple("Session", "name shows steps")

NUMBERS = {
    1: "tables not well formed",
    2: "a set number over 7, or the set is not used",
    3: "a file number over 15",
    4: "the set is read-only",
    5: "the file is absent",
    6: "the file is marked",
    7: "the end or the new size is over 32,768",
    8: "own need over the free blocks",
    9: "the file is present, or the set is used",
    10: "the set is of level 5",
    11: "the set has children",
    12: "set 0 stays",
}
STATES = {1: "own", 2: "virgin", 3: "marked"}


def session_paths():
    return sorted(glob.glob(os.path.join(FOLDER, "**", "*.hex"), recursive=True))


def read_session(path):
    """The session in a file. A ValueError names the line that is not as the rules above say."""
    with open(path, encoding="utf-8") as file:
        source = file.read()
    _, troubles = calls.read_hex(source)
    if troubles:
        raise ValueError(f"{path}: line {troubles[0][0]}: {troubles[0][1]}")
    shows, steps = [], []
    for count, line in enumerate(source.splitlines(), 1):
        text, comment = calls.split_comment(line)
        if text:
            steps.append(read_step(path, count, calls.hex_bytes(text), comment))
        elif not steps and comment is not None:
            shows.append(comment)
        else:
            raise ValueError(f"{path}: line {count}: expected a call with its comment")
    name = os.path.splitext(os.path.relpath(path, FOLDER))[0]
    check_order(path, shows, steps)
    return Session(name, shows, steps)


def read_step(path, count, data, comment):
    where = f"{path}: line {count}"
    if len(data) > calls.CALL_BYTES:
        raise ValueError(f"{where}: expected one call, 16 digits")
    text = calls.to_text(data)
    if comment is None or not comment.startswith(text + " "):
        raise ValueError(f"{where}: expected the comment to begin with '{text}'")
    found = ANSWER.fullmatch(comment[len(text) + 1:])
    if not found:
        raise ValueError(f"{where}: expected '=> ANSWER' after the call's text")
    return Step(data, found[1], found[2])


def check_order(path, shows, steps):
    if not shows:
        raise ValueError(f"{path}: expected a comment that says what the session shows")
    if any(len(step.data) < calls.CALL_BYTES for step in steps[:-1]):
        raise ValueError(f"{path}: a short call can only be the last line")
    ended = False
    for count, step in enumerate(steps, 1):
        ends = bool(calls.reasons_to_end(step.data))
        wanted = "not read" if ended else "end" if ends else "an answer"
        found = step.answer if step.answer in ("not read", "end") else "an answer"
        if found != wanted:
            raise ValueError(f"{path}: call {count}: expected {wanted} after =>; found {step.answer}")
        ended = ended or ends


def input_of(session):
    return b"".join(step.data for step in session.steps)


# The output

Output = collections.namedtuple("Output", "calls end listing")
Answer = collections.namedtuple("Answer", "count op number counts")


def read_output(text):
    """The output in parts: answers, the count of `end` or None, and the lines of the listing."""
    answers, end, listing = [], None, []
    for line in text.splitlines():
        word, *numbers = line.split(" ")
        numbers = [int(number) for number in numbers]
        if word == "call":
            answers.append(Answer(numbers[0], numbers[1], numbers[2], tuple(numbers[3:])))
        elif word == "end":
            end = numbers[0]
        else:
            listing.append((word, numbers))
    return Output(answers, end, listing)


def answer_text(answer):
    """An answer as session files write it."""
    if answer.number:
        return str(answer.number)
    return "0; {}, {}, {}".format(*answer.counts)


def first_unexpected(session, output):
    """What differs from the answers that the session file expects, or None."""
    answers = {answer.count: answer_text(answer) for answer in output.calls}
    if output.end is not None:
        answers[output.end] = "end"
    for count, step in enumerate(session.steps, 1):
        found = answers.get(count, "not read")
        if found != step.answer:
            return f"call {count} ({calls.to_text(step.data)}): the file expects {step.answer}; found {found}"
    return None


# In words


def answer_words(answer):
    if answer.number:
        return f"refused: {NUMBERS.get(answer.number, 'unknown number')}"
    if answer.op in (2, 3, 4):
        return "own blocks {}, copies {}, newly marked {}".format(*answer.counts)
    return "accepted"


def listing_words(listing):
    """Each line of the listing with what it says."""
    in_set = None
    for place, (word, numbers) in enumerate(listing):
        if word == "set":
            in_set = numbers[0]
        line = " ".join([word, *map(str, numbers)])
        yield line, line_words(word, numbers, in_set, listing[place + 1:])


def line_words(word, numbers, in_set, after):
    if word == "set":
        number, level, parent, writeable = numbers
        kind = "writeable" if writeable else "read-only"
        origin = "the root" if parent == 8 else f"made from set {parent}"
        return f"set {number}, {origin}, level {level}, {kind}"
    if word == "file":
        _, number, state, size = numbers
        return f"  file {number}, {STATES[state]}" + ("" if state == 3 else f", {size} bytes")
    first, block = numbers
    if first == 64:
        return ""
    last = after[0][1][0] - 1
    pages = f"    page {first}" if last == first else f"    pages {first} to {last}"
    if block == (-1 if in_set == 0 else -2):
        return f"{pages}: a hole" if last == first else f"{pages}: holes"
    if block == -1:
        return f"{pages}: unmapped, read through the parent"
    return f"{pages}: from block {block} on" if last > first else f"{pages}: block {block}"
