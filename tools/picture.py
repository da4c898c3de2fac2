#!/usr/bin/env python3
"""picture.py: a picture of a listing. It reads what the session program prints and writes SVG.

usage: picture.py [--blocks N] [--title TEXT] <LISTING >PICTURE.svg       N: blocks of the store, 64 without it
       picture.py help

Above stands the tree of sets: each set with its files, each file with its 64 pages. Below stands the block map. Blocks and
pages have the colour of the set that holds them. A page that a copy reads through its parent has the holder's colour, paler,
and a dot; its block has a thick frame and the number of sets that read it through others. Marked files are struck out.

A listing has -1 for a hole of set 0. In any other set it has -2 for a hole and -1 for an unmapped page, which is read through
the parent. A hole is 512 zeros, whatever the parent has: in a copy it is a white cell with a frame and a stroke in the copy's
colour. A plain white cell is a hole of set 0, or an unmapped page that resolves to a hole of another set. A marked file has no
blocks.
Exit status: 0 well, 1 a bad listing (the line is named with what was expected), 2 bad usage.
"""
import collections
import sys
from xml.sax.saxutils import escape

PAGES = 64
MOST_BLOCKS = 4096
ROOT, NO_SET = 0, 8
UNMAPPED, HOLE = -1, -2  # in place of a block; a listing has -1 for a hole of set 0
STATES = {1: "own", 2: "virgin", 3: "marked"}

# A colour for each set: strong where the set holds a block, pale where another set reads it.
STRONG = ("#36699A", "#C25E00", "#38853A", "#C43B4B", "#8A5496", "#7A5946", "#0B8080", "#857000")
PALE = ("#C6D7E8", "#F8DCC0", "#CBE5CB", "#F5CDD3", "#E4D4E8", "#DDD0C8", "#BFE6E6", "#EBE3B0")


class Bad(Exception):
    pass


class Set:
    def __init__(self, number, level, parent, writeable):
        self.number, self.level, self.parent, self.writeable = number, level, parent, writeable
        self.files = {}


class File:
    def __init__(self, number, state, size):
        self.number, self.state, self.size = number, state, size
        self.extents = []  # (first page, block, UNMAPPED or HOLE)
        self.closed = state == 3

    def entries(self):
        """Page by page the block, UNMAPPED or HOLE."""
        found = []
        ends = [first for first, _ in self.extents[1:]] + [PAGES]
        for (first, block), end in zip(self.extents, ends):
            found += [block + step if block >= 0 else block for step in range(end - first)]
        return found


# Reading a listing

WORDS = {"call": 6, "end": 1, "set": 4, "file": 4, "ext": 2}


class Reader:
    def __init__(self):
        self.sets = {}  # in the order of the listing
        self.set = self.file = None
        self.held = {}  # block -> (set, file, page)

    def line(self, text):
        word, *rest = text.split() or [""]
        if word not in WORDS:
            raise Bad(f"expected call, end, set, file or ext; found '{text.strip()}'")
        if len(rest) != WORDS[word] or not all(number.lstrip("-").isdigit() for number in rest):
            raise Bad(f"expected {word} and {WORDS[word]} numbers; found '{text.strip()}'")
        if word in ("set", "file", "ext"):
            getattr(self, f"take_{word}")(*map(int, rest))

    def take_set(self, number, level, parent, writeable):
        self.end_of_file("a line 'set'")
        expect(0 <= number < NO_SET and number not in self.sets, "a set from 0 to 7 that was not listed yet", number)
        if not self.sets:
            expect((number, level, parent) == (0, 0, NO_SET), "set 0 first, of level 0 and parent 8", number)
        else:
            expect(parent in self.sets, "a parent that is listed before", parent)
            expect(level == self.sets[parent].level + 1, "the parent's level plus one", level)
        expect(writeable in (0, 1), "0 or 1 for writeable", writeable)
        self.set = self.sets[number] = Set(number, level, parent, writeable)

    def take_file(self, number, file, state, size):
        self.end_of_file("a line 'file'")
        expect(self.set is not None, "a line 'set' first", "a line 'file'")
        expect(number == self.set.number, f"a file of set {self.set.number}", f"one of set {number}")
        expect(0 <= file < 16 and file not in self.set.files, "a file from 0 to 15 that was not listed yet", file)
        expect(state in STATES, "a state from 1 to 3", state)
        self.file = self.set.files[file] = File(file, state, size)

    def take_ext(self, first, block):
        file = self.file
        expect(file is not None and not file.closed, "a line 'file' or 'set'", "a line 'ext'")
        last = file.extents[-1][0] if file.extents else -1
        wanted = "page 0 first" if not file.extents else f"a page from {last + 1} to {PAGES}"
        expect(last < first <= PAGES and (file.extents or first == 0), wanted, first)
        if file.extents:
            self.hold(file, *file.extents[-1], first)
        if first == PAGES:
            expect(block == -1, "-1 after page 64", block)
            file.closed = True
            return
        root = self.set.number == ROOT
        marks = "-1" if root else "-2, -1"
        expect((-1 if root else -2) <= block < MOST_BLOCKS, f"{marks} or a block from 0 to {MOST_BLOCKS - 1}", block)
        file.extents.append((first, HOLE if root and block == -1 else block))

    def hold(self, file, first, block, end):
        for step in range(end - first if block >= 0 else 0):
            other = self.held.setdefault(block + step, (self.set.number, file.number, first + step))
            place = f"file {other[1]} of set {other[0]}"
            expect(other == (self.set.number, file.number, first + step), "each block once", f"block {block + step} also in {place}")

    def end_of_file(self, found):
        expect(self.file is None or self.file.closed, "'ext 64 -1' at the end of a file", found)
        self.file = None


def expect(holds, expected, found):
    if not holds:
        raise Bad(f"expected {expected}; found {found}")


def read_listing(source):
    reader = Reader()
    count = 0
    try:
        for count, text in enumerate(source.splitlines(), 1):
            reader.line(text)
        count += 1
        reader.end_of_file("the end of the input")
        expect(reader.sets, "a line 'set'", "the end of the input")
    except Bad as bad:
        raise Bad(f"line {count}: {bad}") from None
    return reader


# Who reads what


def resolve(sets, number, file, page):
    """The set whose map the page is found in, and the block or HOLE there. An unmapped page is what it is in the parent set."""
    entry = sets.get(number)
    while entry is not None and file in entry.files and entry.files[file].state != 3:
        block = entry.files[file].entries()[page]
        if block != UNMAPPED:
            return entry.number, block
        entry = sets.get(entry.parent)
    return None, UNMAPPED


def readers(sets):
    """block -> the sets that read it through others"""
    found = collections.defaultdict(list)
    for number, entry in sets.items():
        for file, record in entry.files.items():
            for page in range(PAGES if record.state != 3 else 0):
                holder, block = resolve(sets, number, file, page)
                if block >= 0 and holder != number:
                    found[block].append(number)
    return found


# Drawing

CELL, STRIP_HEIGHT, LABEL = 11, 16, 200
ROW, HEAD, INDENT, GAP, MARGIN = 26, 30, 28, 14, 20
BLOCK_WIDTH, BLOCK_HEIGHT, BLOCK_GAP, BLOCKS_IN_ROW = 60, 38, 4, 16
SET_WIDTH = LABEL + PAGES * CELL + 16


class Drawing:
    def __init__(self):
        self.parts = []

    def add(self, text):
        self.parts.append(text)

    def text(self, x, y, text, kind="", end=None):
        """Text from x on, or around x ("middle"), or up to x ("end")."""
        attributes = f'x="{x}" y="{y}"'
        if kind:
            attributes += f' class="{kind}"'
        if end:
            attributes += f' text-anchor="{end}"'
        self.add(f"<text {attributes}>{escape(text)}</text>")

    def box(self, x, y, width, height, fill, kind, title=None):
        self.titled("rect", f'x="{x}" y="{y}" width="{width}" height="{height}" fill="{fill}" class="{kind}"', title)

    def titled(self, tag, attributes, title):
        if title:
            self.add(f"<{tag} {attributes}><title>{escape(title)}</title></{tag}>")
        else:
            self.add(f"<{tag} {attributes}/>")

    def line(self, x1, y1, x2, y2, kind):
        self.add(f'<path d="M{x1} {y1}L{x2} {y2}" class="{kind}"/>')


STYLE = """
text { font-family: "DejaVu Sans", Verdana, sans-serif; font-size: 12px; fill: #222222 }
.title { font-size: 18px; font-weight: bold }
.name { font-weight: bold }
.on { fill: #FFFFFF; font-weight: bold }
.small { font-size: 10px; fill: #555555 }
.tiny { font-size: 9px; fill: #FFFFFF }
.struck { text-decoration: line-through; fill: #A00000 }
.set { stroke: #888888; stroke-width: 1 }
.page { stroke: #FFFFFF; stroke-width: 1 }
.none { stroke: #DDDDDD; stroke-width: 1 }
.hole { fill: #FFFFFF; stroke-width: 1.2 }
.block { stroke: #AAAAAA; stroke-width: 1 }
.shared { stroke: #000000; stroke-width: 2.5 }
.tree { stroke: #888888; stroke-width: 2; fill: none }
.cross { stroke: #A00000; stroke-width: 2; fill: none }
.size { stroke: #000000; stroke-width: 2; fill: none }
"""


def draw(listing, blocks, title):
    drawing = Drawing()
    drawing.text(MARGIN, MARGIN + 14, title, "title")
    y = draw_tree(drawing, listing.sets, MARGIN + 34)
    y = draw_blocks(drawing, listing, blocks, y + 20)
    y = draw_key(drawing, y + 16)
    deepest = max(entry.level for entry in listing.sets.values())
    width = 2 * MARGIN + max(deepest * INDENT + SET_WIDTH, BLOCKS_IN_ROW * (BLOCK_WIDTH + BLOCK_GAP))
    head = f'<svg xmlns="http://www.w3.org/2000/svg" width="{width}" height="{y}" viewBox="0 0 {width} {y}">'
    paper = f'<rect width="{width}" height="{y}" fill="#FFFFFF"/>'
    return "\n".join([head, f"<style>{STYLE}</style>", paper, *drawing.parts, "</svg>"]) + "\n"


def draw_tree(drawing, sets, y):
    drawing.text(MARGIN, y + 12, "Sets and files", "name")
    drawing.text(MARGIN + 110, y + 12, "a copy stands below the set that it was made from, one step to the right", "small")
    y += 24
    middles = {}
    for number, entry in sets.items():
        x = MARGIN + entry.level * INDENT
        height = HEAD + ROW * len(entry.files) + (18 if entry.files else 0)
        if entry.parent in middles:
            parent_x, parent_y = middles[entry.parent]
            drawing.add(f'<path d="M{parent_x} {parent_y}V{y + HEAD // 2}H{x}" class="tree"/>')
        middles[number] = (x + INDENT // 2, y + height)
        draw_set(drawing, sets, entry, x, y, height)
        y += height + GAP
    return y


def draw_set(drawing, sets, entry, x, y, height):
    drawing.box(x, y, SET_WIDTH, height, "#FAFAFA", "set")
    drawing.box(x, y, 62, HEAD - 8, STRONG[entry.number], "set")
    drawing.text(x + 10, y + 16, f"set {entry.number}", "on")
    origin = "the root" if entry.parent == NO_SET else f"made from set {entry.parent}, level {entry.level}"
    drawing.text(x + 72, y + 16, f"{origin}, {'writeable' if entry.writeable else 'read-only'}")
    strip = x + LABEL
    if entry.files:
        for page in range(0, PAGES, 8):
            drawing.text(strip + page * CELL, y + HEAD + 8, f"page {page}" if page == 0 else str(page), "small")
    for place, file in enumerate(sorted(entry.files)):
        draw_file(drawing, sets, entry, entry.files[file], x, y + HEAD + 14 + place * ROW)


def draw_file(drawing, sets, entry, file, x, y):
    strip = x + LABEL
    words = f"file {file.number}, {STATES[file.state]}"
    if file.state == 3:
        drawing.text(x + 10, y + 13, words, "struck")
        drawing.box(strip, y, PAGES * CELL, STRIP_HEIGHT, "#EEEEEE", "none", words)
        drawing.line(strip, y + STRIP_HEIGHT // 2, strip + PAGES * CELL, y + STRIP_HEIGHT // 2, "cross")
        return
    drawing.text(x + 10, y + 13, f"{words}, {file.size} bytes")
    drawing.box(strip, y, PAGES * CELL, STRIP_HEIGHT, "#FFFFFF", "none")
    edges = "".join(f"M{strip + page * CELL} {y}v{STRIP_HEIGHT}" for page in range(1, PAGES))
    drawing.add(f'<path d="{edges}" class="none"/>')
    for page in range(PAGES):
        holder, block = resolve(sets, entry.number, file.number, page)
        if block >= 0:
            draw_page(drawing, entry, page, holder, block, strip + page * CELL, y)
        elif holder == entry.number != ROOT:
            draw_hole(drawing, holder, strip + page * CELL, y, f"page {page}: a hole of set {holder}")
    end = strip + round(file.size / 512 * CELL, 1)
    drawing.line(end, y - 2, end, y + STRIP_HEIGHT + 2, "size")


def draw_page(drawing, entry, page, holder, block, x, y):
    if holder == entry.number:
        drawing.box(x, y, CELL, STRIP_HEIGHT, STRONG[holder], "page", f"page {page}: block {block}")
    else:
        draw_shared(drawing, holder, x, y, f"page {page}: block {block}, held by set {holder}")


def draw_shared(drawing, holder, x, y, title=None):
    drawing.box(x, y, CELL, STRIP_HEIGHT, PALE[holder], "page", title)
    drawing.add(f'<circle cx="{x + CELL / 2}" cy="{y + STRIP_HEIGHT / 2}" r="2" fill="{STRONG[holder]}"/>')


def draw_hole(drawing, number, x, y, title=None):
    """A hole of a copy: a frame and a stroke from corner to corner."""
    width, height = CELL - 5, STRIP_HEIGHT - 5
    shape = f"M{x + 2.5} {y + 2.5}h{width}v{height}h-{width}zl{width} {height}"
    drawing.titled("path", f'd="{shape}" stroke="{STRONG[number]}" class="hole"', title)


def draw_blocks(drawing, listing, blocks, y):
    drawing.text(MARGIN, y + 12, f"Blocks 0 to {blocks - 1}", "name")
    drawing.text(MARGIN + 110, y + 12, "in each block: its number, then set·file·page that hold it", "small")
    y += 22
    reading = readers(listing.sets)
    for block in range(blocks):
        x = MARGIN + block % BLOCKS_IN_ROW * (BLOCK_WIDTH + BLOCK_GAP)
        top = y + block // BLOCKS_IN_ROW * (BLOCK_HEIGHT + BLOCK_GAP)
        draw_block(drawing, block, listing.held.get(block), sorted(set(reading[block])), x, top)
    return y + (blocks + BLOCKS_IN_ROW - 1) // BLOCKS_IN_ROW * (BLOCK_HEIGHT + BLOCK_GAP)


def draw_block(drawing, block, holder, reading, x, y):
    if holder is None:
        drawing.box(x, y, BLOCK_WIDTH, BLOCK_HEIGHT, "#FFFFFF", "none", f"block {block}: not listed")
        drawing.text(x + 4, y + 12, str(block), "small")
        return
    number, file, page = holder
    title = f"block {block}: set {number}, file {file}, page {page}"
    title += f"; also read by set {', '.join(map(str, reading))}" if reading else ""
    drawing.box(x, y, BLOCK_WIDTH, BLOCK_HEIGHT, STRONG[number], "shared" if reading else "block", title)
    drawing.text(x + 4, y + 12, str(block), "tiny")
    if reading:
        drawing.text(x + BLOCK_WIDTH - 4, y + 12, f"+{len(reading)}", "on", "end")
    drawing.text(x + BLOCK_WIDTH // 2, y + 30, f"{number}·{file}·{page}", "on", "middle")


def draw_key(drawing, y):
    x = MARGIN
    drawing.box(x, y, CELL, STRIP_HEIGHT, STRONG[ROOT], "page")
    x = draw_meaning(drawing, x, y, "stored in this set's own map")
    draw_shared(drawing, ROOT, x, y)
    x = draw_meaning(drawing, x, y, "unmapped: read through the parent; colour of the set that holds it")
    drawing.line(x + CELL / 2, y - 2, x + CELL / 2, y + STRIP_HEIGHT + 2, "size")
    draw_meaning(drawing, x, y, "size of the file")
    x, y = MARGIN, y + 24
    draw_hole(drawing, ROOT + 1, x, y)
    x = draw_meaning(drawing, x, y, "a hole of a copy: 512 zeros, whatever the parent has")
    drawing.box(x, y, CELL, STRIP_HEIGHT, "#FFFFFF", "none")
    draw_meaning(drawing, x, y, "a hole of set 0; in a copy, an unmapped page that is a hole further up the tree")
    notes = (
        "Thick frame: the block is shared; +2 says that two more sets read it. Struck out: a marked file, which has no blocks.",
        "White blocks are free. A listing has -2 for a hole of a copy, -1 for its unmapped pages and for holes of set 0.",
    )
    for place, words in enumerate(notes):
        drawing.text(MARGIN, y + 36 + 16 * place, words, "small")
    return y + 40 + 16 * len(notes)


def draw_meaning(drawing, x, y, words):
    """What the cell at x means; gives the place of the next cell."""
    drawing.text(x + 18, y + 12, words, "small")
    return x + 40 + 6 * len(words)


def main(arguments):
    if arguments in (["help"], ["--help"], ["-h"]):
        print(__doc__, end="")
        return 0
    options = {"--blocks": "64", "--title": "A listing of the sweep store"}
    while len(arguments) >= 2 and arguments[0] in options:
        options[arguments[0]] = arguments[1]
        arguments = arguments[2:]
    if arguments or not options["--blocks"].isdigit() or not 1 <= int(options["--blocks"]) <= MOST_BLOCKS:
        print("picture.py: expected [--blocks N] [--title TEXT], N from 1 to 4096 ('picture.py help')", file=sys.stderr)
        return 2
    try:
        listing = read_listing(sys.stdin.buffer.read().decode("utf-8", errors="replace"))
    except Bad as bad:
        print(bad, file=sys.stderr)
        return 1
    blocks = max([int(options["--blocks"])] + [block + 1 for block in listing.held])
    sys.stdout.write(draw(listing, blocks, options["--title"]))
    return 0


if __name__ == "__main__":
    sys.exit(main(sys.argv[1:]))
