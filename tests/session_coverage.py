"""What the session files have to show, counted from inputs and the second implementation's outputs."""
import collections

from session_files import calls

# The numbers that each op can give in a session, from the table of numbers in document 01.
REACHABLE = {
    1: (0, 2, 4, 9),
    2: (0, 2, 4, 5, 6, 7, 8),
    3: (0, 2, 4, 5, 6, 7, 8),
    4: (0, 2, 4, 5),
    5: (0, 2, 9, 10),
    6: (0, 2, 9, 10),
    7: (0, 2, 11, 12),
}
# Why no session can reach the others. A number that the table of numbers does not have for an op is not listed.
UNREACHABLE = {
    1: "the program formats its own tables, and every call leaves them well formed",
    3: "the field file has 4 bits",
}
OUTSIDE = "format, read, size and free are no ops of a session"

SHORTS = [("short", size) for size in range(1, calls.CALL_BYTES)]
OPS = [("op", op) for op in range(16) if op not in calls.TEXTS]
FIELDS = [
    ("field", op, name) for op in calls.TEXTS for name in calls.WIDTHS if name != "op" and name not in calls.USED[op]
]
ENDS = SHORTS + OPS + [("length", 2)] + FIELDS

LAST_BLOCK, PAGE_BYTES = 63, 512

# What an `ext` line of a copy says of its pages: a block, or one of the two marks of document 02, Ask 1. In set 0, -1 is a hole.
UNMAPPED, HOLE = -1, -2
MARKS = {UNMAPPED: "unmapped pages", HOLE: "holes"}
KINDS = ("a run", *MARKS.values())

SHAPES = (
    "a file with no page stored",
    "a file stored in one run of 64",
    "a run at page 0",
    "pages not stored at page 0",
    "a run up to page 63",
    "pages not stored up to page 63",
    "a run of one page",
    "a run of several pages",
    "a run between pages not stored",
    "pages not stored between runs",
    "a run after a run, blocks further on",
    "a run after a run, blocks further back",
    "a run up to block 63 and one from block 0",
)
IN_COPIES = (
    "holes at page 0",
    "holes between other runs",
    "holes up to page 63",
    "a hole of one page",
    "holes of several pages",
    "a file that is all holes",
    "a virgin file, all unmapped",
    *(f"{kind} after {before}" for kind in KINDS for before in KINDS if kind != before or kind == "a run"),
    *(f"holes in a set of level {level}" for level in range(1, 6)),
    *(f"holes in set {number}" for number in range(1, 8)),
)
ALL_HOLES_IN_ROOT = "a file of set 0 that is all holes"

# What an accepted delete or truncate does with blocks of the file's map (document 02, Ask 2). A block is handed over if a child's map
# has it afterwards, at the same page. What a child marked in the same call took over is in no listing.
HANDING = (
    *(
        f"{name} {does}"
        for name in ("delete", "truncate")
        for does in (
            "hands over",
            "hands over, copies nothing and marks nothing",
            "hands over and copies",
            "hands over and marks",
            "hands over, copies and marks",
            "hands over and copies for the same child",
            "hands over and frees",
            "frees what its live children do not need",
            "hands over with all 64 blocks used",
            "hands over with all 64 blocks used and marks",
            *(f"hands over, children with the file: {number}" for number in range(1, 8)),
            *(f"hands over to a set of level {level}" for level in range(1, 6)),
            "hands over to a read-only set",
            "hands over to a writeable set",
            "hands over to a virgin file",
            "hands over to an own file",
            "hands over to several children",
            "hands over to another child than the first",
            "hands over to the next child, since it marks the first",
            "hands over what was handed over before",
            "frees what was handed over before",
        )
    ),
    "truncate takes own blocks, hands over, copies and marks",
    "truncate to 0 hands over",
    "truncate to a page's edge hands over",
    "truncate inside a page hands over",
    "truncate hands over a last page that is not full",
    "remove frees what was handed over",
)


def wanted():
    """The names of all that must occur."""
    names = [f"{calls.TEXTS[op][0]} gives {number}" for op, numbers in REACHABLE.items() for number in numbers]
    names += [f"end: {calls.reason_text(reason)}" for reason in ENDS]
    names += ["no input", "no end", "end at the first call", "end after calls", "bytes after an end"]
    names += [f"{calls.TEXTS[op][0]} takes own blocks" for op in (2, 3)]
    names += [f"{calls.TEXTS[op][0]} {does}" for op in (2, 3, 4) for does in ("copies", "marks", "copies and marks")]
    names += [f"{calls.TEXTS[op][0]} takes own blocks, copies and marks" for op in (2, 3)]
    names += ["more than one file marked by a call"]
    names += [f"a set of level {level}" for level in range(6)]
    names += ["a read-only set", "a writeable set", "two children of a set", "a child with a lower number listed later"]
    names += ["an own file", "a virgin file", "a marked file"]
    names += [f"extents: {shape}" for shape in SHAPES]
    names += [f"extents of copies: {shape}" for shape in IN_COPIES] + [ALL_HOLES_IN_ROOT]
    return names + list(HANDING)


def seen(data, output):
    """Counts of what one session shows."""
    count = collections.Counter()
    for answer in output.calls:
        count_answer(answer, count)
    count_end(data, output, count)
    count_listing(output.listing, count)
    return count


def count_answer(answer, count):
    name = calls.TEXTS[answer.op][0]
    count[f"{name} gives {answer.number}"] += 1
    own, copies, marked = answer.counts
    for shown, does in (
        (own, "takes own blocks"),
        (copies, "copies"),
        (marked, "marks"),
        (copies and marked, "copies and marks"),
        (own and copies and marked, "takes own blocks, copies and marks"),
    ):
        count[f"{name} {does}"] += shown > 0
    count["more than one file marked by a call"] += marked > 1


def count_end(data, output, count):
    count["no input"] += not data
    if output.end is None:
        count["no end"] += 1
        return
    at = (output.end - 1) * calls.CALL_BYTES
    reasons = calls.reasons_to_end(data[at:at + calls.CALL_BYTES])
    if len(reasons) == 1:
        count[f"end: {calls.reason_text(reasons[0])}"] += 1
    count["end at the first call"] += output.end == 1
    count["end after calls"] += output.end > 1
    count["bytes after an end"] += len(data) > at + calls.CALL_BYTES


def count_listing(listing, count):
    children = collections.defaultdict(list)
    holder, extents = None, []
    for word, numbers in listing:
        if word == "set":
            number, level, parent, writeable = numbers
            count[f"a set of level {level}"] += 1
            count["a writeable set" if writeable else "a read-only set"] += 1
            children[parent].append(number)
            holder = (number, level)
        elif word == "file":
            state = ("an own file", "a virgin file", "a marked file")[numbers[2] - 1]
            count[state] += 1
        elif numbers[0] < 64:
            extents.append(tuple(numbers))
        else:
            count_shapes(extents, count)
            if holder[0]:
                count_in_copy(*holder, state, extents, count)
            else:
                count[ALL_HOLES_IN_ROOT] += extents == [(0, -1)]
            extents = []
    for numbers in children.values():
        count["two children of a set"] += len(numbers) == 2
        count["a child with a lower number listed later"] += numbers != sorted(numbers)


def count_shapes(extents, count):
    def add(shape, holds):
        assert shape in SHAPES, shape
        count[f"extents: {shape}"] += bool(holds)

    ends = [first for first, _ in extents[1:]] + [64]
    add("a file with no page stored", all(block < 0 for _, block in extents))
    add("a file stored in one run of 64", len(extents) == 1 and extents[0][1] >= 0)
    blocks = [block for _, block in extents]
    for place, ((first, block), end) in enumerate(zip(extents, ends)):
        stored, inner = block >= 0, 0 < place < len(extents) - 1
        add("a run at page 0" if stored else "pages not stored at page 0", place == 0)
        add("a run up to page 63" if stored else "pages not stored up to page 63", end == 64)
        add("a run of one page", stored and end == first + 1)
        add("a run of several pages", stored and end > first + 1)
        beside = blocks[place - 1] if place else UNMAPPED
        add("a run between pages not stored", stored and inner and beside < 0 and blocks[place + 1] < 0)
        add("pages not stored between runs", not stored and inner)
        if stored and beside >= 0:
            last = beside + first - extents[place - 1][0] - 1
            add("a run after a run, blocks further on", block > last)
            add("a run after a run, blocks further back", block < last)
            add("a run up to block 63 and one from block 0", (last, block) == (LAST_BLOCK, 0))


def kind(block):
    return MARKS.get(block, "a run")


def count_in_copy(number, level, state, extents, count):
    """What the extents of a file of a set other than 0 show of holes and unmapped pages."""

    def add(shape, holds):
        assert shape in IN_COPIES, shape
        count[f"extents of copies: {shape}"] += bool(holds)

    ends = [first for first, _ in extents[1:]] + [64]
    add("a file that is all holes", extents == [(0, HOLE)])
    add("a virgin file, all unmapped", state == "a virgin file" and extents == [(0, UNMAPPED)])
    for place, ((first, block), end) in enumerate(zip(extents, ends)):
        if place:
            add(f"{kind(block)} after {kind(extents[place - 1][1])}", True)
        hole = block == HOLE
        add("holes at page 0", hole and first == 0)
        add("holes between other runs", hole and 0 < place < len(extents) - 1)
        add("holes up to page 63", hole and end == 64)
        add("a hole of one page" if end == first + 1 else "holes of several pages", hole)
        add(f"holes in a set of level {level}", hole)
        add(f"holes in set {number}", hole)


# Handing over, counted call by call from the listings before and after

Held = collections.namedtuple("Held", "state size blocks")  # of one file; blocks: page -> block
Tree = collections.namedtuple("Tree", "sets files")  # set -> (level, parent, writeable), as listed; (set, file) -> Held
ABSENT, VIRGIN, MARKED = Held(0, 0, {}), 2, 3


def tree_of(listing):
    tree = Tree({}, {})
    for word, numbers in listing:
        if word == "set":
            tree.sets[numbers[0]] = tuple(numbers[1:])
        elif word == "file":
            blocks, run = {}, None
            tree.files[tuple(numbers[:2])] = Held(*numbers[2:], blocks)
        else:
            if run and run[1] >= 0:
                blocks.update({page: run[1] + page - run[0] for page in range(run[0], numbers[0])})
            run = numbers
    return tree


def used(tree):
    return {block for held in tree.files.values() for block in held.blocks.values()}


def seen_by_calls(data, output, listing_after):
    """Counts of what the calls of one session hand over. `listing_after` gives the listing after so many calls."""
    count = collections.Counter()
    taken = set()  # what was handed over: (set, file, page, block)
    for answer in output.calls:
        call = calls.unpack(data[(answer.count - 1) * calls.CALL_BYTES:answer.count * calls.CALL_BYTES])
        drops, removes = call.op in (3, 4), call.op == 7 and any(call.set == number for number, *_ in taken)
        if answer.number == 0 and (drops or removes):
            before, after = (tree_of(listing_after(number)) for number in (answer.count - 1, answer.count))
            (count_dropped if drops else count_removed)(call, answer, before, after, taken, count)
    return count


def count_removed(call, _, before, after, taken, count):
    """Counts that removing a set frees what was handed over to it."""
    held = {(*place, page, block) for place, file in before.files.items() for page, block in file.blocks.items()}
    gone = {block for number, *_, block in held & taken if number == call.set}
    count["remove frees what was handed over"] += bool(gone - used(after))


def count_dropped(call, answer, before, after, taken, count):
    """Counts what an accepted delete or truncate does with the blocks that it drops; `taken` gets what is handed over."""
    name = calls.TEXTS[call.op][0]

    def add(does, holds):
        assert f"{name} {does}" in HANDING, does
        count[f"{name} {does}"] += bool(holds)

    drop = dropped_by(call, before, after, taken)
    taken.update((number, call.file, page, drop.blocks[page]) for number in drop.heirs for page in drop.given[number])
    _, copies, marked = answer.counts
    add("frees what was handed over before", drop.freed & drop.old)
    add("frees what its live children do not need", drop.freed and drop.children and not (drop.heirs or copies or marked))
    add("hands over", drop.heirs)
    if drop.heirs:
        count_handing_over(drop, answer, len(used(before)) == LAST_BLOCK + 1, add)
        count_heirs(drop, before.sets, add)
        if call.op == 3:
            count_cut(call.offset, drop, answer, add)


# What a delete or truncate drops. blocks: page -> block; children: the child sets that have the file, in order of making;
# given: child -> pages handed over to it; heirs: the children with any; old: pages whose block was handed over to this file
# before; freed: pages whose block is free afterwards; was and now: the file before and after, by set; size: before the call
Drop = collections.namedtuple("Drop", "blocks children given heirs old freed was now size")


def dropped_by(call, before, after, taken):
    was, now = ({number: tree.files.get((number, call.file), ABSENT) for number in before.sets} for tree in (before, after))
    blocks = {page: block for page, block in was[call.set].blocks.items() if page not in now[call.set].blocks}
    children = [number for number, (_, parent, _) in before.sets.items() if parent == call.set and was[number].state]
    given = {number: {page for page, block in blocks.items() if now[number].blocks.get(page) == block} for number in children}
    heirs = [number for number in children if given[number]]
    old = {page for page, block in blocks.items() if (call.set, call.file, page, block) in taken}
    # A block that no file lists is free: a marked file has none.
    freed = {page for page, block in blocks.items() if block not in used(after)}
    return Drop(blocks, children, given, heirs, old, freed, was, now, was[call.set].size)


def pages_given(drop):
    return set().union(*drop.given.values())


def count_handing_over(drop, answer, full, add):
    """Counts what else a call does that hands blocks over."""
    own, copies, marked = answer.counts
    add("hands over, copies nothing and marks nothing", not (own or copies or marked))
    add("hands over and copies", copies and not marked)
    add("hands over and marks", marked and not copies)
    add("hands over, copies and marks", copies and marked)
    add("hands over and copies for the same child", copies and len(drop.children) == 1)
    add("hands over and frees", drop.freed)
    add("hands over with all 64 blocks used", full)
    add("hands over with all 64 blocks used and marks", full and marked)
    add("hands over what was handed over before", pages_given(drop) & drop.old)


def count_heirs(drop, sets, add):
    """Counts to whom a call hands blocks over."""
    add(f"hands over, children with the file: {len(drop.children)}", True)
    for number in drop.heirs:
        level, _, writeable = sets[number]
        add(f"hands over to a set of level {level}", True)
        add("hands over to a writeable set" if writeable else "hands over to a read-only set", True)
        add("hands over to a virgin file" if drop.was[number].state == VIRGIN else "hands over to an own file", True)
    add("hands over to several children", len(drop.heirs) > 1)
    add("hands over to another child than the first", drop.heirs != drop.children[:1])
    # A virgin file needs every page, so only its marking lets another child take one over.
    first = drop.children[0]
    lost = (drop.was[first].state, drop.now[first].state) == (VIRGIN, MARKED)
    add("hands over to the next child, since it marks the first", lost)


def count_cut(size, drop, answer, add):
    """Counts where a truncate that hands blocks over cuts the file."""
    add("takes own blocks, hands over, copies and marks", all(answer.counts))
    add("to 0 hands over", size == 0)
    add("inside a page hands over" if size % PAGE_BYTES else "to a page's edge hands over", True)
    last_is_given = drop.size // PAGE_BYTES in pages_given(drop)
    add("hands over a last page that is not full", drop.size % PAGE_BYTES and last_is_given)


def out_of_table(count):
    """Answers that no session should reach, with how often they were seen."""
    names = {f"{calls.TEXTS[op][0]} gives {number}" for op, numbers in REACHABLE.items() for number in numbers}
    return {name: times for name, times in count.items() if " gives " in name and name not in names}
