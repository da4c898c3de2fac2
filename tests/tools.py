#!/usr/bin/env python3
"""Tests of tools/calls.py, tools/picture.py, tools/moved.py, tests/trace.py, tests/places.py, the readers of session files, and what
is counted as handed over. Run: python3 tests/tools.py"""
import os
import random
import re
import shutil
import subprocess
import sys
import tempfile
import unittest
import xml.etree.ElementTree as xml

sys.dont_write_bytecode = True
HERE = os.path.dirname(os.path.abspath(__file__))
sys.path.insert(0, HERE)
import places  # noqa: E402
import random_session  # noqa: E402
import session_coverage as coverage  # noqa: E402
import session_files as files  # noqa: E402
from session_files import ROOT, calls  # noqa: E402
import picture  # noqa: E402
import sources  # noqa: E402
import trace as cited  # noqa: E402  (tests/trace.py)

WORKED_TEXT = """\
create set 0 file 0
write set 0 file 0 at 0 length 1024 fill 0x41
make read-only set 1 from set 0
write set 0 file 0 at 600 length 10 fill 0x42
"""
WORKED_HEX = "1000000000000000 2000000004004100 5001000000000000 20000258000A4200"
SVG = "{http://www.w3.org/2000/svg}"

# A listing of set 0 with one file, pages 0 and 1 in blocks 7 and 8.
ROOT_FILE = "set 0 0 8 1\nfile 0 0 1 1024\next 0 7\next 2 -1\next 64 -1\n"


def run(tool, *arguments, data=b""):
    command = [sys.executable, os.path.join(ROOT, "tools", tool), *arguments]
    return subprocess.run(command, input=data, capture_output=True)


def read(*path):
    with open(os.path.join(ROOT, *path), encoding="utf-8") as file:
        return file.read()


def copy_file(number, parent, extents):
    """A listing's lines of a copy with one file; the parent is set 0 or a copy of it."""
    level = 1 if parent == 0 else 2
    return f"set {number} {level} {parent} 1\nfile {number} 0 1 1024\n{extents}ext 64 -1\n"


class Calls(unittest.TestCase):
    def test_worked_session_both_ways(self):
        lines, troubles = calls.read_text(WORKED_TEXT)
        self.assertEqual(troubles, [])
        self.assertEqual(calls.all_bytes(lines), bytes.fromhex(WORKED_HEX))
        lines, troubles = calls.read_hex(WORKED_HEX)
        self.assertEqual((calls.write_text(lines), troubles), (WORKED_TEXT, []))

    def test_every_op_has_its_text(self):
        texts = {
            "create set 7 file 15": "17F0000000000000",
            "write set 1 file 2 at 65535 length 4096 fill 0xFF": "2120FFFF1000FF00",
            "truncate set 1 file 2 to 32768": "3120800000000000",
            "delete set 15 file 0": "4F00000000000000",
            "make read-only set 3 from set 2": "5203000000000000",
            "make writeable set 3 from set 2": "6203000000000000",
            "remove set 5": "7500000000000000",
            "raw 00": "00",
            "raw 2000000010010000": "2000000010010000",
        }
        for text, digits in texts.items():
            self.assertEqual(calls.from_text(text).hex().upper(), digits)
            self.assertEqual(calls.to_text(bytes.fromhex(digits)), text)

    def test_numbers_may_be_hexadecimal(self):
        self.assertEqual(
            calls.from_text("write set 0x1 file 0xf at 0x10 length 0x20 fill 65"),
            calls.from_text("write set 1 file 15 at 16 length 32 fill 0x41"),
        )

    def test_any_bytes_come_back(self):
        dice = random.Random(1)
        for turn in range(3000):
            data = dice.randbytes(dice.randrange(40))
            if turn % 2:
                data = b"".join(self.likely_call(dice) for _ in range(4)) + data[: turn % 8]
            lines, _ = calls.read_bytes(data)
            for write, again in ((calls.write_text, calls.read_text), (calls.write_hex, calls.read_hex)):
                back, troubles = again(write(lines))
                self.assertEqual((calls.all_bytes(back), troubles), (data, []))

    @staticmethod
    def likely_call(dice):
        op = dice.randrange(1, 8)
        values = {name: dice.randrange(1 << calls.WIDTHS[name]) for name in calls.USED[op]}
        return calls.pack(calls.Call(**dict.fromkeys(calls.WIDTHS, 0) | values | {"op": op}))

    def test_comments_are_kept(self):
        text = "# about\n\ncreate set 0 file 0  # first\nremove set 1\n"
        lines, _ = calls.read_text(text)
        made = calls.write_hex(lines)
        self.assertIn("1000000000000000  # create set 0 file 0 first\n", made)
        self.assertEqual(calls.write_text(calls.read_hex(made)[0]), text)

    def test_bad_text_names_line_and_what_was_expected(self):
        bad = {
            "creat set 0 file 0": "expected create, write, truncate, delete, make, remove or raw; found 'creat'",
            "create set 0": "expected 'file' (a line of this kind is: create set S file F); found the end of the line",
            "create set 0 file": "expected a number from 0 to 15 for file; found the end of the line",
            "create set 16 file 0": "expected a number from 0 to 15 for set; found '16'",
            "create set -1 file 0": "expected a number from 0 to 15 for set; found '-1'",
            "create set 0x file 0": "expected a number from 0 to 15 for set; found '0x'",
            "create set 0 file 0 now": "expected the end of the line; found 'now'",
            "write set 0 file 0 to 3 length 1 fill 0": "expected 'at'",
            "write set 0 file 0 at 65536 length 1 fill 0": "expected a number from 0 to 65535 for offset; found '65536'",
            "write set 0 file 0 at 0 length 4097 fill 0": "expected a number from 0 to 4096 for length; found '4097'",
            "write set 0 file 0 at 0 length 1 fill 256": "expected a number from 0 to 255 for fill; found '256'",
            "truncate set 0 file 0 at 3": "expected 'to' (a line of this kind is: truncate set S file F to SIZE); found 'at'",
            "make set 1 from set 0": "expected read-only or writeable after make; found 'set'",
            "make read-only set 1 of set 0": "expected 'from'",
            "make": "expected read-only or writeable after make; found the end of the line",
            "raw": "expected raw and 2 to 16 hexadecimal digits, two for each byte; found 'raw'",
            "raw 123": "expected raw and 2 to 16 hexadecimal digits",
            "raw 112233445566778899": "expected raw and 2 to 16 hexadecimal digits",
            "raw zz": "expected raw and 2 to 16 hexadecimal digits",
        }
        for text, expected in bad.items():
            ran = run("calls.py", "text", "hex", data=f"# first\nremove set 1\n{text}\n".encode())
            self.assertEqual((ran.returncode, ran.stdout), (1, b""), text)
            self.assertTrue(ran.stderr.decode().startswith("line 3: "), ran.stderr)
            self.assertIn(expected, ran.stderr.decode())

    def test_every_bad_line_is_named(self):
        ran = run("calls.py", "text", "bytes", data=b"x\nremove set 1\ny\n")
        self.assertEqual([line.split(":")[0] for line in ran.stderr.decode().splitlines()], ["line 1", "line 3"])

    def test_bad_hexadecimal(self):
        for text in ("123", "12 3", "1g", "10000000000000 0x"):
            ran = run("calls.py", "hex", "bytes", data=text.encode())
            self.assertEqual(ran.returncode, 1, text)
            self.assertIn("line 1: expected an even number of hexadecimal digits", ran.stderr.decode())

    def test_program(self):
        self.assertEqual(run("calls.py", "hex", "bytes", data=WORKED_HEX.encode()).stdout, bytes.fromhex(WORKED_HEX))
        self.assertEqual(run("calls.py", "bytes", "text", data=bytes.fromhex(WORKED_HEX)).stdout, WORKED_TEXT.encode())
        self.assertEqual(run("calls.py", "text", "bytes", data=b"").stdout, b"")
        path = os.path.join(files.FOLDER, "worked-session.hex")
        self.assertEqual(run("calls.py", "hex", "bytes", path).stdout, bytes.fromhex(WORKED_HEX))
        self.assertEqual(run("calls.py", "help").returncode, 0)
        for arguments in ((), ("text",), ("text", "word"), ("text", "hex", "no-such-file"), ("a", "b", "c", "d")):
            self.assertEqual(run("calls.py", *arguments).returncode, 2, arguments)


class Picture(unittest.TestCase):
    def setUp(self):
        self.listing = read("tests", "sessions", "bench-afternoon.out")

    def drawn(self, listing, *arguments):
        ran = run("picture.py", *arguments, data=listing.encode())
        self.assertEqual((ran.returncode, ran.stderr), (0, b""))
        return ran.stdout.decode()

    def test_the_example_is_what_is_drawn(self):
        self.assertEqual(self.drawn(self.listing, "--title", "An afternoon on a bench"), read("docs", "listing.svg"))

    def test_the_pictures_of_a_compaction_are_what_is_drawn(self):
        before, after = read("examples", "compaction.out").split("\nafter: ")
        for name, printed in (("Before", before), ("After", after)):
            listing = "".join(line + "\n" for line in printed.split("\n") if re.match("(set|file|ext) ", line))
            drawn = self.drawn(listing, "--blocks", "16", "--title", f"{name} compaction")
            self.assertEqual(drawn, read("docs", f"compaction-{name.lower()}.svg"))

    def parts(self, svg, kind, tag="rect"):
        return [part for part in xml.fromstring(svg).iter(SVG + tag) if part.get("class") == kind]

    def titles(self, svg, kind, tag="rect"):
        return [part.findtext(SVG + "title") for part in self.parts(svg, kind, tag)]

    def test_blocks_have_the_colour_of_the_set_that_holds_them(self):
        svg = self.drawn(self.listing)
        titles = [(part.findtext(SVG + "title"), part.get("fill")) for part in xml.fromstring(svg).iter(SVG + "rect")]
        held = [(title, fill) for title, fill in titles if title and re.match(r"block \d+: set", title)]
        free = [title for title, _ in titles if title and title.endswith("not listed")]
        self.assertEqual((len(held), len(free)), (47, 17))
        for title, fill in held:
            self.assertEqual(fill, picture.STRONG[int(re.match(r"block \d+: set (\d)", title)[1])], title)

    def test_shared_pages_are_shown(self):
        svg = self.drawn(self.listing)
        shared = self.titles(svg, "shared")
        self.assertEqual(len(shared), 39)
        self.assertIn("block 13: set 0, file 3, page 11; also read by set 1, 2, 4, 6", shared)
        through = [part.findtext(SVG + "title") for part in self.parts(svg, "page") if part.get("fill") in picture.PALE]
        self.assertIn("page 1: block 14, held by set 2", through)

    def test_marked_files_are_struck_out(self):
        svg = self.drawn(self.listing)
        struck = [part.text for part in self.parts(svg, "struck", "text")]
        self.assertEqual(struck, ["file 1, marked"] * 3)
        self.assertEqual(len(self.parts(svg, "cross", "path")), 3)

    def test_small_listings_can_be_drawn(self):
        small = "set 0 0 8 1\nfile 0 0 1 512\next 0 63\next 1 -1\next 64 -1\n"
        for listing in (small, "set 0 0 8 1\n", "call 1 1 0 0 0 0\nend 2\nset 0 0 8 1\n", read("tests/sessions/worked-session.out")):
            xml.fromstring(self.drawn(listing))

    def test_pages_without_a_block_in_a_copy_are_read_through(self):
        svg = self.drawn("set 0 0 8 1\nfile 0 0 1 1024\next 0 0\next 2 -1\next 64 -1\nset 1 1 0 0\nfile 1 0 1 1024\next 0 -1\next 64 -1\n")
        self.assertEqual(len(self.parts(svg, "shared")), 2)

    def test_a_hole_of_a_copy_ends_the_resolving(self):
        expected = {-1: [(0, 8), (0, 8), (0, 8)], -2: [(0, 8), (1, picture.HOLE), (1, picture.HOLE)]}
        for mark, found in expected.items():  # page 1 in set 0, in set 1, and in set 2, a copy of set 1
            listing = ROOT_FILE + copy_file(1, 0, f"ext 0 -1\next 1 {mark}\next 2 -1\n") + copy_file(2, 1, "ext 0 -1\n")
            sets = picture.read_listing(listing).sets
            self.assertEqual([picture.resolve(sets, number, 0, 1) for number in (0, 1, 2)], found)
            self.assertEqual(picture.resolve(sets, 2, 0, 2), (0, picture.HOLE))
            drawn = [title for title in self.titles(self.drawn(listing), "page") if title and title.startswith("page 1: block 8")]
            self.assertEqual(len(drawn), 3 if mark == -1 else 1)

    def test_a_hole_of_a_copy_is_not_counted_as_sharing(self):
        listing = ROOT_FILE + copy_file(1, 0, "ext 0 -1\next 1 -2\next 2 -1\n") + copy_file(2, 1, "ext 0 -1\n") + copy_file(3, 0, "ext 0 -1\n")
        shared = ["block 7: set 0, file 0, page 0; also read by set 1, 2, 3", "block 8: set 0, file 0, page 1; also read by set 3"]
        self.assertEqual(self.titles(self.drawn(listing), "shared"), shared)

    def test_holes_of_copies_have_a_look_of_their_own(self):
        svg = self.drawn(self.listing)
        holes = self.parts(svg, "hole", "path")
        found = [(part.get("stroke"), part.findtext(SVG + "title")) for part in holes]
        key = [(picture.STRONG[1], None)]
        in_set_1 = [(picture.STRONG[1], f"page {page}: a hole of set 1") for page in (4, 5)]
        in_set_2 = [(picture.STRONG[2], f"page {page}: a hole of set 2") for page in (5, 6, 7, 4, 5)]
        self.assertEqual(found, in_set_1 + in_set_2 + key)
        self.assertEqual(self.listing.count(" -2\n"), 3)
        self.assertEqual(len({part.get("d") for part in holes}), len(holes))  # each at its own place

    def test_the_look_of_a_hole_is_for_holes_of_copies_alone(self):
        no_hole = ROOT_FILE + copy_file(1, 0, "ext 0 -1\n")
        self.assertEqual(self.titles(self.drawn(no_hole), "hole", "path"), [None])  # the key
        hole_above = no_hole.replace("ext 0 7\n", "ext 0 -1\n")
        self.assertEqual(self.titles(self.drawn(hole_above), "hole", "path"), [None])
        self.assertEqual(self.titles(self.drawn(hole_above), "page"), [None, None])  # the key
        created = ROOT_FILE + copy_file(1, 0, "ext 0 -2\n")
        self.assertEqual(len(self.titles(self.drawn(created), "hole", "path")), 64 + 1)

    def test_the_key_tells_holes_from_unmapped_pages(self):
        words = [part.text for part in self.parts(self.drawn(self.listing), "small", "text")]
        self.assertIn("a hole of a copy: 512 zeros, whatever the parent has", words)
        self.assertIn("unmapped: read through the parent; colour of the set that holds it", words)
        self.assertIn("a hole of set 0; in a copy, an unmapped page that is a hole further up the tree", words)

    def test_text_and_key_stay_inside_the_picture(self):
        drawn = xml.fromstring(self.drawn("set 0 0 8 1\n"))
        for part in drawn.iter(SVG + "text"):
            self.assertLess(float(part.get("x")) + 6.2 * len(part.text), int(drawn.get("width")), part.text)
            self.assertLess(float(part.get("y")), int(drawn.get("height")), part.text)

    def test_number_of_blocks(self):
        self.assertIn("Blocks 0 to 63", self.drawn(self.listing))
        self.assertIn("Blocks 0 to 46", self.drawn(self.listing, "--blocks", "1"))  # 46 is the highest in the listing
        self.assertIn("Blocks 0 to 99", self.drawn(self.listing, "--blocks", "100"))

    def test_a_title_is_escaped(self):
        self.assertIn("a &lt;b&gt; &amp; c", self.drawn(self.listing, "--title", "a <b> & c"))

    def test_bad_listings_name_line_and_what_was_expected(self):
        start = "set 0 0 8 1\nfile 0 0 1 512\n"
        copy = "set 0 0 8 1\nset 1 1 0 0\nfile 1 0 1 512\n"
        bad = {
            "": "line 1: expected a line 'set'; found the end of the input",
            "sets 0\n": "line 1: expected call, end, set, file or ext; found 'sets 0'",
            "set 0 0 8\n": "line 1: expected set and 4 numbers; found 'set 0 0 8'",
            "set 0 0 x 1\n": "line 1: expected set and 4 numbers",
            "set 1 0 8 1\n": "line 1: expected set 0 first, of level 0 and parent 8; found 1",
            "set 0 0 8 1\nset 1 1 3 1\n": "line 2: expected a parent that is listed before; found 3",
            "set 0 0 8 1\nset 1 2 0 1\n": "line 2: expected the parent's level plus one; found 2",
            "set 0 0 8 1\nset 0 1 0 1\n": "line 2: expected a set from 0 to 7 that was not listed yet; found 0",
            "set 0 0 8 2\n": "line 1: expected 0 or 1 for writeable; found 2",
            "file 0 0 1 0\n": "line 1: expected a line 'set' first",
            "set 0 0 8 1\nfile 1 0 1 0\n": "line 2: expected a file of set 0; found one of set 1",
            "set 0 0 8 1\nfile 0 16 1 0\n": "line 2: expected a file from 0 to 15",
            "set 0 0 8 1\nfile 0 0 0 0\n": "line 2: expected a state from 1 to 3; found 0",
            "set 0 0 8 1\next 0 0\n": "line 2: expected a line 'file' or 'set'; found a line 'ext'",
            start: "line 3: expected 'ext 64 -1' at the end of a file; found the end of the input",
            start + "set 1 1 0 1\n": "line 3: expected 'ext 64 -1' at the end of a file; found a line 'set'",
            start + "ext 1 0\n": "line 3: expected page 0 first; found 1",
            start + "ext 0 0\next 0 1\n": "line 4: expected a page from 1 to 64; found 0",
            start + "ext 0 -2\n": "line 3: expected -1 or a block from 0 to 4095; found -2",
            start + "ext 0 4096\n": "line 3: expected -1 or a block from 0 to 4095; found 4096",
            copy + "ext 0 -3\n": "line 4: expected -2, -1 or a block from 0 to 4095; found -3",
            copy + "ext 0 4096\n": "line 4: expected -2, -1 or a block from 0 to 4095; found 4096",
            start + "ext 0 0\next 64 0\n": "line 4: expected -1 after page 64; found 0",
            start + "ext 0 0\next 64 -2\n": "line 4: expected -1 after page 64; found -2",
            copy + "ext 0 -2\next 64 -2\n": "line 5: expected -1 after page 64; found -2",
            start + "ext 0 0\next 2 1\next 64 -1\n": "line 5: expected each block once; found block 1 also in file 0 of set 0",
        }
        for listing, expected in bad.items():
            ran = run("picture.py", data=listing.encode())
            self.assertEqual((ran.returncode, ran.stdout), (1, b""), listing)
            self.assertTrue(ran.stderr.decode().startswith(expected), f"{ran.stderr.decode()!r} for {listing!r}")

    def test_bad_usage(self):
        for arguments in (("more",), ("--blocks",), ("--blocks", "0"), ("--blocks", "4097"), ("--blocks", "x")):
            self.assertEqual(run("picture.py", *arguments).returncode, 2, arguments)
        self.assertEqual(run("picture.py", "help").returncode, 0)


class SessionFiles(unittest.TestCase):
    def session(self, text):
        with tempfile.NamedTemporaryFile("w", suffix=".hex") as file:
            file.write(text)
            file.flush()
            return files.read_session(file.name)

    def test_all_files_are_read(self):
        names = [files.read_session(path).name for path in files.session_paths()]
        self.assertGreaterEqual(len(names), 60)
        self.assertIn("ends/op-0", names)

    def test_a_comment_that_does_not_fit_is_found(self):
        good = "# shows\n1000000000000000  # create set 0 file 0 => 0; 0, 0, 0: a remark\n"
        self.assertEqual(self.session(good).steps[0].remark, "a remark")
        for text in (
            good.replace("file 0 =>", "file 1 =>"),
            good.replace(" => 0; 0, 0, 0: a remark", ""),
            good.replace("0; 0, 0, 0", "0"),
            good.replace("0; 0, 0, 0", "8; 0, 0, 0"),
            good.replace("0; 0, 0, 0", "end"),
            good.replace("0; 0, 0, 0", "not read"),
            good.replace("# shows\n", ""),
            good + "\n",
            good + "# later\n",
            good.replace("1000000000000000", "1000000000000000 1000000000000000"),
            "# shows\n00  # raw 00 => end\n" + good.split("\n")[1] + "\n",
            "# shows\n00  # raw 00 => 2\n",
        ):
            with self.assertRaises(ValueError, msg=text):
                self.session(text)

    def test_an_answer_that_does_not_fit_is_found(self):
        session = self.session("# shows\n1000000000000000  # create set 0 file 0 => 0; 0, 0, 0\n00  # raw 00 => end\n")
        right = "call 1 1 0 0 0 0\nend 2\nset 0 0 8 1\n"
        self.assertIsNone(files.first_unexpected(session, files.read_output(right)))
        for wrong in ("call 1 1 9 0 0 0\nend 2\n", "call 1 1 0 0 0 1\nend 2\n", "end 1\n", "call 1 1 0 0 0 0\n"):
            self.assertIsNotNone(files.first_unexpected(session, files.read_output(wrong)), wrong)

    def test_random_sessions_follow_from_the_seed(self):
        self.assertEqual(random_session.session(3, 4), random_session.session(3, 4))
        self.assertEqual(random_session.session("3", "0"), random_session.session(3, 0))
        self.assertGreater(len(random_session.session(3, 0)), 20000 * calls.CALL_BYTES)
        self.assertNotEqual(random_session.session(3, 4), random_session.session(3, 5))


class HandedOver(unittest.TestCase):
    """What session_coverage.py counts of one call, from its answer and the listings before and after."""

    ROOT_LINE = "set 0 0 8 1\n"
    VIRGIN = "set 1 1 0 0\nfile 1 0 2 1024\next 0 -1\next 64 -1\n"

    def counted(self, text, counts, before, after):
        """The names counted for a call that comes first, as if the listing before it were the start's."""
        data = calls.from_text(text)
        output = files.read_output("call 1 {} 0 {}\n".format(data[0] >> 4, " ".join(map(str, counts))))
        listings = [files.read_output(listing).listing for listing in (before, after)]
        found = coverage.seen_by_calls(data, output, lambda number: listings[number])
        self.assertLessEqual(set(found), set(coverage.HANDING))
        return {name for name, times in found.items() if times}

    def test_a_delete_that_hands_over(self):
        after = self.ROOT_LINE + "set 1 1 0 0\nfile 1 0 1 1024\next 0 7\next 2 -2\next 64 -1\n"
        found = self.counted("delete set 0 file 0", (0, 0, 0), ROOT_FILE + self.VIRGIN, after)
        to = ("hands over", "hands over to a read-only set", "hands over to a set of level 1", "hands over to a virgin file", "hands over, children with the file: 1")
        self.assertEqual(found, {"delete hands over, copies nothing and marks nothing", *(f"delete {name}" for name in to)})

    def test_copies_are_not_handed_over(self):
        after = self.ROOT_LINE + "set 1 1 0 0\nfile 1 0 1 1024\next 0 9\next 2 -2\next 64 -1\n"
        self.assertEqual(self.counted("delete set 0 file 0", (0, 2, 0), ROOT_FILE + self.VIRGIN, after), set())
        moved = after.replace("ext 0 9\next 2 -2\n", "ext 0 8\next 1 7\next 2 -2\n")  # the same blocks, each at the other page
        self.assertEqual(self.counted("delete set 0 file 0", (0, 2, 0), ROOT_FILE + self.VIRGIN, moved), set())
        other = after.replace("file 1 0 1", "file 1 3 1").replace("ext 0 9", "ext 0 7")  # in another file
        self.assertEqual(self.counted("delete set 0 file 0", (0, 0, 0), ROOT_FILE + self.VIRGIN, other), set())

    def test_a_truncate_that_hands_over_one_page_and_keeps_the_other(self):
        before = ROOT_FILE.replace("1024", "1000") + self.VIRGIN
        after = "set 0 0 8 1\nfile 0 0 1 512\next 0 7\next 1 -1\next 64 -1\nset 1 1 0 0\nfile 1 0 1 1000\next 0 -1\next 1 8\next 2 -1\next 64 -1\n"
        found = self.counted("truncate set 0 file 0 to 512", (0, 0, 0), before, after)
        self.assertIn("truncate to a page's edge hands over", found)
        self.assertIn("truncate hands over a last page that is not full", found)
        self.assertNotIn("truncate hands over and frees", found)

    def test_blocks_that_nobody_needs_are_freed(self):
        child = copy_file(1, 0, "ext 0 20\next 2 -1\n")
        after = self.ROOT_LINE + child.replace("ext 2 -1", "ext 2 -2")
        found = self.counted("delete set 0 file 0", (0, 0, 0), ROOT_FILE + child, after)
        self.assertEqual(found, {"delete frees what its live children do not need"})
        marked = after + "set 2 1 0 0\nfile 2 3 3 0\n"  # which has no blocks
        self.assertEqual(self.counted("delete set 0 file 0", (0, 0, 0), ROOT_FILE + child, marked), found)

    def test_the_first_child_is_marked_and_the_next_takes_over(self):
        before = ROOT_FILE + self.VIRGIN + copy_file(2, 0, "ext 0 20\next 1 -1\n")
        after = "set 0 0 8 1\nfile 0 0 1 100\next 0 7\next 1 -1\next 64 -1\nset 1 1 0 0\nfile 1 0 3 0\n"
        after += copy_file(2, 0, "ext 0 20\next 1 8\next 2 -1\n")
        found = self.counted("truncate set 0 file 0 to 100", (0, 0, 1), before, after)
        for name in ("hands over and marks", "hands over to another child than the first", "hands over to the next child, since it marks the first"):
            self.assertIn(f"truncate {name}", found)

    def test_every_name_is_wanted_once(self):
        wanted = coverage.wanted()
        self.assertEqual(len(wanted), len(set(wanted)))
        self.assertLess(set(coverage.HANDING), set(wanted))


class SessionPrograms(unittest.TestCase):
    """run-session and compare-sessions, with programs that print something fixed."""

    def setUp(self):
        self.folder = tempfile.TemporaryDirectory()
        self.addCleanup(self.folder.cleanup)

    def printing(self, text):
        path = os.path.join(self.folder.name, f"program-{len(os.listdir(self.folder.name))}")
        with open(path, "w", encoding="utf-8") as file:
            file.write(f"#!/bin/sh\ncat >/dev/null\ncat <<'END'\n{text}END\n")
        os.chmod(path, 0o755)
        return path

    @staticmethod
    def run_test(name, *arguments):
        return subprocess.run([sys.executable, os.path.join(HERE, name), *arguments], capture_output=True, text=True)

    def test_run_session_shows_answers_and_listing_in_words(self):
        path = os.path.join(files.FOLDER, "worked-session.hex")
        output = read("tests", "sessions", "worked-session.out")
        ran = self.run_test("run-session", path, self.printing(output))
        self.assertEqual(ran.returncode, 0, ran.stderr)
        self.assertIn("own blocks 0, copies 1, newly marked 0", ran.stdout)
        self.assertIn("set 1, made from set 0, level 1, read-only", ran.stdout)
        self.assertIn("page 1: block 2", ran.stdout)
        ran = self.run_test("run-session", path, self.printing(output.replace("call 4 2 0 0 1 0", "call 4 2 8 0 0 0")))
        self.assertEqual(ran.returncode, 1)
        self.assertIn("refused: own need over the free blocks", ran.stdout)
        self.assertIn("the file expects 0; 0, 1, 0; found 8", ran.stdout)
        for arguments in ((), (path, "no-such-program"), ("no-such-file", "cat")):
            self.assertEqual(self.run_test("run-session", *arguments).returncode, 2, arguments)

    def test_run_session_tells_holes_from_unmapped_pages(self):
        path = os.path.join(files.FOLDER, "bench-afternoon.hex")
        ran = self.run_test("run-session", path, self.printing(read("tests", "sessions", "bench-afternoon.out")))
        self.assertEqual(ran.returncode, 0, ran.stderr)
        lines = [" ".join(line.split()) for line in ran.stdout.splitlines()]
        in_set_0, in_set_1 = (lines[lines.index(f"file {number} 3 1 6144 file 3, own, 6144 bytes") + 1:] for number in (0, 1))
        self.assertEqual(in_set_0[:2], ["ext 0 -1 pages 0 to 3: holes", "ext 4 40 pages 4 to 5: from block 40 on"])
        self.assertEqual(
            in_set_1[:4],
            [
                "ext 0 -1 pages 0 to 3: unmapped, read through the parent",
                "ext 4 -2 pages 4 to 5: holes",
                "ext 6 -1 pages 6 to 63: unmapped, read through the parent",
                "ext 64 -1",
            ],
        )
        one_page = files.read_output(ROOT_FILE + copy_file(1, 0, "ext 0 -1\next 1 -2\next 2 -1\n")).listing
        self.assertIn(("ext 1 -2", "    page 1: a hole"), list(files.listing_words(one_page)))

    def test_the_manuals_listing_is_that_of_its_session(self):
        manual = read("docs", "MANUAL.md")
        path = os.path.join(files.FOLDER, "manual-listing.hex")
        texts = [calls.to_text(step.data) for step in files.read_session(path).steps]
        self.assertIn("\n".join(["```", *texts, "```"]), manual)
        found = re.search(r"```\n(call 1 1 0 0 0 0\ncall 2 2 0 1 0 0\n.*?)```", manual, re.DOTALL)[1]
        lines = [line.split("   ")[0] for line in found.splitlines()]
        self.assertEqual("\n".join(lines) + "\n", read("tests", "sessions", "manual-listing.out"))

    def test_compare_sessions_names_the_first_line_that_differs(self):
        oracle = self.printing("set 0 0 8 1\nfile 0 0 1 0\next 0 -1\next 64 -1\n")
        other = self.printing("set 0 0 8 1\nfile 0 0 1 9\next 0 -1\next 64 -1\n")
        same = self.run_test("compare-sessions", oracle, oracle, "1", "1")
        self.assertEqual(same.returncode, 1)  # these outputs show next to nothing
        self.assertIn("shown by the session files: 9 of", same.stdout)
        self.assertIn("the file expects 0; 0, 0, 0; found not read", same.stdout)
        self.assertNotIn("the program has", same.stdout)
        ran = self.run_test("compare-sessions", other, oracle, "1", "1")
        self.assertEqual(ran.returncode, 1)
        self.assertIn("line 2: the program has 'file 0 0 1 9'; the second implementation 'file 0 0 1 0'", ran.stdout)
        self.assertEqual(self.run_test("compare-sessions", "no-such-program", oracle).returncode, 2)
        self.assertEqual(self.run_test("compare-sessions", oracle).returncode, 2)


PROMISES = """\
## What must be believed

| file | says | lines |
|---|---|---|
| `low/specs/Rules.antt` | rules | 12 |
| `low/src/lib.rt` | contracts | 9 |
| | together | 21 |
"""
RULES = """\
-- What is believed.
use Rattle.std.specs.Prelude.{ℕ, ◌+◌}

-- twice a number
unfoldable pub twice : ℕ → ℕ
twice n = n + n

module _ (k : ℕ) where
  abbrev pub more : ℕ → ℕ
  more n = n + k

pub record Pair : Type 0 where
  pub left : ℕ
  pub right : ℕ
"""
LAWS = """\
pub twice_zero : twice 0 ≡ 0
unfolding twice
twice_zero = refl

pub more_zero : (k : ℕ) → more k 0 ≡ k
more_zero k = refl

abbrev helper : ℕ
helper = 3
"""
CODE = """\
#![tactic(auto)]

pub fn double(n: u32) -> u64
    ensures { result ≡ twice n }
{
    n as u64 + n as u64
}

fn one() -> u32 {
    1
}
"""


class Moved(unittest.TestCase):
    """tools/moved.py on a repository of two crates"""

    def setUp(self):
        folder = tempfile.TemporaryDirectory()
        self.addCleanup(folder.cleanup)
        self.root = folder.name
        self.git("init", "--quiet")
        self.put("docs/PROMISES.md", PROMISES)
        self.put("crates/low/specs/Rules.antt", RULES)
        self.put("crates/low/proofs/Laws.antt", LAWS)
        self.put("crates/low/src/lib.rt", CODE)
        self.commit()

    def git(self, *arguments):
        who = ("-c", "user.name=test", "-c", "user.email=test@localhost")
        subprocess.run(["git", "-C", self.root, *who, *arguments], check=True, capture_output=True)

    def commit(self):
        self.git("add", "--all")
        self.git("commit", "--quiet", "--message", "step")

    def put(self, path, text):
        path = os.path.join(self.root, path)
        os.makedirs(os.path.dirname(path), exist_ok=True)
        with open(path, "w", encoding="utf-8") as file:
            file.write(text)

    def moved(self, *arguments):
        command = [sys.executable, os.path.join(ROOT, "tools", "moved.py"), *arguments]
        ran = subprocess.run(command, cwd=self.root, capture_output=True, text=True)
        self.assertEqual(ran.returncode, 0, ran.stderr)
        return ran.stdout

    def line(self, start, *arguments):
        return next(line for line in self.moved(*arguments).split("\n") if line.strip().startswith(start + ":"))

    def test_comments_layout_and_marks_do_not_count(self):
        self.put("crates/low/specs/Rules.antt", RULES.replace("-- twice a number\n", "").replace("twice n = n + n", "twice n =\n    n + n"))
        self.put("crates/low/proofs/Laws.antt", LAWS.replace("pub twice_zero", "twice_zero"))
        self.put("crates/low/src/lib.rt", CODE.replace("    1\n", "    // one\n    1\n").replace("pub fn", "fn"))
        said = self.moved("HEAD")
        self.assertIn("definitions that must be believed: 0 added, 0 changed, 0 removed, 0 moved, 3 kept", said)
        self.assertIn("contracts that must be believed: 0 added, 0 changed, 0 removed, 0 moved, 2 kept", said)
        self.assertIn("theorems and laws: 0 added, 0 changed, 0 removed, 0 moved, 2 kept", said)
        self.assertNotIn("  changed:", said)

    def test_a_definition_changed(self):
        self.put("crates/low/specs/Rules.antt", RULES.replace("twice n = n + n", "twice n = n + n + 0").replace("(k : ℕ)", "(k j : ℕ)"))
        self.commit()
        said = self.moved("HEAD~1", "HEAD")
        self.assertIn("definitions that must be believed: 0 added, 2 changed, 0 removed, 0 moved, 1 kept", said)
        self.assertIn("  changed: low/specs/Rules: more, twice\n", said)

    def test_a_proof_changed_and_a_statement_changed(self):
        self.put("crates/low/proofs/Laws.antt", LAWS.replace("more_zero k = refl", "more_zero k = sym refl"))
        self.assertEqual(self.line("theorems and laws", "HEAD")[-6:], "2 kept")
        self.assertIn("1 changed", self.line("proofs", "HEAD"))
        self.assertIn("1 changed", self.line("proofs of theorems whose statement is the same", "HEAD"))
        self.assertIn("changed: low/proofs/Laws: more_zero", self.moved("--all", "HEAD"))
        self.put("crates/low/proofs/Laws.antt", LAWS.replace("more k 0 ≡ k", "more 0 k ≡ k"))
        self.assertIn("1 changed", self.line("theorems and laws", "HEAD"))
        self.assertIn("0 changed", self.line("proofs of theorems whose statement is the same", "HEAD"))

    def test_a_contract_changed_and_code_changed(self):
        self.put("crates/low/src/lib.rt", CODE.replace("result ≡ twice n", "twice n ≡ result"))
        self.assertIn("  changed: low/src/lib: double\n", self.moved("HEAD"))
        self.put("crates/low/src/lib.rt", CODE.replace("    1\n", "    0 + 1\n"))
        said = self.moved("HEAD")
        self.assertIn("contracts that must be believed: 0 added, 0 changed, 0 removed, 0 moved, 2 kept", said)
        self.assertIn("code of these contracts that must be believed: 0 added, 1 changed", said)

    def test_moved_removed_and_added(self):
        self.put("crates/low/specs/Rules.antt", RULES[: RULES.index("pub record")])
        self.put("crates/high/specs/Pairs.antt", RULES[RULES.index("pub record") :] + "\npub data Side : Type 0 where\n  near far : Side\n")
        self.put("crates/low/proofs/Laws.antt", LAWS[LAWS.index("pub more_zero") :])
        said = self.moved("--all", "HEAD")
        self.assertIn("  moved: low/specs/Rules -> high/specs/Pairs: Pair\n", said)
        self.assertIn("  added: high/specs/Pairs: Side\n", said)
        self.assertIn("  removed: low/proofs/Laws: twice_zero\n", said)
        self.put("crates/high/specs/Pairs.antt", RULES[RULES.index("pub record") :].replace("left", "first"))
        self.assertIn("  moved and changed: low/specs/Rules -> high/specs/Pairs: Pair\n", self.moved("--all", "HEAD"))

    def test_clauses_of_a_contract_on_several_lines(self):
        clause = "ensures { result ≡ twice n }"
        self.put("crates/low/src/lib.rt", CODE.replace(clause, "ensures {\n        result ≡ twice n\n    }"))
        said = self.moved("HEAD")
        self.assertIn("contracts that must be believed: 0 added, 0 changed, 0 removed, 0 moved, 2 kept", said)

    def test_bad_usage(self):
        for arguments in ((), ("HEAD", "HEAD", "HEAD"), ("--some", "HEAD"), ("no-such-revision",)):
            ran = subprocess.run([sys.executable, os.path.join(ROOT, "tools", "moved.py"), *arguments], cwd=self.root, capture_output=True)
            self.assertEqual(ran.returncode, 1, arguments)


class Cited(unittest.TestCase):
    """tests/trace.py: what the documents cite is there, and a wrong name is found"""

    def wrong(self, troubles, expected):
        self.assertEqual(len(troubles), 1, troubles)
        self.assertIn(expected, troubles[0])

    def row(self, cell):
        return cited.trace_troubles(f"| A1 | a sentence | {cell} |\n")[0]

    def test_the_documents_are_right(self):
        self.assertEqual(cited.main(), 0)

    def test_a_row_with_a_wrong_name(self):
        self.assertEqual(self.row("def rules/specs/State: Entry, Tables.files, stored; law packing/specs/Fields: split_join"), [])
        self.wrong(self.row("def rules/specs/State: Entri"), "rules/specs/State.antt has no Entri")
        self.wrong(self.row("rules/specs/State: Entri"), "rules/specs/State.antt has no Entri")
        self.wrong(self.row("def rules/specs/State: Tables.filez"), "has no Tables.filez")
        self.wrong(self.row("def rules/specs/Storage: real.zeroes"), "has no real.zeroes")
        self.wrong(self.row("def rules/specs/Stat: Entry"), "there is no file rules/specs/Stat")
        self.wrong(self.row("def packing/specs/Fields: join; law split_joins"), "has no split_joins")
        self.wrong(self.row("def packing/specs/Fields: join and split"), "cannot read")
        self.wrong(self.row("thm rules/proofs/Whole/Rows: rows_hold, Row: x"), "there is no file Row")

    def test_a_row_with_a_wrong_function_edit_or_test(self):
        self.assertEqual(self.row("contracts packing bitmap::first_free, bitmap::set_bit; code tables entries::Page::new"), [])
        self.wrong(self.row("contract packing bitmap::first_fre"), "no function or type bitmap::first_fre")
        self.wrong(self.row("contract sweep sweep_reed"), "no function or type sweep_reed")
        self.assertEqual(self.row("edits rules/must-fail/copies_late, copies_first; edit rules/refused/copies_late"), [])
        self.wrong(self.row("edit rules/must-fail/copies_later"), "there is no edit")
        self.wrong(self.row("test: tests/c-packages"), "there is no tests/c-packages")
        self.wrong(self.row('docs/DECISIONS.md, "Form"'), "has no heading 'Form'")
        self.wrong(self.row("docs/DECISIONS.md 999"), "has no 999")
        self.wrong(self.row("contracts of crate `sweeps`"), "there is no crate sweeps")

    def test_a_document_with_a_wrong_path(self):
        right = "`rules/specs/Marking.antt`: `BecomesMarked`; `must-fail/*.edit`, `packing`: `bitmap::first_free`"
        self.assertEqual(cited.path_troubles("docs/X.md", right), [])
        self.wrong(cited.path_troubles("docs/X.md", right.replace("BecomesMarked", "BecomeMarked")), "has no BecomeMarked")
        self.wrong(cited.path_troubles("docs/X.md", right.replace("*.edit", "*.edits")), "there is no must-fail/*.edits")
        self.wrong(cited.path_troubles("docs/X.md", "see docs/TRACES.md."), "there is no docs/TRACES.md")
        self.wrong(cited.path_troubles("docs/X.md", right.replace("first_free", "first")), "crate packing has no bitmap::first")

    def test_architecture_that_leaves_out_a_module(self):
        text = read("docs", "ARCHITECTURE.md")
        self.wrong(cited.architecture_troubles(text.replace("`Update`, ", "", 1)), "specs/ of crate base has Update too")
        self.wrong(cited.architecture_troubles(text.replace("`Update`", "`Update`, `Updates`", 1)), "specs/ of crate base has no Updates")

    def test_definitions_of_packing_unfolded_above_it(self):
        text = read("docs", "ARCHITECTURE.md")
        self.wrong(cited.unfold_troubles(text.replace(", `masks/proofs/Tracks`", "", 1)), "masks/proofs/Tracks unfolds bit, and no row says so")
        found = cited.unfold_troubles(text.replace("`masks/proofs/Tracks`", "`masks/proofs/Tracks`, `maps/proofs/Shown`", 1))
        self.wrong(found, "maps/proofs/Shown does not unfold bit")

    def test_edits_kit_and_outcomes(self):
        text = read("docs", "PROMISES.md")
        self.wrong(cited.edit_troubles(text.replace("`copies_late`", "`copies_later`")), "there is no edit copies_later")
        if shutil.which("rt"):
            self.wrong(cited.kit_troubles(re.sub(r"logic [0-9a-f]{16}", "logic 0", text)), "the logic of this kit is")
        with_outcome, without = sources.read_rt(CODE.replace("fn one", "pub fn one"))
        self.assertFalse(cited.lacks_outcome(with_outcome))
        self.assertTrue(cited.lacks_outcome(without))

    def test_functions_of_a_type_with_a_lifetime_are_read(self):
        text = "impl<'a> Place<'a> {\n    pub fn at(&self) -> usize\n        ensures { result ≡ 0 }\n    {\n        0\n    }\n}\n"
        self.assertEqual(["Place::at"], [function.name for function in sources.read_rt(text)])

    def test_what_must_be_believed_is_closed(self):
        text = read("docs", "PROMISES.md")
        files_listed, general = sources.believed(text)
        self.assertIn("rules/specs/State.antt", files_listed)
        self.assertIn("upd", general["base/specs/Update.antt"])
        self.wrong(cited.believed_troubles(text.replace("`total`, ", "")), "packing/specs/Fields.antt: total is used and not listed")
        self.wrong(cited.believed_troubles(text.replace("`total`, ", "`total`, `Fit`, ")), "Fit is listed and not used")
        self.wrong(cited.believed_troubles(text.replace("`eqb`, ", "")), "the kit's eqb is used and not named")
        row = next(line for line in text.split("\n") if line.startswith("| `rules/specs/Trees.antt`"))
        found = cited.believed_troubles(text.replace(row + "\n", ""))
        self.assertTrue(any("add_child is used and not listed" in trouble for trouble in found), found)
        self.wrong(cited.believed_troubles(text.replace(row, re.sub(r"\d+ \|$", "9 |", row))), "lines, not 9")
        self.wrong(cited.believed_troubles(re.sub(r"together \| \d+", "together | 9", text)), "together they are")


class Places(unittest.TestCase):
    def found(self, path, text):
        """What is found in a file beside the laws."""
        with tempfile.TemporaryDirectory() as root:
            for name, content in ((places.LAWS, read(places.LAWS)), (path, text)):
                os.makedirs(os.path.dirname(os.path.join(root, name)), exist_ok=True)
                with open(os.path.join(root, name), "w", encoding="utf-8") as file:
                    file.write(content)
            return [number for _, _, number, _ in places.bare(root, places.numbers(root))]

    def test_no_bare_number_stands_in_the_crates(self):
        self.assertEqual(places.main([]), 0)

    def test_each_bare_number_is_found(self):
        told = sorted(places.numbers(ROOT).values())
        text = "".join(f"let at = {number} + (s * 16 + f);\n" for number in told)
        for path in ("crates/maps/src/lib.rt", "crates/maps/proofs/a/b/Answers.antt", "crates/tables/specs/Layout.antt"):
            self.assertEqual(self.found(path, text), told, path)

    def test_forms_of_a_number(self):
        total = places.numbers(ROOT)["table_bytes"]
        for text in (f"[0u8; {total}usize]", f"{total:#x}", f"{total:_}", f"// all {total:,} bytes", f'-- "whole" is {total}'):
            self.assertEqual(self.found("crates/maps/src/lib.rt", text), [total], text)
        for text in (f'// "The tables are {total:,} bytes"', f"x{total}", f"{total}0", f"1{total}", f"pair.{total}"):
            self.assertEqual(self.found("crates/maps/src/lib.rt", text), [], text)

    def test_a_law_that_is_gone_is_missed(self):
        with self.assertRaises(SystemExit):
            self.found(places.LAWS, "bytes_said : (table_bytes ≡ 17468)")


if __name__ == "__main__":
    unittest.main()
