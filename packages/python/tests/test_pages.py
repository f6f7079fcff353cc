"""What the calls take: pages of each kind, places of them, arguments of wrong types; and lines and line starts as Python has
them."""
import array
import copy
import inspect
import mmap
import pickle
import re
import tempfile
import unittest

import fillaqut as mds
from fillaqut import _pages

# Of one byte, two, three and four, so that blocks of 64 characters begin at many places; then a block of ASCII, and at last half a
# block that has 64 bytes as well.
LONG = "aé€🍔\n# b\r\n" * 50 + "c" * 139 + "\n" + "é" * 32


class Arguments(unittest.TestCase):
    def test_end_is_third(self):
        """Of each call on a page, and what it takes beside the places is named."""
        for name in [name for name in mds.__all__ if name[0].islower()]:
            given = list(inspect.signature(getattr(mds, name)).parameters.values())
            if given[0].name == "data" and name != "run_inline_html":
                self.assertEqual([parameter.name for parameter in given[:3]], ["data", "at", "end"], name)
                self.assertTrue(all(parameter.kind == inspect.Parameter.KEYWORD_ONLY for parameter in given[3:]), name)

    def test_places_come_first(self):
        self.assertEqual(mds.unescape(b"&amp;x&amp;y", 5, 11), b"x&")
        self.assertEqual(mds.scan_link_label(b"xx[a]", 3), mds.Label(5, b"a", 3))
        self.assertEqual(mds.scan_link_dest(b"[a](bcd)", 4, 6), mds.Part(6, 4, 6))
        self.assertEqual(mds.scan_html_tag_over_lines(b"x<a>", 1), mds.Tag(4, None))

    def test_wrong_types(self):
        """The argument is named."""
        start = mds.LineStart(b"a")
        for name, call in {
            "at ": lambda: mds.scan_line(b"a", 0.0),
            "end ": lambda: mds.scan_line(b"a", 0, "1"),
            "data ": lambda: mds.scan_line(None),
            "skips ": lambda: mds.scan_html_tag_over_lines(b"<a>", skips=1),
            "in_table ": lambda: mds.unescape(b"a", in_table=1),
            "yaml ": lambda: mds.scan_metadata_block(b"a", yaml=None, pluses=False),
            "limit ": lambda: mds.calc_indent(b"a", limit=1.5),
            "max_next ": lambda: mds.scan_link_dest(b"a", max_next="31"),
            "the byte ": lambda: mds.scan_ch(b"a", byte=None),
            "what is accepted ": lambda: mds.scan_while(b"a", accepted=97),
            "count ": lambda: start.upto(None),
            "indent ": lambda: start.list_item(2.0),
            "a place ": lambda: mds.run_inline_html(b"<!", [2.0]),
            "a length ": lambda: mds.Skips(b"a", [(0, "1")]),
            "start ": lambda: mds.line_rest(b"a"),
            "one ": lambda: mds.labels_match(1, "a"),
            "other ": lambda: mds.labels_match("a", None),
            "label ": lambda: mds.label_key(None),
            "labels ": lambda: mds.scan_inlines("a", labels=None),
            "labels[1] ": lambda: mds.scan_inlines("a", labels=["a", 1]),
            "extensions ": lambda: mds.scan_blocks("a", extensions=None),
            "schemes ": lambda: mds.html("a", schemes=1),
            "schemes[0] ": lambda: mds.html("a", schemes=[None]),
            "places ": lambda: mds.run_inline_html(b"<!", 2),
            "rows ": lambda: mds.Skips(b"a", None),
            "calls ": lambda: mds.run_line(start, None),
            "a row ": lambda: mds.Skips(b"a", [0]),
            "a call ": lambda: mds.run_line(start, [0]),
            "the kind of a call ": lambda: mds.run_line(start, [(None, 0)]),
            "kind ": lambda: mds.ends_html_block(b"a", kind="2"),
            "begin ": lambda: mds.scan_delimiter_run(b"a*", 1, begin="0"),
            "byte'": lambda: mds.scan_ch(b"a#", 1),
        }.items():
            with self.assertRaises(TypeError) as why:
                call()
            self.assertIn(name, str(why.exception))

    def test_a_bool_is_no_number(self):
        """It is most often meant for an option, which has a name."""
        for call in (mds.html, mds.html_unsafe, mds.events, mds.event_columns, mds.scan_blocks, mds.scan_inlines, mds.scan_line, mds.LineStart):
            for given in (True, False):
                self.assertRaisesRegex(TypeError, f"at is {given}, and not an int", call, "abc", given)
                self.assertRaisesRegex(TypeError, f"end is {given}, and not an int", call, b"abc", 0, given)
                self.assertRaisesRegex(TypeError, f"at is {given}, and not an int", call, bytearray(b"abc"), given)
        self.assertRaisesRegex(TypeError, "limit is True", mds.calc_indent, b"a", limit=True)
        self.assertRaisesRegex(TypeError, "the byte is True", mds.is_whitespace, True)

    def test_kinds(self):
        start = mds.LineStart(b"a")
        self.assertRaisesRegex(ValueError, "kind is 8, ", mds.ends_html_block, b"a", kind=8)
        self.assertRaisesRegex(ValueError, "the kind of a call is 77, ", mds.run_line, start, [(77, 0)])
        self.assertRaisesRegex(TypeError, "kind is True, ", mds.ends_html_block, b"a", kind=True)
        self.assertRaisesRegex(TypeError, "the kind of a call is True, ", mds.run_line, start, [(True, 0)])
        self.assertTrue(mds.ends_html_block(b"a -->", kind=2))


    def test_pairs(self):
        for row in ((), (1,), (1, 2, 3)):
            self.assertRaisesRegex(ValueError, "a row has not two numbers", mds.Skips, b"a", [row])
            self.assertRaisesRegex(ValueError, "a call has not two numbers", mds.run_line, mds.LineStart(b"a"), [row])

    def test_begin(self):
        for begin in (-1, 3):
            self.assertRaisesRegex(IndexError, f"begin {begin} is not in", mds.scan_delimiter_run, b"a*b*", 1, begin=begin)


class Pages(unittest.TestCase):
    def test_buffers(self):
        data = b"a\n# b\n&amp;"
        with tempfile.TemporaryFile() as file:
            file.write(data)
            file.flush()
            mapped = mmap.mmap(file.fileno(), 0, access=mmap.ACCESS_READ)
        for page in (data, bytearray(data), memoryview(data), memoryview(b"-" + data)[1:], mapped, array.array("B", data)):
            self.assertEqual(mds.scan_atx_heading(page, 2, 6), 1)
            self.assertEqual(mds.unescape(page, 6), b"&")
            self.assertEqual([line.next for line in mds.lines(page)], [2, 6, 11])
            self.assertEqual(mds.LineStart(page, 2).place, 2)
        self.assertEqual(mds.scan_line(bytearray()), 0)

    def test_buffers_of_something_else(self):
        for page in (memoryview(b"abcd")[::2], array.array("H", [1, 2]), memoryview(b"abcd").cast("B", (2, 2))):
            self.assertRaises(TypeError, mds.scan_line, page)

    def test_buffers_are_held(self):
        page = bytearray(b"\ta")
        start = mds.LineStart(page)
        self.assertRaises(BufferError, page.extend, b"b" * 4096)
        self.assertEqual(start.upto(9), 4)
        del start
        page.extend(b"b" * 4096)
        self.assertEqual(mds.scan_line(page), 4098)
        page.extend(b"b")  # no call keeps it

    def test_places_of_str(self):
        """Each place, counted by Python."""
        self.assertEqual(len(LONG) % _pages.STEP, 32)
        at = [match.end() for match in re.finditer(r"\r\n|\n|$", LONG)]
        for place in range(len(LONG) + 1):
            self.assertEqual(mds.scan_line(LONG, place), min(stop for stop in at if stop > place or stop == len(LONG)))
            self.assertEqual(mds.scan_rev_while(LONG, 0, place, accepted=b""), place)
            self.assertEqual(mds.LineStart(LONG, place).place, place)
        self.assertEqual(mds.scan_while("é#", accepted=b"\xc3"), 0)  # inside of a character

    def test_str_of_another_class(self):
        class Odd(str):
            def __len__(self):
                return 10**6

            def __hash__(self):
                return 0

        for text in ("a\nb", "é\nb"):
            self.assertEqual((mds.scan_line(Odd(text)), mds.scan_line(Odd(text), 2)), (2, 3))
            self.assertEqual([start.place for start in (mds.LineStart(Odd(text), 1),)], [1])

    def test_answers_of_str(self):
        page = "é [ẞ é](<ü> 'ö') &auml; \\* <é>"
        self.assertEqual(mds.scan_link_label(page, 3), mds.Label(7, "ẞ é", 3))
        self.assertEqual(mds.scan_link_dest(page, 8), mds.Part(11, 9, 10))
        self.assertEqual(mds.scan_link_title(page, 12), mds.Part(15, 13, 14))
        self.assertEqual(mds.scan_entity(page, 17), mds.Entity(23, "ä"))
        self.assertEqual(mds.unescape(page, 17, 26), "ä *")
        self.assertEqual((mds.label_key("ẞ"), mds.label_key("ẞ".encode())), ("ss", b"ss"))
        self.assertEqual(mds.scan_wikilink_pipe("é[[ü|b]]", 3, count=2), mds.Part(5, 3, 4))
        self.assertEqual(mds.HtmlScanGuard("é<!--é--> <!b>").scan(3), 9)
        self.assertEqual(mds.run_inline_html("é<!--é--> <!b>", [3, 12]), (9, 14))
        quoted = "é\n> <a\n> b='é'>"
        self.assertEqual(mds.scan_html_tag_over_lines(quoted, 4, skips=mds.Skips(quoted, [(2, 2), (7, 2)])), mds.Tag(15, "<a\nb='é'>"))
        self.assertRaises(mds.BadSkipsError, mds.Skips, quoted, [(2, 14)])
        self.assertEqual(mds.line_rest(mds.LineStart("é\n\tü", 2)), "    ü")

    def test_lone_surrogates(self):
        for page, index in (("\ud800", 0), ("aé\udc00b", 2)):
            with self.assertRaises(mds.LoneSurrogateError) as why:
                mds.scan_line(page)
            self.assertEqual(why.exception.index, index)
            self.assertRaises(mds.LoneSurrogateError, mds.labels_match, b"a", page)
            self.assertEqual(pickle.loads(pickle.dumps(why.exception)).index, index)


class Lines(unittest.TestCase):
    def test_lines(self):
        for page in ("", "a", "\n", "a\r\nb\rc\n\nd", "\r\n\r", "é\r\n🍔", LONG):
            expected = [mds.Line(match.start(), match.end(1), match.end()) for match in re.finditer(r"([^\r\n]*)(?:\r\n|\r|\n|$)", page) if match[0]]
            self.assertEqual(list(mds.lines(page)), expected)
        self.assertEqual(list(mds.lines(b"a\r\nb\r\nc", 1, 5)), [mds.Line(1, 1, 3), mds.Line(3, 4, 5)])
        self.assertRaises(IndexError, mds.lines, b"a", 2)

    def test_line_starts_that_are_equal(self):
        start = mds.LineStart(b"> \ta", 0)
        self.assertEqual(start, mds.LineStart(bytes(bytearray(b"> \ta"))))
        for other in (mds.LineStart(b"> \tb"), mds.LineStart(b"> \ta", 1), mds.LineStart(b"> \ta", 0, 3), mds.LineStart("> \ta"), 1):
            self.assertNotEqual(start, other)
        self.assertTrue(start.quote() and start.space(1))
        for other in (start.copy(), copy.copy(start), copy.deepcopy(start), pickle.loads(pickle.dumps(start))):
            self.assertEqual(start, other)
            self.assertTrue(other.space(1))
            self.assertNotEqual(start, other)
            self.assertEqual((start.pending, other.pending), (1, 0))
        self.assertRaises(TypeError, hash, start)

    def test_line_starts_of_buffers_are_copied_with_them(self):
        page = bytearray(b"  a")
        start = mds.LineStart(page)
        other = copy.deepcopy(start)
        page[:] = b"bcd"
        self.assertEqual((start.upto(4), other.upto(4)), (0, 2))

    def test_line_starts_are_shown(self):
        start = mds.LineStart("é\n\ta", 2)
        self.assertEqual(repr(start), "<LineStart from 2 to 4, at place 2>")
        start.space(1)
        self.assertEqual(repr(start), "<LineStart from 2 to 4, at place 3, 3 columns pending>")


if __name__ == "__main__":
    unittest.main()
