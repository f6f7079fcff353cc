"""What no row of packages/c/tests says: bytes of each number, guards, what is refused before C is called, and that
nothing is missing."""
import ctypes
import doctest
import html.entities
import importlib
import importlib.util
import itertools
import os
import pickle
import pkgutil
import sys
import unicodedata
import unittest
from functools import partial
from pathlib import Path
from types import SimpleNamespace
from unittest import mock

import fillaqut as mds
from fillaqut import _c, _library, errors
from test_rows import hold

FOLDER = Path(mds.__file__).parent
PUNCTUATION = b"!\"#$%&'()*+,-./:;<=>?@[\\]^_`{|}~"


class Bytes(unittest.TestCase):
    def test_classes(self):
        for byte in range(256):
            self.assertEqual(mds.is_whitespace(byte), byte in b" \t\n\v\f\r")
            self.assertEqual(mds.is_whitespace_in_line(byte), byte in b" \t\v\f")
            self.assertEqual(mds.is_punctuation(byte), byte in PUNCTUATION)

    def test_character_classes(self):
        """As Python's own tables have them, of the characters of Unicode 3.2, whose categories stay."""
        for code in [code for code in range(0x30000) if unicodedata.ucd_3_2_0.category(chr(code)) != "Cn"]:
            category = unicodedata.category(chr(code))
            is_space = category == "Zs" or code in (9, 10, 12, 13)
            self.assertEqual(mds.is_unicode_whitespace(code), is_space, hex(code))
            self.assertEqual(mds.is_unicode_punctuation(chr(code)), category[0] in "PS", hex(code))
        for code in (0xD800, 0x110000, 2**32 - 1):
            self.assertFalse(mds.is_unicode_whitespace(code) or mds.is_unicode_punctuation(code))
        for value in (-1, 2**32, "", "ab"):
            self.assertRaises(ValueError, mds.is_unicode_whitespace, value)
            self.assertRaises(ValueError, mds.is_unicode_punctuation, value)
        self.assertRaises(TypeError, mds.is_unicode_whitespace, b" ")

    def test_no_bytes(self):
        for value in (-1, 256, 2**64 + 32):
            self.assertRaises(ValueError, mds.is_whitespace, value)
            self.assertRaises(ValueError, mds.scan_ch, b" ", byte=value)
        for value in ("", "ab", "\xe9", b"", b"ab"):
            self.assertRaises(ValueError, mds.scan_ch, b" ", byte=value)
        self.assertEqual([mds.scan_ch(b"#", byte=value) for value in (35, "#", b"#", "b")], [1, 1, 1, 0])

    def test_numbers(self):
        for number in (-1, 2**64):
            self.assertRaises(ValueError, mds.calc_indent, b" ", limit=number)
            self.assertRaises(ValueError, mds.LineStart(b" ").space, number)
            self.assertRaises(ValueError, mds.HtmlScanGuard(b"<!").scan, number)
            self.assertRaises(ValueError, mds.run_inline_html, b"<!", [number])
            self.assertRaises(ValueError, mds.scan_link_dest, b"", max_next=number)
            self.assertRaises(ValueError, mds.scan_reference_definition, b"", max_next=number)
            self.assertRaises(ValueError, mds.scan_wikilink_pipe, b"", count=number)
            self.assertRaises(ValueError, mds.scan_closing_code_fence, b"", byte="~", count=number)

    def test_places(self):
        for at, end in ((2, None), (-1, None), (0, 2), (1, 0), (0, -1)):
            self.assertRaises(IndexError, mds.scan_line, b"a", at, end)
            self.assertRaises(IndexError, mds.scan_link_dest, b"a", at, end=end)
            self.assertRaises(IndexError, mds.LineStart, b"a", at, end)
            self.assertRaises(IndexError, mds.unescape, b"a", at=at, end=end)
            self.assertRaises(IndexError, mds.scan_delimiter_run, b"a", at, end)
        for begin in (-1, 2):
            self.assertRaises(IndexError, mds.scan_delimiter_run, "a*b", 1, begin=begin)
        self.assertEqual(mds.scan_line(b"a", 1), 1)

class Refusals(unittest.TestCase):
    def test_statuses(self):
        for status, kind in ((_c.NOT_UTF8, mds.NotUtf8Error), (_c.BAD_SKIPS, mds.BadSkipsError), (_c.NO_MEMORY, MemoryError)):
            self.assertIs(type(errors.refusal(status)), kind)
        self.assertIs(type(errors.refusal(999)), mds.RefusalError)
        self.assertRaises(mds.RefusalError, errors.stated, 999)

    def test_earlier_names(self):
        kinds = [kind for name, kind in vars(mds).items() if name.endswith("Error")]
        self.assertEqual(len(kinds), 11)
        for kind in kinds:
            self.assertTrue(issubclass(kind, mds.RefusalError))
            if kind is not mds.LoneSurrogateError:
                self.assertIs(getattr(mds, kind.__name__.removesuffix("Error")), kind)

    def test_texts(self):
        for call in (mds.unescape, mds.label_key, lambda text: mds.labels_match(text, b""), lambda text: mds.labels_match("", text)):
            with self.assertRaisesRegex(mds.NotUtf8Error, "is not UTF-8: the byte at index 2 is wrong") as why:
                call(b"a]\xff")
            self.assertEqual(why.exception.index, 2)
        self.assertRaises(mds.EmptyError, mds.scan_entity, b"")
        self.assertRaises(mds.TooLargeError, mds.calc_indent, b"", limit=2**64 - 1)

    def test_first_wrong_bytes(self):
        """As Python's own decoder finds them, from a place on, of bytes and of a buffer."""
        strict = partial(mds.html, strict=True), partial(mds.html_unsafe, strict=True)
        for wrong in (b"\xff", b"\x80", b"a\xc3", b"\xe2\x82", b"\xe2\x28", b"\xed\xa0\x80", b"\xf0\x9f\x8d", b"\xc0\x80", b"\xf4\x90\x80\x80"):
            for front in (b"", "é\n\n".encode(), b"# a\n" * 10_000):
                page = b"\xff" + front + wrong
                with self.assertRaises(UnicodeDecodeError) as expected:
                    page[1:].decode()
                for call, data in itertools.product((*strict, mds.events, mds.scan_inlines, mds.unescape), (page, bytearray(page))):
                    with self.assertRaises(mds.NotUtf8Error) as why:
                        call(data, 1)
                    self.assertEqual(why.exception.index, 1 + expected.exception.start)
                    copied = pickle.loads(pickle.dumps(why.exception))
                    self.assertEqual((copied.index, str(copied)), (why.exception.index, str(why.exception)))

    def test_labels_that_are_not_utf8(self):
        with self.assertRaisesRegex(mds.NotUtf8Error, r"labels\[1\] is not UTF-8: the byte at index 1 is wrong") as why:
            mds.scan_inlines("[a]", labels=["a", b"b\xff"])
        self.assertEqual((why.exception.index, why.exception.name), (1, "labels[1]"))
        with self.assertRaisesRegex(mds.NotUtf8Error, "other is not UTF-8"):
            mds.labels_match("a", b"\xff")
        with self.assertRaises(mds.NotUtf8Error) as why:
            mds.scan_delimiter_run(b"\xff*a", 1)
        self.assertIsNone(why.exception.index)

    def test_skips(self):
        page = b"> <a\n> b> c\n\xff> d"
        for rows in ([(12, 1)], [(18, 0)], [(0, 2), (1, 1)], [(5, 2), (0, 2)], [(0, 2**64 - 1)]):
            self.assertRaises(mds.BadSkipsError, mds.Skips, page, rows)
        self.assertRaises(ValueError, mds.Skips, page, [(-1, 1)])
        skips = mds.Skips(page, [(0, 2), (5, 2), (13, 0)])
        self.assertEqual(mds.scan_html_tag_over_lines(page, 2, skips=skips), mds.Tag(9, b"<a\nb>"))
        self.assertEqual(mds.scan_html_tag_over_lines(page, 2, 9, skips=skips), mds.Tag(9, b"<a\nb>"))
        self.assertIsNone(mds.scan_html_tag_over_lines(page, 2, 6, skips=skips))
        self.assertEqual(mds.scan_html_tag_over_lines(bytes(bytearray(page)), 2, skips=skips), mds.Tag(9, b"<a\nb>"))
        self.assertRaises(ValueError, mds.scan_html_tag_over_lines, b"<a>", skips=skips)

    def test_runs(self):
        with self.assertRaises(mds.NotRisingError) as why:
            mds.run_inline_html(b"<!a>", [2, 2])
        self.assertEqual(why.exception.run, (4,))
        with self.assertRaises(mds.SpacePendingError) as why:
            mds.run_line(start := mds.LineStart(b"\tx"), [(mds.CallKind.UPTO, 3), (mds.CallKind.EOL, 0)])
        self.assertEqual((why.exception.run, start.place, mds.line_rest(start)), ((3,), 1, b" x"))
        self.assertEqual(mds.run_line(start, [(mds.CallKind.UPTO, 3), (mds.CallKind.EOL, 0)]), (1, False))


class Texts(unittest.TestCase):
    def test_entities(self):
        rows = [(name, text) for name, text in html.entities.html5.items() if name.endswith(";")]
        self.assertEqual(len(rows), 2125)
        for name, text in rows:
            found = mds.scan_entity(f"a&{name}b".encode(), 1)
            self.assertEqual(found, mds.Entity(len(name) + 2, text.encode()))
            self.assertEqual(mds.unescape(f"&{name}".encode()), text.encode())

    def test_guards(self):
        data = b"<!-- a --> <!b> <![CDATA[c]]> <?d?> <!-- e"
        guard = mds.HtmlScanGuard(data)
        self.assertEqual([guard.scan(at) for at in (2, 13, 18, 32, 38)], [10, 15, 29, 35, None])
        self.assertLessEqual(guard.passed, 4 * len(data) + 8 * 5)
        many = mds.HtmlScanGuard(b"<!-- a\n" * 10000)
        self.assertEqual([many.scan(at) for at in range(2, 70000, 7)], [None] * 10000)
        self.assertLessEqual(many.passed, 4 * 70000 + 8 * 10000)

    def test_delimiter_runs(self):
        """A text begins where it is said to; else at the page's front."""
        page = "\u20ac*a*"
        self.assertEqual(mds.scan_delimiter_run(page, 1), mds.DelimiterRun(2, ord("*"), True, False))
        self.assertEqual(mds.scan_delimiter_run("b*a*", 1), mds.DelimiterRun(2, ord("*"), True, True))
        self.assertEqual(mds.scan_delimiter_run("b*a*", 1, begin=1), mds.DelimiterRun(2, ord("*"), True, False))
        self.assertEqual(mds.scan_delimiter_run("b*a*", 1, 2), mds.DelimiterRun(2, ord("*"), False, True))
        self.assertRaises(mds.NotUtf8Error, mds.scan_delimiter_run, b"\xff*a", 1)

    def test_long_label(self):
        self.assertEqual(mds.scan_link_label(b"a" * 999 + b"]").end, 1000)
        self.assertEqual(mds.scan_link_label("\U0001f354".encode() * 999 + b"]").text, "\U0001f354".encode() * 999)
        self.assertIsNone(mds.scan_link_label(b"a" * 1000 + b"]"))

    def test_rooms_that_are_too_short(self):
        """The call is made once more."""
        row = b"|-" * 5000 + b"|\n"
        self.assertEqual(mds.scan_table_head(row), mds.TableHead(len(row), (mds.Alignment.NONE,) * 5000))
        tag = b"<a\n> b='" + b"c" * 5000 + b"'>"
        self.assertEqual(mds.scan_html_tag_over_lines(tag, skips=mds.Skips(tag, [(3, 2)])), mds.Tag(len(tag), tag.replace(b"> ", b"")))
        self.assertEqual(mds.unescape(b"&amp;" * 5000), b"&" * 5000)
        self.assertEqual(mds.label_key("\u0390" * 2000), "\u03b9\u0308\u0301" * 2000)


class Package(unittest.TestCase):
    def test_each_function_is_called(self):
        text = "".join(path.read_text() for path in FOLDER.glob("*.py") if path.name != "_c.py")
        self.assertEqual([name for name in _c.FUNCTIONS if f'("{name}")' not in text], [])

    def test_public_names(self):
        modules = {module.name for module in pkgutil.iter_modules([str(FOLDER)])}
        earlier = {name.removesuffix("Error") for name in mds.__all__ if name.endswith("Error")} - {"LoneSurrogate"}
        self.assertEqual(set(mds.__all__) | earlier, {name for name in dir(mds) if not name.startswith("_")} - modules)
        self.assertTrue((FOLDER / "py.typed").is_file())

    def test_examples(self):
        """Each call has an example, and they are so many."""
        tried = 0
        self.assertEqual([name for name in mds.__all__ if not hasattr(mds, name)], [])
        for name in [module.name for module in pkgutil.iter_modules([str(FOLDER)])]:
            found = doctest.testmod(importlib.import_module(f"fillaqut.{name}"))
            self.assertEqual(found.failed, 0)
            tried += found.attempted
        calls = [getattr(mds, name) for name in mds.__all__ if name[0].islower()]
        calls += [call for kind in (mds.LineStart, mds.HtmlScanGuard) for name, call in vars(kind).items() if not name.startswith("_")]
        self.assertEqual([call for call in calls if ">>>" not in (call.__doc__ or "") and callable(call)], [])
        hold(self, "examples", tried)

    def test_ways_of_ctypes_under_windows(self):
        """The library is found, and called, where ctypes goes the ways that it has for Windows, whose flags stand here for those of this system."""
        flags = SimpleNamespace(_LOAD_LIBRARY_SEARCH_DEFAULT_DIRS=ctypes.DEFAULT_MODE | 2, _LOAD_LIBRARY_SEARCH_DLL_LOAD_DIR=0, _getfullpathname=str)
        spec = importlib.util.spec_from_file_location("fillaqut._library_again", _library.__file__)
        again = importlib.util.module_from_spec(spec)
        system = SimpleNamespace(**{**vars(os), "name": "nt"})
        with mock.patch.object(ctypes, "_os", system), mock.patch.dict(sys.modules, nt=flags):
            if sys.version_info < (3, 14):  # a later one has chosen its ways before
                self.assertRaises(TypeError, ctypes.PyDLL, None)
            spec.loader.exec_module(again)
        self.assertEqual(again.size_of_text("\u20ac"), 3)
        self.assertEqual(again.function("scan_line")(again.address_of(b"a\nb"), 3), 2)


if __name__ == "__main__":
    unittest.main()
