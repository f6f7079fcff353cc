"""The HTML of pages, on the rows of packages/pages.tsv."""
import itertools
import sys
import unittest
from pathlib import Path

import fillaqut as mds
import tables
from test_rows import hold

sys.path.append(str(Path(__file__).resolve().parents[3] / "tests/html"))
import spec


def asked_of(row):
    """The extensions and the setting that a row asks for."""
    fields = dict(word.split("=") for word in row.words if "=" in word)
    asked = {"extensions": [word for word in row.words if "=" not in word]}
    if "scheme" in fields:
        asked["schemes"] = [fields.pop("scheme")]
    if "images_as_links" in fields:
        asked["images_as_links"] = {"yes": True}[fields.pop("images_as_links")]
    if "rel" in fields:
        asked["rel"] = {"none": False}[fields.pop("rel")]
    return asked | fields


class Html(unittest.TestCase):
    def are_rows(self, rows, call):
        for row in rows:
            page, html, asked = row.text.decode(), row.answer, asked_of(row)
            self.assertEqual(call(page, **asked), html.decode(), row.where)
            self.assertEqual(call(row.text, **asked), html, row.where)
            self.assertEqual(call(bytearray(row.text), **asked), html, row.where)

    def test_rows_of_html_unsafe(self):
        rows = tables.pages("html_unsafe")
        self.are_rows(rows, mds.html_unsafe)
        hold(self, "html_unsafe", len(rows))

    def test_rows(self):
        rows = tables.pages("html")
        self.are_rows(rows, mds.html)
        hold(self, "html", len(rows))

    def test_numbers_of_rows(self):
        """A row with a number is of that example of CommonMark 0.31.2, and its HTML the one that stands there."""
        examples = {str(example.number): example for example in spec.examples(spec.COMMONMARK)}
        rows = [row for call in tables.PAGE_CALLS for row in tables.pages(call) if row.example in examples]
        for row in rows:
            example = examples[row.example]
            self.assertIn(row.text, example.page, row.where)
            if row.call != "scan_inlines":
                self.assertEqual(row.text, example.page, row.where)
            if row.call == "html_unsafe":
                self.assertEqual(row.answer, example.html, row.where)
        hold(self, "numbered_rows", len(rows))

    def test_html_is_safe(self):
        self.assertEqual(mds.html("<script>"), "&lt;script&gt;\n")
        self.assertEqual(mds.html_unsafe("<script>"), "<script>\n")
        self.assertRaises(TypeError, mds.html, "a", safe=False)

    def test_extensions(self):
        self.assertEqual(mds.html_unsafe("[[a|b]]", extensions=["wikilinks"]), '<p><a href="a">b</a></p>\n')
        self.assertEqual(mds.html("~a~", extensions=[]), "<p>~a~</p>\n")
        self.assertEqual(mds.html("~a~", extensions=iter(["strikethrough"])), "<p><del>a</del></p>\n")
        for names in (["tables", "Tables"], ["table"], [""], [1], [None], ["footnotes"], ["tables", "definition-lists"], ["footnotes", "x"]):
            with self.assertRaises(ValueError) as why:
                mds.html("a", extensions=names)
            self.assertIn(repr(names[-1]), str(why.exception))
        self.assertRaisesRegex(ValueError, "not built of the extension 'footnotes' yet", mds.html_unsafe, "a", extensions={"footnotes"})
        self.assertRaises(TypeError, mds.html, "a", extensions="tables")
        self.assertRaises(TypeError, mds.html, "a", extensions=None)

    def test_settings(self):
        def link(address, text):
            return f'<p><a href="{address}" rel="nofollow noopener">{text}</a></p>\n'

        self.assertEqual(mds.DEFAULT_SCHEMES, ("http", "https", "mailto", "tel"))
        for schemes in (list(mds.DEFAULT_SCHEMES), ["ftp", "HTTPS"], iter(["https"])):
            self.assertEqual(mds.html("<https://a>", schemes=schemes), link("https://a", "https://a"))
        for schemes in (["ftp"], ["https:"], [""], []):
            self.assertEqual(mds.html("<https://a>", schemes=schemes), link("", "https://a"))
            self.assertEqual(mds.html(b"[a](b)", schemes=schemes), link("b", "a").encode())
        self.assertEqual(mds.html("a<b>", raw_html="escaped", schemes=["\xe9"]), "<p>a&lt;b&gt;</p>\n")
        self.assertEqual(mds.html("\xe9<b>c", 1, 4, raw_html="omitted"), "")
        self.assertEqual(mds.html("[a](b)", rel=False, raw_html="omitted"), '<p><a href="b">a</a></p>\n')

    def test_settings_that_are_refused(self):
        for raw_html in ("kept", "Escaped", "", None, False):
            with self.assertRaisesRegex(ValueError, f"raw_html is {raw_html!r}, and not one of escaped, omitted"):
                mds.html("a", raw_html=raw_html)
        for schemes in ("http", b"http", None, [1], [None]):
            self.assertRaises(TypeError, mds.html, "a", schemes=schemes)
        self.assertRaises(mds.LoneSurrogateError, mds.html, "a", schemes=["\ud800"])
        for given in (1, 0, None, "no"):
            self.assertRaises(TypeError, mds.html, "a", rel=given)
            self.assertRaises(TypeError, mds.html, "a", images_as_links=given)
            self.assertRaises(TypeError, mds.html, "a", strict=given)
            self.assertRaises(TypeError, mds.html_unsafe, "a", strict=given)
        for name in ("schemes", "raw_html", "rel", "images_as_links"):
            self.assertRaises(TypeError, mds.html_unsafe, "a", **{name: False})

    def test_pages(self):
        self.assertEqual((mds.html(""), mds.html(b"")), ("", b""))
        self.assertEqual(mds.html("é🍔"), "<p>é🍔</p>\n")
        self.assertEqual(mds.html("é*a*b", 1, 4), "<p><em>a</em></p>\n")
        self.assertRaises(mds.LoneSurrogateError, mds.html, "\ud800")
        self.assertRaises(TypeError, mds.html, None)

    def test_pages_that_are_not_utf8(self):
        """Each is read as Python's own decoder reads it, and is refused where that is asked for."""
        wrong = [b"\xff", b"\x80", b"\xc3", b"\xe2\x82", b"\xe2\x28", b"\xed\xa0\x80", b"\xf0\x9f\x8d", b"\xc0\x80", b"\xf4\x90\x80\x80"]
        wrong += [bytes(pair) for pair in itertools.product((0x41, 0x80, 0xBF, 0xC2, 0xE0, 0xED, 0xF0, 0xF4, 0xFF), repeat=2)]
        asked = ({}, {"rel": False}, {"raw_html": "omitted", "schemes": ["ftp"]})
        for middle, (front, back) in itertools.product(wrong, ((b"", b""), (b"# <b>\xc3\xa9 [", b"](ftp:b)\n"), (b"*" * 9, b"\xf0\x9f"))):
            page = front + middle + back
            text = page.decode(errors="replace").encode()
            for setting in asked:
                self.assertEqual(mds.html(page, **setting), mds.html(text, **setting), page)
                self.assertEqual(mds.html(bytearray(page), 0, len(page), **setting), mds.html(text, **setting), page)
            self.assertEqual(mds.html_unsafe(page), mds.html_unsafe(text), page)
            self.are_strict(page)
        self.assertEqual(mds.html(b"a\xff\xffb", 2, 3), b"<p>\xef\xbf\xbd</p>\n")

    def are_strict(self, page):
        """The calls that ask for it refuse a page that is not UTF-8."""
        try:
            text = page.decode()
        except UnicodeDecodeError as expected:
            for call, setting in ((mds.html, {}), (mds.html, {"rel": False}), (mds.html_unsafe, {})):
                with self.assertRaises(mds.NotUtf8Error) as why:
                    call(page, strict=True, **setting)
                self.assertEqual(why.exception.index, expected.start)
        else:
            self.assertEqual(mds.html(page, strict=True), mds.html(page))
            self.assertEqual(mds.html(text, strict=True), mds.html(text))
            self.assertEqual(mds.html_unsafe(text, strict=True), mds.html_unsafe(text))

    def test_long_html(self):
        """More than a first buffer holds: an address is written as often as it is referred to, up to 100,000 bytes."""
        address = "/" + "b" * 4999
        expected = "\n".join([f'<a href="{address}">a</a>'] * 20)
        self.assertEqual(mds.html_unsafe("[a]\n" * 20 + f"\n[a]: {address}\n"), f"<p>{expected}</p>\n")


if __name__ == "__main__":
    unittest.main()
