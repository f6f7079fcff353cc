"""The inlines of texts, on the rows of packages/pages.tsv."""
import unittest

import fillaqut as mds
import tables
from fillaqut import InlineKind, LinkTarget, Span
from test_rows import hold

TAGS = {
    InlineKind.SOFT_BREAK: "\n",
    InlineKind.HARD_BREAK: "<br>",
    InlineKind.EMPHASIS: "<em>",
    InlineKind.EMPHASIS_END: "</em>",
    InlineKind.STRONG: "<strong>",
    InlineKind.STRONG_END: "</strong>",
    InlineKind.STRIKETHROUGH: "<del>",
    InlineKind.STRIKETHROUGH_END: "</del>",
    InlineKind.LINK_END: "</>",
}


def asked_of(row):
    """The extensions that a row asks for, and its definitions, each a label, a destination and a title."""
    fields = [word.partition("=") for word in row.words]
    texts = [tables.read_text(value).decode() for _, separator, value in fields if separator]
    return [name for name, separator, _ in fields if not separator], list(zip(*[iter(texts)] * 3, strict=True))


class Returned:
    """What is said of the inlines of a text, which may be bytes, and stand at a place."""

    def __init__(self, data, at, end, extensions, definitions):
        self.data, self.end, self.definitions = data, end, definitions
        found = mds.scan_inlines(data, at, end, labels=[definition[0] for definition in definitions], extensions=extensions)
        self.text = "".join(map(self.inline, found))

    def part(self, start, stop):
        found = self.data[start:stop]
        return found if isinstance(found, str) else bytes(found).decode()

    def inline(self, inline):
        if inline.kind in TAGS:
            return TAGS[inline.kind]
        if inline.link:
            return f"<{'img' if inline.kind == InlineKind.IMAGE else 'a'} {self.target(inline.link)}>"
        if inline.kind in (InlineKind.URI, InlineKind.EMAIL):
            address = self.part(*inline.content)
            return f"<a {'mailto:' * (inline.kind == InlineKind.EMAIL)}{address}|>{address}</>"
        if inline.kind == InlineKind.CODE:
            return f"<code>{self.code(self.part(*inline.content))}</code>"
        text = self.part(inline.start, inline.stop)
        if inline.kind == InlineKind.HTML:
            return f"<html>{text}</html>"
        return text if inline.kind == InlineKind.TEXT else mds.unescape(text)

    def code(self, text):
        text = text.replace("\n", " ")
        return text[1:-1] if text.strip(" ") and text[0] == text[-1] == " " else text

    def target(self, link):
        if link.target == LinkTarget.WIKI:
            return self.part(*link.destination) + "|"
        if link.target == LinkTarget.INLINE:
            parts = [self.part(*link.destination), self.part(*link.title) if link.title else ""]
        else:
            label = mds.scan_link_label(self.data, link.label.start, self.end)
            assert label.end == link.label.stop + 1
            parts = next(definition[1:] for definition in self.definitions if mds.labels_match(definition[0], label.text))
        return "|".join(map(mds.unescape, parts))


class Inlines(unittest.TestCase):
    def test_rows(self):
        """Of a text by itself, inside of other bytes, in a buffer and as a str among other characters."""
        rows = tables.pages("scan_inlines")
        for row in rows:
            data, text, asked = row.text, row.text.decode(), asked_of(row)
            inside = (b"*[\xff" + data + b"](b)*", 3, 3 + len(data)), ("é🍔[" + text + "]*é", 3, 3 + len(text))
            for given in ((data, 0, None), (bytearray(data), 0, None), (text, 0, None), *inside):
                self.assertEqual(Returned(*given, *asked).text, row.answer.decode(), row.where)
        hold(self, "scan_inlines", len(rows))

    def test_fields(self):
        image, text, end = mds.scan_inlines("![é](<b> 'c')")
        self.assertEqual((image.kind, image.start, image.stop, image.content), (InlineKind.IMAGE, 0, 2, None))
        self.assertEqual(image.link, mds.Link(LinkTarget.INLINE, 13, Span(6, 7), Span(10, 11), None))
        self.assertEqual(text, mds.Inline(InlineKind.TEXT, 2, 3, None, None))
        self.assertEqual(end, mds.Inline(InlineKind.LINK_END, 3, 13, None, None))
        self.assertIsNone(next(mds.scan_inlines("[a](b)")).link.title)
        rows = ("[a][b]", LinkTarget.FULL, Span(4, 5)), ("[b][]", LinkTarget.COLLAPSED, Span(1, 2)), ("[b]", LinkTarget.SHORTCUT, Span(1, 2))
        for text, target, label in rows:
            self.assertEqual(next(mds.scan_inlines(text, labels=("B",))).link, mds.Link(target, len(text), None, None, label))
        code, uri, email = mds.scan_inlines(b"``a``<bb:c><d@e>")
        self.assertEqual([inline.content for inline in (code, uri, email)], [Span(2, 3), Span(6, 10), Span(12, 15)])

    def test_labels(self):
        kinds = lambda *labels: [inline.kind for inline in mds.scan_inlines("[Ä]", labels=labels)]
        self.assertEqual(kinds("ä"), [InlineKind.LINK, InlineKind.TEXT, InlineKind.LINK_END])
        self.assertEqual(kinds("b", "Ä".encode(), bytearray(b"c")), kinds("ä"))
        self.assertEqual(kinds(*map(str, range(10000)), "ä"), kinds("ä"))
        self.assertEqual(kinds(), [InlineKind.TEXT] * 3)
        self.assertEqual(len(list(mds.scan_inlines("[a]", labels=iter(["a"])))), 3)
        self.assertRaises(TypeError, mds.scan_inlines, "[a]", labels="a")
        self.assertRaises(TypeError, mds.scan_inlines, "[a]", labels=[None])
        self.assertRaises(mds.NotUtf8Error, mds.scan_inlines, "[a]", labels=[b"\xff"])
        self.assertRaises(mds.LoneSurrogateError, mds.scan_inlines, "[a]", labels=["\ud800"])

    def test_strikethrough(self):
        """Examples of GitHub Flavored Markdown 0.29, where they ask for it and where not."""
        marks = {InlineKind.STRIKETHROUGH: "<del>", InlineKind.STRIKETHROUGH_END: "</del>"}
        part = lambda text, inline: marks.get(inline.kind, text[inline.start : inline.stop])
        struck = lambda text, *names: "".join(part(text, inline) for inline in mds.scan_inlines(text, extensions=names))
        text = "~~Hi~~ Hello, ~there~ world!"  # 491
        self.assertEqual(struck(text, "strikethrough"), "<del>Hi</del> Hello, <del>there</del> world!")
        self.assertEqual(struck(text, "tables", "footnotes", "tasks", "definition-lists", "wikilinks"), text)
        self.assertEqual(struck(text), text)
        for line in ("This ~~has a", "new paragraph~~."):  # 492
            self.assertEqual(struck(line, "strikethrough"), line)

    def test_extensions(self):
        self.assertRaisesRegex(ValueError, "no extension 'strike', but tables", mds.scan_inlines, "a", extensions=["strike"])
        self.assertRaises(TypeError, mds.scan_inlines, "a", extensions="tables")
        self.assertRaises(TypeError, mds.scan_inlines, "a", strikethrough=True)

    def test_wikilinks(self):
        """Two brackets, a target, and perhaps a pipe and a text; and what CommonMark alone makes of one."""
        image, text, end, link, last = mds.scan_inlines("![[é b|c]][[d]]", extensions=["wikilinks"])
        self.assertEqual((image.kind, image.start, image.stop), (InlineKind.IMAGE, 0, 7))
        self.assertEqual(image.link, mds.Link(LinkTarget.WIKI, 10, Span(3, 6), None, None))
        self.assertEqual((text.kind, end.start, end.stop), (InlineKind.TEXT, 8, 10))
        self.assertEqual((link.kind, link.stop, link.link.destination), (InlineKind.LINK, 13, Span(12, 13)))
        self.assertEqual((last.kind, last.start, last.stop), (InlineKind.LINK_END, 13, 15))
        kinds = lambda text, *names: {inline.kind for inline in mds.scan_inlines(text, extensions=names)}
        for text in ("[[]]", "[[a]", "[[a\nb]]", "[[a|b](c)"):
            self.assertLessEqual(kinds(text, "wikilinks"), {InlineKind.TEXT, InlineKind.SOFT_BREAK})
        self.assertEqual(kinds("~[[a]]~"), {InlineKind.TEXT})
        self.assertEqual(kinds("~[[a]]~", "wikilinks"), {InlineKind.TEXT, InlineKind.LINK, InlineKind.LINK_END})
        self.assertIn(InlineKind.STRIKETHROUGH, kinds("~[[a]]~", "strikethrough", "wikilinks"))

    def test_no_text(self):
        self.assertEqual(list(mds.scan_inlines(b"")), [])
        self.assertRaises(TypeError, mds.scan_inlines, None)
        self.assertRaises(IndexError, mds.scan_inlines, b"a", 2)
        self.assertRaises(mds.NotUtf8Error, mds.scan_inlines, b"a\xff")
        self.assertRaises(mds.LoneSurrogateError, mds.scan_inlines, "\ud800")

    def test_many(self):
        """More than a first buffer holds, which nest."""
        found = list(mds.scan_inlines("*a " * 5000 + "b*" * 5000))
        self.assertEqual(sum(inline.kind == InlineKind.EMPHASIS for inline in found), 5000)
        self.assertEqual(sum(inline.kind == InlineKind.EMPHASIS_END for inline in found), 5000)


if __name__ == "__main__":
    unittest.main()
