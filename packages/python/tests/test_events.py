"""The events of pages: on the rows of packages/pages.tsv, and by the HTML that a small program makes of them, which is that of the
examples of CommonMark 0.31.2. `html` is checked on these examples too."""
import re
import sys
import unittest
from html import escape
from itertools import accumulate
from pathlib import Path
from urllib.parse import quote

import fillaqut as mds
import tables
from fillaqut import Element, EventKind, LinkKind
from test_rows import hold

TOP = Path(__file__).resolve().parents[3]
sys.path.append(str(TOP / "tests/html"))
import spec


def as_text(value):
    return value.decode() if isinstance(value, bytes) else value


def quoted(value):
    return ' "' + as_text(value).replace("\n", "\\n") + '"'


NAMES = {Element.QUOTE: "block quote"}
LINKS = {LinkKind.WIKI: "wikilink", LinkKind.WIKI_PIPED: "piped wikilink"}


def line_of(event, first, byte_of):
    """The line of an event, as the rows have it."""
    words = event.kind.name.lower().replace("_", " ")
    if event.kind == EventKind.TASK:
        words = ("checked " if event.checked else "unchecked ") + words
    if event.element:
        words += " " + NAMES.get(event.element, event.element.name.lower().replace("_", " "))
        words += f" {event.level}" if event.level else ""
    words += "" if event.number is None else f" {event.number}"
    words += "".join(f" {alignment.name.lower()}" for alignment in event.alignments)
    if event.target:
        words += " " + LINKS.get(event.target.kind, event.target.kind.name.lower())
        words += quoted(event.target.destination) + quoted(event.target.title) + (quoted(event.target.label) if event.target.label else "")
    words += "" if event.text is None else quoted(event.text)
    return f"{byte_of(event.start) - first} {byte_of(event.stop) - first} {words}\n"


def lines_of(data, asked, at=0, end=None):
    def byte_of(place):
        return len(data[:place].encode()) if isinstance(data, str) else place

    return "".join(line_of(event, byte_of(at), byte_of) for event in mds.events(data, at, end, extensions=asked))


OPEN = {
    Element.PARAGRAPH: "p", Element.QUOTE: "blockquote", Element.ITEM: "li", Element.EMPHASIS: "em", Element.STRONG: "strong",
}


class Writer:
    """The HTML of events, in which images have the texts that they hold."""

    def __init__(self):
        self.html, self.images, self.alone = [], [], False

    def add(self, event):
        if event.kind == EventKind.START and event.element == Element.IMAGE:
            self.images.append(event.target)
        elif event.kind == EventKind.END and event.element == Element.IMAGE:
            target = self.images.pop()
            if not self.images:
                self.html.append(f'" {titled(target)}/>')
            return
        elif self.images:
            self.html.append(escape(event.text or ("\n" if "BREAK" in event.kind.name else ""), quote=True).replace("&#x27;", "'"))
            return
        if len(self.images) == 1 and event.element == Element.IMAGE:
            self.html.append(f'<img src="{address(event.target)}" alt="')
        elif not self.images:
            self.html.append(self.returned(event))

    def returned(self, event):
        if event.kind in (EventKind.START, EventKind.END):
            return self.tag(event, event.kind == EventKind.START)
        return {
            EventKind.TEXT: lambda: text(event.text), EventKind.CODE: lambda: f"<code>{text(event.text)}</code>",
            EventKind.HTML: lambda: event.text, EventKind.INLINE_HTML: lambda: event.text, EventKind.SOFT_BREAK: lambda: "\n",
            EventKind.HARD_BREAK: lambda: "<br />\n", EventKind.RULE: lambda: "<hr />\n",
        }[event.kind]()

    def tag(self, event, is_start):
        if event.element == Element.HEADING:
            return f"<h{event.level}>" if is_start else f"</h{event.level}>\n"
        if event.element == Element.CODE_BLOCK:
            name = f' class="language-{text(event.text.split()[0])}"' if event.text and event.text.split() else ""
            return f"<pre><code{name}>" if is_start else "</code></pre>\n"
        if event.element == Element.LIST:
            if is_start:
                self.images, self.lists = self.images, getattr(self, "lists", []) + [event.number]
                return "<ul>\n" if event.number is None else "<ol>\n" if event.number == 1 else f'<ol start="{event.number}">\n'
            return "</ul>\n" if self.lists.pop() is None else "</ol>\n"
        if event.element == Element.LINK:
            return f'<a href="{address(event.target)}"{titled(event.target).rstrip() and " " + titled(event.target).rstrip()}>' if is_start else "</a>"
        if event.element == Element.HTML_BLOCK:
            return ""
        name = OPEN[event.element]
        return f"<{name}>" if is_start else f"</{name}>\n" if name in ("p", "blockquote", "li") else f"</{name}>"


def text(words):
    return escape(words, quote=True).replace("&#x27;", "'")


def titled(target):
    return f'title="{text(target.title)}" ' if target.title else ""


def address(target):
    to = ("mailto:" if target.kind == LinkKind.EMAIL else "") + target.destination
    return escape(quote(to, safe="-_.+!*'(),%#@?=;:/&$~"), quote=True).replace("&#x27;", "&#x27;")


def html_of(page):
    writer = Writer()
    for event in mds.events(page):
        writer.add(event)
    return "".join(writer.html)


def without_lines(html):
    """The HTML without line endings beside the tags of blocks, which no event says."""
    return re.sub(r"\s*\n?(</?(?:p|li|ul|ol|blockquote|pre|hr|h[1-6])\b[^>]*>)\n?\s*", r"\1", html).strip()


class Events(unittest.TestCase):
    def test_rows(self):
        rows = tables.pages("events")
        for row in rows:
            page, text, asked, lines = row.text, row.text.decode(), row.words, row.answer.decode()
            self.assertEqual(lines_of(page, asked), lines, row.where)
            self.assertEqual(lines_of(text, asked), lines, row.where)
            self.assertEqual(lines_of(bytearray(b"*\xff" + page + b"*"), asked, 2, 2 + len(page)), lines, row.where)
            self.assertEqual(lines_of(f"é*{text}*🍔", asked, 2, 2 + len(text)), lines, row.where)
        hold(self, "events", len(rows))

    def test_examples(self):
        """Each example of the specification: by `html`, of a str and of bytes, and by events."""
        found = list(spec.examples(spec.COMMONMARK))
        for example in found:
            page, expected = example.page.decode(), example.html.decode()
            self.assertEqual(mds.html_unsafe(page), expected, example)
            self.assertEqual(mds.html_unsafe(example.page), example.html, example)
            self.assertEqual(without_lines(html_of(page)), without_lines(expected), example)
        hold(self, "examples_of_spec", len(found))

    def test_texts(self):
        """Of a str texts are str, in characters; of bytes they are bytes."""
        page = "[é](ü 'ä')ß"
        link = next(event for event in mds.events(page) if event.target)
        self.assertEqual((link.target.destination, link.target.title, link.stop), ("ü", "ä", 10))
        link = next(event for event in mds.events(page.encode()) if event.target)
        self.assertEqual((link.target.destination, link.target.title, link.stop), ("ü".encode(), "ä".encode(), 13))
        self.assertEqual([event.text for event in mds.events("a\0") if event.text is not None], ["a\0"])

    def test_ends_of_lists_and_headings(self):
        """Both events of a heading say its level, and both of a list whether it is ordered."""
        found = list(mds.events("## a\n\n3. b\n   - c\n"))
        self.assertEqual([event.level for event in found if event.element == Element.HEADING], [2, 2])
        self.assertEqual([event.is_ordered for event in found if event.element == Element.LIST], [True, False, False, True])
        self.assertEqual([event.number for event in found if event.element == Element.LIST], [3, None, None, None])

    def test_columns(self):
        """They have what `events` has, of each row: of bytes, of a str, and of one that is not ASCII and begins at a place."""
        rows = tables.pages("events")
        for row in rows:
            text = row.text.decode()
            for data, at, end in ((row.text, 0, None), (text, 0, None), (b"*" + row.text, 1, None), (f"é*{text}*🍔", 2, 2 + len(text))):
                expected = list(mds.events(data, at, end, extensions=row.words))
                found = mds.event_columns(data, at, end, extensions=row.words)
                self.assertEqual(list(found), expected, row.where)
                self.assertEqual([found[index] for index in range(len(found))], expected, row.where)
                self.assertEqual(found.kinds, bytes(event.kind for event in expected))
                self.assertEqual(found.elements, bytes(event.element or 0 for event in expected))
                self.assertEqual(list(zip(found.starts, found.stops)), [(event.start, event.stop) for event in expected])
        self.assertGreater(len(rows), 10)

    def test_places_of_columns(self):
        """Those of characters of one byte, two, three and four, counted by Python."""
        lines = [f"{'a' * (at % 5)}{'é' * (at % 3)}{'€' * (at % 7)}🍔" for at in range(200)]
        page = "\n\n".join(lines)
        stops = list(accumulate(len(line) + 2 for line in lines))
        for first in ("", "ü\n\n"):
            found = mds.event_columns(first + page, len(first))
            kept = [at for at, kind in enumerate(found.kinds) if kind == EventKind.TEXT]
            self.assertEqual([found.stops[at] for at in kept], [len(first) + stop - 2 for stop in stops])
            self.assertEqual([(first + page)[found.starts[at] : found.stops[at]] for at in kept], lines)

    def test_indexes_of_columns(self):
        found = mds.event_columns("# a")
        self.assertEqual((len(found), found[-1], found[-3]), (3, found[2], found[0]))
        for index in (3, -4):
            self.assertRaises(IndexError, found.__getitem__, index)
        self.assertRaises(TypeError, found.__getitem__, "a")
        empty = mds.event_columns("")
        self.assertEqual((len(empty), list(empty), empty.kinds, list(empty.starts)), (0, [], b"", []))

    def test_more_than_there_is_room_for(self):
        """More events, and longer texts, than the first buffers hold."""
        self.assertEqual(sum(event.kind == EventKind.SOFT_BREAK for event in mds.events("a\n" * 5000)), 4999)
        found = [event.target.destination for event in mds.events("[a]\n" * 20 + f"\n[a]: {'b' * 5000}\n") if event.target]
        self.assertEqual(found, ["b" * 5000] * 20)

    def test_refusals(self):
        self.assertEqual(list(mds.events("")), [])
        self.assertEqual(list(mds.events(b"")), [])
        for call in (mds.events, mds.event_columns):
            with self.assertRaises(mds.NotUtf8Error) as why:
                call(b"\xffa\xff", 1)
            self.assertEqual(why.exception.index, 2)
        self.assertRaises(mds.LoneSurrogateError, mds.events, "\ud800")
        self.assertRaisesRegex(ValueError, "no extension 'footnote'", mds.events, "a", extensions=["footnote"])
        for name in ("footnotes", "definition-lists"):
            self.assertRaisesRegex(ValueError, f"not built of the extension '{name}' yet", mds.events, "a", extensions=["tables", name])
        self.assertRaises(TypeError, mds.events, "a", extensions="tables")
        self.assertRaises(TypeError, mds.events, None)


if __name__ == "__main__":
    unittest.main()
