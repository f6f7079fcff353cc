"""The blocks of pages and their content, on the rows of packages/pages.tsv. What they say is made of the leaf blocks and their
containers."""
import unittest

import fillaqut as mds
import tables
from fillaqut import BlockKind, BlockQuote, FootnoteDefinition, Item, TermDefinition
from test_rows import hold

NUMBERED = {BlockKind.HEADING, BlockKind.SETEXT, BlockKind.HTML}


def word_of(container, at):
    if isinstance(container, (BlockQuote, FootnoteDefinition)):
        return f"{'quote' if isinstance(container, BlockQuote) else 'footnote'}@{container.place - at}"
    if isinstance(container, TermDefinition):
        return f"term{container.width}@{container.place - at}"
    return f"item{chr(container.delimiter)}{container.start},{container.width}@{container.place - at}"


def leaf_word(block):
    more = block.number if block.kind in NUMBERED else block.columns or ""
    if block.fence:
        more = f"{chr(block.fence[0])}{block.fence[1]}"
    return f"{block.kind.name.lower()}{more}:{block.line + 1}-{block.line + block.lines}"


def described(extensions, page, at=0, end=None):
    """What begins and ends, and what stands there; and the contents."""
    said, contents, depth = [], [], 0
    for block in mds.scan_blocks(page, at, end, extensions=extensions):
        said += ["end"] * (depth - block.kept) + [word_of(container, at) for container in block.containers[block.kept :]] + [leaf_word(block)]
        contents.append(block.content())
        depth = len(block.containers)
    return " ".join(said + ["end"] * depth), contents


class Blocks(unittest.TestCase):
    def ways(self, page, extensions):
        """What is described of a page by itself, inside of other bytes, in a buffer and as a str among other characters."""
        data = page.encode()
        for given in ((data,), (b"# x\xff" + data + b"> y", 4, 4 + len(data)), (bytearray(data),)):
            said, contents = described(extensions, *given)
            yield said, b"".join(content + b"|" for content in contents)
        for given in ((page,), ("é🍔" + page + "- é", 2, 2 + len(page))):
            said, contents = described(extensions, *given)
            yield said, "".join(content + "|" for content in contents).encode()

    def test_rows(self):
        for call in ("scan_blocks", "block_content"):
            rows = tables.pages(call)
            for row in rows:
                for said, contents in self.ways(row.text.decode(), row.words):
                    self.assertEqual(said.encode() if call == "scan_blocks" else contents, row.answer, row.where)
            hold(self, call, len(rows))

    def test_fields(self):
        first, second, third = mds.scan_blocks("> é\n\n1) ```` é\n")
        self.assertEqual((first.start, first.stop, first.place, first.indent, first.kept), (0, 4, 2, 0, 0))
        self.assertEqual((second.kind, second.start, second.stop, second.containers, second.kept), (BlockKind.BLANK, 4, 5, (), 0))
        self.assertEqual((third.start, third.stop, third.place, third.line, third.lines), (5, 15, 8, 2, 1))
        self.assertEqual((first.containers, third.containers), ((BlockQuote(0),), (Item(5, ord(")"), 1, 3),)))
        self.assertEqual((third.fence, third.level, third.html_kind, third.columns), ((ord("`"), 4), None, None, None))
        self.assertEqual([block.level for block in mds.scan_blocks(b"### a\nb\n---")], [3, 2])
        self.assertEqual([block.html_kind for block in mds.scan_blocks(b"<!-- a -->")], [mds.HtmlBlockKind.COMMENT])
        self.assertEqual([block.columns for block in mds.scan_blocks(b"|a|b|\n|-|-|", extensions=["tables"])], [2])

    def test_extensions(self):
        """Those that it has no use for are taken."""
        kinds = lambda *names: [block.kind for block in mds.scan_blocks("|a|\n|-|", extensions=names)]
        self.assertEqual(kinds("strikethrough", "tables"), [BlockKind.TABLE])
        self.assertEqual(kinds("strikethrough", "tasks", "wikilinks", "footnotes", "definition-lists"), [BlockKind.PARAGRAPH])
        for call in (mds.scan_blocks, mds.scan_lists):
            self.assertRaisesRegex(ValueError, "no extension 'Tables', but tables", call, "a", extensions=["tables", "Tables"])
            self.assertRaises(TypeError, call, "a", extensions="tables")
            self.assertRaises(TypeError, call, "a", extensions=None)

    def test_no_page(self):
        self.assertEqual(list(mds.scan_blocks(b"")), [])
        self.assertRaises(TypeError, mds.scan_blocks, None)
        self.assertRaises(IndexError, mds.scan_blocks, b"a", 2)
        self.assertRaises(mds.LoneSurrogateError, mds.scan_blocks, "\ud800")

    def test_content_of_any_bytes(self):
        self.assertEqual([block.content() for block in mds.scan_blocks(b"> \xff\n>\t\t\xfe\n\n>\t\tc")], [b"\xff\n\xfe", b"", b"  c"])

    def test_content_longer_than_its_lines(self):
        """Of each tab one column is indent. (4.5)"""
        (block,) = mds.scan_blocks(" ```\n" + "\ta\n" * 2000)
        self.assertEqual(block.content(), "   a\n" * 2000)

    def test_page_that_has_changed(self):
        page = bytearray(b"a\nb\n")
        (block,) = mds.scan_blocks(page)
        page[0] = ord("c")
        self.assertEqual(block.content(), b"c\nb")
        del page[2:]
        self.assertRaises(mds.RefusalError, block.content)

    def test_deep(self):
        """Each container is open in one leaf block, and copied once."""
        (block,) = mds.scan_blocks(b">" * 100000 + b"a")
        self.assertEqual((len(block.containers), block.place, block.content()), (100000, 100000, b"a"))
        self.assertEqual(sum(1 for _ in mds.scan_blocks(b"> a\n\n" * 10000)), 20000)


if __name__ == "__main__":
    unittest.main()
