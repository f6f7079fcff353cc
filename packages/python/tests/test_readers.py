"""Pages that come piece by piece have the blocks of the whole page, on the pages of packages/pages.tsv."""
import io
import unittest

import fillaqut as mds
import tables
from fillaqut import BlockKind, BlockReader, FootnoteDefinition, TermDefinition, read_blocks


def fields_of(block):
    """What a block is, where it stands, and its content."""
    places = block.line, block.lines, block.start, block.stop, block.place, block.indent
    return block.kind, places, block.containers, block.kept, block.number, block.fence, block.columns, block.content()


def together(blocks):
    """The same, where definitions are one block with what stands after them: the first and the last byte of each, and its lines."""
    found, before = [], None
    for block in blocks:
        part = block.start, block.stop, block.line, block.lines, block.containers, block.kept
        if before == BlockKind.DEFINITION and block.kind in (BlockKind.DEFINITION, BlockKind.PARAGRAPH, BlockKind.SETEXT):
            part = found[-1][0], block.stop, found[-1][2], found[-1][3] + block.lines, block.containers, found.pop()[5]
        found.append(part)
        before = block.kind
    return found


class Readers(unittest.TestCase):
    def test_pieces(self):
        """In pieces of each size."""
        rows = tables.pages("scan_blocks")
        self.assertGreater(len(rows), 30)
        for page, extensions in [(row.text, row.words) for row in rows]:
            whole = list(mds.scan_blocks(page, extensions=extensions))
            for size in range(1, len(page) + 1):
                found = list(read_blocks((page[at : at + size] for at in range(0, len(page), size)), extensions=extensions))
                self.assertEqual(together(found), together(whole), page)
                if b"]:" not in page:
                    self.assertEqual([fields_of(block) for block in found], [fields_of(block) for block in whole], page)

    def test_when_blocks_are_returned(self):
        reader = BlockReader()
        self.assertEqual(reader.feed(b"# A\r"), [])  # LF may follow
        self.assertEqual([block.content() for block in reader.feed(b"b\n")], [b"A"])
        self.assertEqual([block.content() for block in reader.feed(bytearray(b"---\nc"))], [])  # no whole line follows yet
        self.assertEqual([block.kind for block in reader.feed(memoryview(b"\n"))], [BlockKind.SETEXT])
        self.assertEqual([block.content() for block in reader.close()], [b"c"])
        self.assertEqual(list(read_blocks([])), [])

    def test_definitions_stand_before_a_paragraph(self):
        [block] = read_blocks([b"[a]: b\n", b"c\n"])
        self.assertEqual((block.kind, block.lines, block.content()), (BlockKind.PARAGRAPH, 2, b"[a]: b\nc"))
        self.assertEqual(mds.scan_reference_definition(block.content()).end, 7)

    def test_footnotes_are_asked_for(self):
        page = [b"[^a]: b\n", b"\n", b"    c\n"]
        blocks = list(read_blocks(page, extensions=["footnotes"]))
        self.assertEqual([block.containers for block in blocks], [(FootnoteDefinition(0),)] * 3)
        self.assertEqual([block.content() for block in blocks], [b"b", b"", b"c"])
        self.assertEqual([block.containers for block in read_blocks(page)], [()] * 3)

    def test_definition_lists_are_asked_for(self):
        page = [b"apple\n\n: red\n: round\n", b"  fruit"]
        blocks = list(read_blocks(page, extensions=["definition-lists"]))
        self.assertEqual([block.containers for block in blocks], [(), (), (TermDefinition(7, 2),), (TermDefinition(13, 2),)])
        self.assertEqual([(block.content(), block.kept) for block in blocks], [(b"apple", 0), (b"", 0), (b"red", 0), (b"round\nfruit", 0)])
        self.assertEqual([block.containers for block in read_blocks(page)], [()] * 3)
        self.assertEqual([block.containers for block in read_blocks(page, extensions=["footnotes"])], [()] * 3)

    def test_deep_and_long(self):
        reader = BlockReader()
        found = reader.feed(b">" * 1000)
        for _ in range(10_000):
            found += reader.feed(b"a\n")
        [block] = reader.close()
        self.assertEqual((found, len(block.containers), block.lines, len(block.content())), ([], 1000, 10_000, 19_999))

    def test_pieces_of_str(self):
        """The blocks are those of the whole str, with places of its characters, in pieces of each size."""
        rows = tables.pages("scan_blocks")
        self.assertGreater(len(rows), 30)
        for page, extensions in [(f"é\n\n{row.text.decode()}\n\n- 🍔\n  ü", row.words) for row in rows]:
            whole = list(mds.scan_blocks(page, extensions=extensions))
            for size in (1, 2, 3, 7, len(page)):
                found = list(read_blocks((page[at : at + size] for at in range(0, len(page), size)), extensions=extensions))
                self.assertEqual(together(found), together(whole), page)
                if "]:" not in page:
                    self.assertEqual([fields_of(block) for block in found], [fields_of(block) for block in whole], page)

    def test_files(self):
        """The lines of a file of text, and of one of bytes."""
        expected = [block.content() for block in mds.scan_blocks("# é\n> b\n")]
        self.assertEqual([block.content() for block in read_blocks(io.StringIO("# é\n> b\n"))], expected)
        self.assertEqual([block.content().decode() for block in read_blocks(io.BytesIO("# é\n> b\n".encode()))], expected)

    def test_byte_order_marks(self):
        """They are no part of the first block, as of a whole page."""
        for page in ("\ufeff# a", "\ufeff# a".encode()):
            [whole] = mds.scan_blocks(page)
            [found] = read_blocks(page[at : at + 1] for at in range(len(page)))
            self.assertEqual((found.kind, found.start, found.stop), (whole.kind, whole.start, whole.stop))

    def test_after_the_end(self):
        reader = BlockReader()
        reader.feed("a")
        self.assertEqual([block.content() for block in reader.close()], ["a"])
        for call in (lambda: reader.feed("b"), reader.close):
            self.assertRaisesRegex(ValueError, "the page has ended", call)

    def test_lone_surrogates(self):
        reader = BlockReader()
        reader.feed("é\n")
        with self.assertRaises(mds.LoneSurrogateError) as why:
            reader.feed("a\ud800")
        self.assertEqual(why.exception.index, 3)
        self.assertEqual([block.content() for block in reader.feed("b\n") + reader.close()], ["é\nb"])  # as if it had not come

    def test_wrong_types(self):
        for given in (1, None, [b"a"]):
            self.assertRaisesRegex(TypeError, "data is ", BlockReader().feed, given)
        for first, second in (("a", b"b"), (b"a", "b")):
            reader = BlockReader()
            reader.feed(first)
            self.assertRaisesRegex(TypeError, f"data is of type {type(second).__name__}, and the pieces before it", reader.feed, second)
        for pieces in ("a", b"a", bytearray(b"a"), None, 1):
            self.assertRaisesRegex(TypeError, "pieces is .*, and not several pieces", read_blocks, pieces)
        self.assertRaises(TypeError, BlockReader, extensions="tables")
        self.assertRaisesRegex(ValueError, "no extension 'definition_lists', but tables", BlockReader, extensions=["definition_lists"])
