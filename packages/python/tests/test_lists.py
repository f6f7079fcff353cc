"""The lists of pages, on the rows of packages/pages.tsv."""
import unittest

import fillaqut as mds
import tables
from test_rows import hold


def described(block):
    return f"{chr(block.delimiter)}{block.start}@{block.depth}:{block.line + 1}-{block.line + block.lines} {'loose' if block.is_loose else 'tight'}"


class Lists(unittest.TestCase):
    def test_rows(self):
        """Of a page by itself and inside of other bytes, in a buffer and as a str."""
        rows = tables.pages("scan_lists")
        for row in rows:
            data = row.text
            for given in ((data.decode(),), (data,), (bytearray(data),), (b"- a\n" + data + b"- b\n", 4, 4 + len(data))):
                self.assertEqual(" ".join(map(described, mds.scan_lists(*given, extensions=row.words))), row.answer.decode(), row.where)
        hold(self, "scan_lists", len(rows))

    def test_many(self):
        """More than a first buffer holds."""
        found = list(mds.scan_lists("- a\n+ a\n" * 1000))
        self.assertEqual([block.line for block in found], list(range(2000)))
        self.assertEqual({block.lines for block in found}, {1})

    def test_no_page(self):
        self.assertEqual(list(mds.scan_lists(b"")), [])
        self.assertRaises(TypeError, mds.scan_lists, None)
        self.assertRaises(IndexError, mds.scan_lists, b"a", 2)


if __name__ == "__main__":
    unittest.main()
