"""The extension of SQLite that test_sqlite.py tests, linked with refuse.c, with memory refused."""
import ctypes
import ctypes.util
import unittest
from contextlib import closing

from test_sqlite import EXTENSION, connected


class Refusals(unittest.TestCase):
    """Each request for memory is refused in turn: the answer is an error, and no memory is kept."""

    PAGE = "[a *b*](c 'd') ![e](f) <g@h.i>\n\n- `j`\0\n\n[k]: l\n"
    QUERIES = ("SELECT markdown_html(?)", "SELECT markdown_text(?)", "SELECT destination, title, text, start FROM markdown_links(?, 'gfm')")

    def setUp(self):
        self.control = ctypes.CDLL(f"{EXTENSION}.so")
        self.control.refuse_memory.argtypes = [ctypes.c_long]
        self.control.held_memory.restype = ctypes.c_long
        self.sqlite = ctypes.CDLL(ctypes.util.find_library("sqlite3"))
        self.sqlite.sqlite3_memory_used.restype = ctypes.c_int64

    def tried(self, query):
        """What is answered of it, in a database of its own."""
        with closing(connected()) as database:
            try:
                return database.execute(query, [self.PAGE]).fetchall()
            except MemoryError:
                return None

    def test_refusals(self):
        count = 0
        for query in self.QUERIES:
            expected = self.tried(query)
            before, at = self.sqlite.sqlite3_memory_used(), 0
            while True:
                self.control.refuse_memory(at)
                found = self.tried(query)
                was_refused = self.control.refuse_memory(-1)
                self.assertEqual((self.control.held_memory(), self.sqlite.sqlite3_memory_used()), (0, before), query)
                if not was_refused:
                    break
                self.assertIsNone(found, query)
                at += 1
            self.assertEqual(found, expected)
            count += at
        self.assertGreater(count, 15)


if __name__ == "__main__":
    unittest.main()
