"""`html_many` has the HTML of each page, on the rows of packages/pages.tsv, in order, and names the page that is refused."""
import pickle
import threading
import unittest

import fillaqut as mds
import tables
from fillaqut._library import UNLOCKED
from test_html import asked_of

LONG = "a" * UNLOCKED


class Many(unittest.TestCase):
    def test_rows(self):
        rows = tables.pages("html")
        self.assertGreater(len(rows), 30)
        settings = [asked_of(row) for row in rows]
        for setting in [setting for at, setting in enumerate(settings) if setting not in settings[:at]]:
            chosen = [row for row, asked in zip(rows, settings) if asked == setting]
            answers = [row.answer for row in chosen]
            for threads in (None, 1, 2, 5):
                self.assertEqual(list(mds.html_many([row.text for row in chosen], threads=threads, **setting)), answers)
                self.assertEqual(list(mds.html_many((bytearray(row.text) for row in chosen), threads=threads, **setting)), answers)
                pages = [row.text.decode() for row in chosen]
                self.assertEqual(list(mds.html_many(pages, threads=threads, **setting)), [answer.decode() for answer in answers])

    def test_order(self):
        """Short pages and long ones, and more of them than threads."""
        pages = [LONG * (at % 7) + str(at) for at in range(60)]
        for threads in (1, 2, 3, 8):
            self.assertEqual(list(mds.html_many(pages, threads=threads)), [f"<p>{page}</p>\n" for page in pages])
        self.assertEqual(list(mds.html_many([])), [])

    def test_pages_are_taken_as_they_are_needed(self):
        taken = []
        found = mds.html_many((taken.append(at) or LONG for at in range(100)), threads=2)
        self.assertEqual(taken, [])
        for at in range(3):
            self.assertEqual(len(next(found)), len(LONG) + len("<p></p>\n"))
            self.assertEqual(len(taken), at + 4)
        found.close()
        self.assertEqual(len(taken), 6)

    def test_no_thread_is_left(self):
        before = threading.active_count()
        found = mds.html_many([LONG] * 10, threads=3)
        next(found)
        self.assertGreater(threading.active_count(), before)
        found.close()
        self.assertEqual(threading.active_count(), before)

    def test_buffers_that_are_used_again(self):
        def pages():
            buffer = bytearray(UNLOCKED)
            for byte in b"abcdef":
                buffer[:] = bytes([byte]) * UNLOCKED
                yield buffer

        found = list(mds.html_many(pages(), threads=2))
        self.assertEqual(found, [b"<p>" + bytes([byte]) * UNLOCKED + b"</p>\n" for byte in b"abcdef"])

    def test_pages_that_are_refused(self):
        for bad, why in ((b"ab\xff", mds.NotUtf8Error), (LONG.encode() + b"\xff", mds.NotUtf8Error), ("a\ud800", mds.LoneSurrogateError)):
            found = mds.html_many(["a", LONG, "b", bad, "c"], threads=2, strict=True)
            self.assertEqual([next(found) for _ in range(3)], ["<p>a</p>\n", f"<p>{LONG}</p>\n", "<p>b</p>\n"])
            with self.assertRaisesRegex(why, r"\Apage 3: the (text|str) .* index \d") as raised:
                next(found)
            self.assertEqual((raised.exception.page, raised.exception.index), (3, len(bad) - 1))
            copied = pickle.loads(pickle.dumps(raised.exception))
            self.assertEqual((copied.page, copied.index, str(copied)), (3, len(bad) - 1, str(raised.exception)))
            self.assertEqual(list(found), [])

    def test_what_is_no_page(self):
        for bad in (1, None, memoryview(b"abcd")[::2]):
            with self.assertRaises(TypeError) as raised:
                list(mds.html_many(["a", bad]))
            self.assertEqual(raised.exception.__notes__, ["of page 1"])

    def test_arguments(self):
        for pages in ("a", b"a", None, 1):
            self.assertRaisesRegex(TypeError, "pages is .*, and not several pages", mds.html_many, pages)
        for threads in (0, -1):
            self.assertRaisesRegex(ValueError, f"threads is {threads}", mds.html_many, [], threads=threads)
        for threads in (True, 1.5, "2"):
            self.assertRaisesRegex(TypeError, "threads is ", mds.html_many, [], threads=threads)
        self.assertRaises(TypeError, mds.html_many, [], 2)
        self.assertRaises(TypeError, mds.html_many, [], at=1)
        self.assertRaisesRegex(ValueError, "no extension 'x'", mds.html_many, [], extensions=["x"])
        self.assertRaisesRegex(ValueError, "raw_html is 'kept'", mds.html_many, [], raw_html="kept")


if __name__ == "__main__":
    unittest.main()
