"""Calls on a long page let other threads run, on a short one they don't; and what another thread changes meanwhile is not read."""
import sys
import threading
import unittest
from concurrent.futures import ThreadPoolExecutor

import fillaqut as mds
import tables
from fillaqut._library import UNLOCKED
from test_html import asked_of

LONG = "# a *b* [c](d)\n\n- é\n\n" * (UNLOCKED // 16)
TRIES = 200  # of a call after which the other thread may have run; the system needs not let it at once
FEW = 20  # of one after which it may not have


class Other:
    """Another thread, which does something once, and only where this one gives up the lock of the interpreter by itself."""

    def __init__(self, action=lambda: None):
        self.action, self.gate, self.has_run = action, threading.Lock(), False
        self.thread = threading.Thread(target=self.run)

    def run(self):
        with self.gate:
            self.action()
            self.has_run = True

    def __enter__(self):
        self.interval = sys.getswitchinterval()
        sys.setswitchinterval(1000)  # seconds after which the lock is asked for
        self.gate.acquire()
        self.thread.start()
        return self

    def __exit__(self, *_why):
        sys.setswitchinterval(self.interval)
        self.thread.join()

    def runs_during(self, call, tries=TRIES):
        """Whether it runs in one of so many calls."""
        self.gate.release()
        for _ in range(tries):
            call()
            if self.has_run:
                break
        return self.has_run


def calls_of(page):
    yield from [lambda call=call: call(page) for call in (mds.html, mds.html_unsafe, mds.events, mds.event_columns)]
    yield from [lambda call=call: call(page, extensions=["tables"]) for call in (mds.scan_blocks, mds.scan_lists, mds.html)]
    yield lambda: mds.html(page, schemes=["ftp"], rel=False)
    yield lambda: mds.scan_inlines(page, labels=["a"])


class Threads(unittest.TestCase):
    def test_long_pages(self):
        for page in (LONG, LONG.encode(), bytearray(LONG.encode()), memoryview(LONG.encode()), "a\n" * UNLOCKED):
            for call in calls_of(page):
                with Other() as other:
                    self.assertTrue(other.runs_during(call))

    def test_short_pages(self):
        for page in ("é" + "a" * (UNLOCKED - 3), b"a" * (UNLOCKED - 1), bytearray(b"a" * (UNLOCKED - 1))):
            for call in calls_of(page):
                with Other() as other:
                    self.assertFalse(other.runs_during(call, FEW))

    def test_scanners_of_long_pages(self):
        """They read some bytes of the page, and are called often."""
        for call in (mds.scan_line, mds.scan_atx_heading, mds.interrupts_paragraph, mds.scan_html_block_start):
            with Other() as other:
                self.assertFalse(other.runs_during(lambda: call(LONG), FEW))

    def test_buffers_that_change(self):
        """What is answered is of the page as it was."""
        for call in (mds.html, mds.html_unsafe, lambda page: list(mds.events(page)), lambda page: list(mds.scan_lists(page))):
            expected = call(LONG.encode())
            page = bytearray(LONG.encode())

            def changed():
                page[:] = b"\xff" * len(page)

            found = []
            with Other(changed) as other:
                self.assertTrue(other.runs_during(lambda: found.append(call(page))))
            self.assertEqual(found[-1], expected)
            self.assertEqual(page[:1], b"\xff")

    def test_labels_that_change(self):
        text, label = b"[a] " * UNLOCKED, bytearray(b"a")

        def changed():
            label[:] = b"\xff"

        found = []
        with Other(changed) as other:
            self.assertTrue(other.runs_during(lambda: found.append(mds.scan_inlines(text, labels=[label]))))
        self.assertEqual(next(found[-1]).kind, mds.InlineKind.LINK)

    def test_the_same_in_many_threads(self):
        """The rows of packages/pages.tsv, each many times over, so that they are long."""
        rows = tables.pages("html")
        self.assertGreater(len(rows), 30)
        given = [(row.text.decode() * (UNLOCKED // len(row.text) + 1), asked_of(row)) for row in rows if row.text]
        expected = [mds.html(page, **asked) for page, asked in given]
        with ThreadPoolExecutor(4) as executor:
            self.assertEqual(list(executor.map(lambda page: mds.html(page[0], **page[1]), given)), expected)


if __name__ == "__main__":
    unittest.main()
