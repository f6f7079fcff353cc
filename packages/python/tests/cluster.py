"""The example examples/corpus.py, on a cluster of two worker processes: the rows of its pages, nothing lost where a worker is killed, and
what it says of what it can't do. A Python that has dask runs it, which packages/python/test looks for."""
import contextlib
import importlib.util
import io
import json
import os
import re
import signal
import subprocess
import sys
import tempfile
import time
import unittest
from concurrent.futures import ThreadPoolExecutor
from pathlib import Path

import tables
from distributed import Client, LocalCluster
from test_rows import hold

EXAMPLE = Path(__file__).resolve().parents[1] / "examples/corpus.py"
# Pages of which the links and headings were worked out by hand.
WORKED = [
    ("", [], []),
    ("# A `b` *c* &amp;\n", [], [(1, "A b c &")]),
    ("d\ne\n=\n\n> - ## ~~f~~ <i>g\n", [], [(1, "d e"), (2, "f g")]),
    ("###### [h](/i 'j') ![k](l)\n", ["/i"], [(6, "h k")]),
    ("[m] <n@o.p> <https://q>\n\n[m]: javascript:r\n", ["javascript:r", "mailto:n@o.p", "https://q"], []),
    ("a|b\n-|-\n[c](d)|[e](<f g>)\n\n    # no\n", ["d", "f g"], []),
    ("- [x] # é\n  ##\n", [], [(2, "")]),
]
DEADLINE = 60  # in seconds, for what should take a moment


def loaded():
    """The example, as a module that the workers find too."""
    spec = importlib.util.spec_from_file_location("corpus", EXAMPLE)
    sys.path.append(str(EXAMPLE.parent))
    module = sys.modules["corpus"] = importlib.util.module_from_spec(spec)
    spec.loader.exec_module(module)
    return module


def put(folder, pages):
    """Puts each page into a file, and returns their paths."""
    paths = [folder / f"{number:04}.md" for number in range(len(pages))]
    for path, page in zip(paths, pages):
        path.write_bytes(page)
    return paths


def rows_in(folder):
    """The rows of all files, in order. No other file stands there."""
    parts = sorted(folder.iterdir())
    assert all(re.fullmatch(r"part-\d{6}\.jsonl", part.name) for part in parts), parts
    return [json.loads(line) for part in parts for line in part.read_text().splitlines()]


def soon(find):
    """What is found, which is looked for until it is there."""
    end = time.monotonic() + DEADLINE
    while time.monotonic() < end:
        if found := find():
            return found
        time.sleep(0.02)
    raise AssertionError(f"{find.__name__} finds nothing")


def opened(pid):
    """The files that a process has open; none where it is gone."""
    try:
        return [os.path.realpath(file) for file in Path(f"/proc/{pid}/fd").iterdir()]
    except FileNotFoundError:
        return []


def put_pipe(path):
    path.unlink()
    os.mkfifo(path)
    return path


def kill_reader(cluster, pipe, out, page=None):
    """Kills the worker that reads a pipe, in the middle of a file. The page, or another pipe, stands in its place from then on. Returns the
    process that was killed."""
    def writer():
        try:
            return os.open(pipe, os.O_WRONLY | os.O_NONBLOCK)
        except OSError:
            return None  # nobody reads it yet

    def reader():
        pids = [worker.pid for worker in cluster.workers.values() if worker.pid]
        return next((pid for pid in pids if str(pipe) in opened(pid)), None)

    held = soon(writer)
    try:
        found = soon(reader)
        assert list(out.glob(".*")), "no file is begun"
        other = pipe.with_suffix(".other")
        if page is None:
            os.mkfifo(other)
        else:
            other.write_bytes(page)
        other.replace(pipe)
        os.kill(found, signal.SIGKILL)
    finally:
        os.close(held)
    return found


class Corpus(unittest.TestCase):
    @classmethod
    def setUpClass(cls):
        cls.corpus = loaded()
        cls.cluster = LocalCluster(n_workers=2, threads_per_worker=1, dashboard_address=None)
        cls.client = Client(cls.cluster)
        cls.addClassCleanup(cls.cluster.close)
        cls.addClassCleanup(cls.client.close)

    def setUp(self):
        self.client.wait_for_workers(2, timeout=DEADLINE)  # one that was killed comes again
        scratch = tempfile.TemporaryDirectory()
        self.addCleanup(scratch.cleanup)
        self.pages, self.out = [Path(scratch.name).resolve() / name for name in ("pages", "out")]
        self.pages.mkdir()
        self.out.mkdir()

    def run_on(self, paths, size):
        """What is written of the pages, so many in each file. It is what is written without a cluster."""
        self.assertEqual(self.corpus.run(self.client, paths, self.out, size), len(paths))
        found = rows_in(self.out)
        self.assertEqual(found, [self.corpus.row(path) for path in paths])
        self.assertEqual(len(list(self.out.iterdir())), -(-len(paths) // size))
        return found

    def test_html(self):
        """That of the rows of packages/pages.tsv."""
        rows = [row for row in tables.pages("html") if row.words == ["tables", "strikethrough", "tasks", "wikilinks"] and b"[[" not in row.text]
        found = self.run_on(put(self.pages, [row.text for row in rows]), 3)
        for row, made in zip(rows, found):
            self.assertEqual(made["html"], row.answer.decode(), row.where)
        hold(self, "cluster_html", len(rows))

    def test_links_and_headings(self):
        found = self.run_on(put(self.pages, [page.encode() for page, _, _ in WORKED]), 2)
        for made, (page, links, headings) in zip(found, WORKED, strict=True):
            self.assertEqual((made["links"], [(it["level"], it["text"]) for it in made["headings"]]), (links, headings), page)

    def test_pages_that_are_not_utf8(self):
        found = self.run_on(put(self.pages, [b"# \xff\n"]), 1)
        self.assertEqual([(made["html"], made["headings"]) for made in found], [("<h1>\ufffd</h1>\n", [{"level": 1, "text": "\ufffd"}])])

    def test_a_worker_is_killed(self):
        """Of 60 pages in files of 5 one is a pipe, and the worker that waits for it is killed: no page is lost, and none is there twice."""
        pages = [f"# {number}\n".encode() for number in range(60)]
        paths = put(self.pages, pages)
        pipe = put_pipe(paths[32])
        with ThreadPoolExecutor() as executor:
            killed = executor.submit(kill_reader, self.cluster, pipe, self.out, pages[32])
            found = self.run_on(paths, 5)
        self.assertEqual([made["html"] for made in found], [f"<h1>{number}</h1>\n" for number in range(60)])
        self.assertEqual([made["headings"] for made in found], [[{"level": 1, "text": str(number)}] for number in range(60)])
        self.assertNotIn(killed.result(), [worker.pid for worker in self.cluster.workers.values()])

    def test_a_page_that_ends_all_workers(self):
        """The file of that page is not written, once it has ended more of them than dask allows; the others are."""
        paths = put(self.pages, [f"# {number}\n".encode() for number in range(60)])
        pipe = put_pipe(paths[32])
        allowed = self.cluster.scheduler.allowed_failures
        self.assertGreater(allowed, 0)
        with ThreadPoolExecutor() as executor, contextlib.redirect_stderr(io.StringIO()) as said:
            kills = 2 * (allowed + 1)  # beside other files, and alone
            killed = executor.submit(lambda: [kill_reader(self.cluster, pipe, self.out) for _ in range(kills)])
            self.assertEqual(self.corpus.run(self.client, paths, self.out, 5), 55)
        self.assertEqual(len(set(killed.result())), kills)
        self.assertIn(f"corpus.py: {self.out}/part-000006.jsonl: KilledWorker(", said.getvalue())
        expected = [f"<h1>{number}</h1>\n" for number in range(60) if not 30 <= number < 35]
        self.assertEqual([made["html"] for made in rows_in(self.out)], expected)

    def program(self, *words):
        """What the example says as a program, and its status."""
        done = subprocess.run([sys.executable, EXAMPLE, *map(str, words)], capture_output=True, text=True, timeout=DEADLINE)
        return done.stdout, done.returncode, done.stderr

    def test_program(self):
        """On this cluster, and on one of its own."""
        put(self.pages, [b"a", b"<b@c.d>"])
        (self.pages / "0002.md").mkdir()
        put(self.pages / "0002.md", [b"# e"])
        for words, count in ((["--scheduler", self.cluster.scheduler_address], 2), (["--workers", "1"], 1)):
            out = self.out / str(count)
            self.assertEqual(self.program(*words, self.pages, out)[:2], (f"4 of 4 pages, workers: {count}\n", 0))
            pages = [self.pages / name for name in ("0000.md", "0001.md", "0002.md", "0002.md/0000.md")]
            links = '<p><a href="mailto:b@c.d" rel="nofollow noopener">b@c.d</a></p>\n'
            self.assertEqual(rows_in(out), [
                {"path": str(pages[0]), "html": "<p>a</p>\n", "links": [], "headings": []},
                {"path": str(pages[1]), "html": links, "links": ["mailto:b@c.d"], "headings": []},
                {"path": str(pages[2]), "error": "Is a directory"},
                {"path": str(pages[3]), "html": "<h1>e</h1>\n", "links": [], "headings": [{"level": 1, "text": "e"}]},
            ])

    def test_program_refuses(self):
        self.assertRegex(self.program(self.pages, self.out / "a")[2], f"error: there is no page below {self.pages}\n$")
        put(self.pages, [b"a"])
        said, status, why = self.program(self.pages, self.out)
        self.assertEqual((said, status), ("", 2))
        self.assertRegex(why, f"error: {self.out} is there already\n$")
        self.assertEqual(list(self.out.iterdir()), [])

    def test_files_that_are_not_written(self):
        """Where one can't be, that is said, and the others are."""
        paths = put(self.pages, [b"a", b"b", b"c"])
        folder = self.out / "part-000001.jsonl"
        folder.mkdir()
        with contextlib.redirect_stderr(io.StringIO()) as said:
            self.assertEqual(self.corpus.run(self.client, paths, self.out, 1), 2)
        self.assertRegex(said.getvalue(), rf"\Acorpus.py: {folder}: IsADirectoryError.*\n\Z")
        folder.rmdir()
        self.assertEqual([made["html"] for made in rows_in(self.out)], ["<p>a</p>\n", "<p>c</p>\n"])


if __name__ == "__main__":
    unittest.main()
