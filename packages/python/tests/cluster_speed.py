#!/usr/bin/env python3
"""Prints how many pages a second examples/corpus.py reads and writes, without a cluster, and on clusters of so many worker processes of this
machine. The pages are bench/corpora/real.md.xz, cut at blank lines into some 9 KB each, as often as --copies says. Of each the best of RUNS,
from the first task to the last row, without the start of the workers.

Debian's Python has dask: /usr/bin/python3 packages/python/tests/cluster_speed.py
"""
import argparse
import lzma
import os
import sys
import tempfile
import time
from pathlib import Path

TOP = Path(__file__).resolve().parents[3]
sys.dont_write_bytecode = True
os.environ.setdefault("PYTHONPATH", str(TOP / "packages/python"))  # for the workers too
os.environ.setdefault("FILLAQUT_LIBRARY", str(TOP / "out/libfillaqut.so.0"))
sys.path[:0] = [os.environ["PYTHONPATH"], str(TOP / "packages/python/examples")]
from distributed import Client, LocalCluster

import corpus

PAGE = 9000  # bytes, at least


def cut(text):
    """The text in pages, each of which ends at a blank line."""
    pages, start = [], 0
    while start < len(text):
        found = text.find(b"\n\n", start + PAGE)
        stop = len(text) if found < 0 else found + 2
        pages.append(text[start:stop])
        start = stop
    return pages


def put(folder, copies):
    """Writes the pages, and returns their paths and their bytes."""
    pages = cut(lzma.open(TOP / "bench/corpora/real.md.xz").read()) * copies
    paths = [folder / f"{number:06}.md" for number in range(len(pages))]
    for path, page in zip(paths, pages):
        path.write_bytes(page)
    return paths, sum(map(len, pages))


def seconds(call, folder, runs):
    """The time of the best run, each into a folder of its own."""
    found = []
    for _ in range(runs):
        with tempfile.TemporaryDirectory(dir=folder) as out:
            start = time.perf_counter()
            call(Path(out))
            found.append(time.perf_counter() - start)
    return min(found)


def alone(paths):
    """What does the same without a cluster."""
    return lambda out: [corpus.write(out / f"{at:06}.jsonl", paths[at : at + 100]) for at in range(0, len(paths), 100)]


def on_cluster(client, paths, out):
    if corpus.run(client, paths, out) != len(paths):
        raise SystemExit("cluster_speed.py: pages are lost")


def measured(folder, asked):
    """Prints a line for each way, over the pages in a new folder below this one."""
    (folder / "pages").mkdir()
    paths, size = put(folder / "pages", asked.copies)
    print(f"{len(paths):,} pages, {size / 1e6:.1f} MB; pages a second, and MB a second")

    def say(what, call):
        took = seconds(call, folder, asked.runs)
        print(f"{len(paths) / took:10.0f} {size / took / 1e6:8.1f}  {what}", flush=True)

    say("no cluster", alone(paths))
    for count in asked.workers:
        with LocalCluster(n_workers=count, threads_per_worker=1, dashboard_address=None) as cluster, Client(cluster) as client:
            client.wait_for_workers(count)
            say(f"workers: {count}", lambda out: on_cluster(client, paths, out))


def main():
    parser = argparse.ArgumentParser(description=__doc__, formatter_class=argparse.RawDescriptionHelpFormatter)
    parser.add_argument("--workers", type=int, nargs="+", default=[1, 2, 4])
    parser.add_argument("--copies", type=int, default=20)
    parser.add_argument("--runs", type=int, default=3)
    asked = parser.parse_args()
    with tempfile.TemporaryDirectory() as folder:
        measured(Path(folder).resolve(), asked)


if __name__ == "__main__":
    main()
