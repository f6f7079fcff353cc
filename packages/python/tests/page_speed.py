#!/usr/bin/env python3
"""Prints what one page costs, in milliseconds: its HTML, going through its events, and through their columns; and what COPIES of it cost
with `html_many` in 1 to THREADS threads. Of each the best of RUNS by the clock, with the time of processors of that run. Then how long
another thread waits at most while the HTML is made, in the best of RUNS, as one of an event loop would stand still.

The page is read as `str`, or with --as-bytes as `bytes`.
"""
import argparse
import os
import sys
import threading
import time
from pathlib import Path

TOP = Path(__file__).resolve().parents[3]
sys.dont_write_bytecode = True
sys.path.insert(0, os.environ.get("PYTHONPATH") or str(TOP / "packages/python"))
os.environ.setdefault("FILLAQUT_LIBRARY", str(TOP / "out/libfillaqut.so.0"))
import fillaqut as mds


def walk_events(page):
    for event in mds.events(page):
        pass


def walk_columns(page):
    columns = mds.event_columns(page)
    for kind, start, stop in zip(columns.kinds, columns.starts, columns.stops):
        pass


CALLS = {"html": mds.html, "events, gone through": walk_events, "event_columns": mds.event_columns, "event_columns, gone through": walk_columns}


def cost(call, runs):
    """The time by the clock and that of processors, in milliseconds."""
    found = []
    for _ in range(runs):
        start, worked = time.perf_counter(), time.process_time()
        call()
        found.append((1e3 * (time.perf_counter() - start), 1e3 * (time.process_time() - worked)))
    return min(found)


def longest_wait(call):
    """How long another thread, which asks for the lock of the interpreter each millisecond, waits for it at most, in milliseconds."""
    waits, has_ended = [], threading.Event()

    def ask():
        while not has_ended.is_set():
            start = time.perf_counter()
            time.sleep(0.001)
            waits.append(1e3 * (time.perf_counter() - start))

    thread = threading.Thread(target=ask)
    thread.start()
    time.sleep(0.05)  # until it asks
    call()
    has_ended.set()
    thread.join()
    return max(waits)


def main():
    parser = argparse.ArgumentParser(description=__doc__, formatter_class=argparse.RawDescriptionHelpFormatter)
    parser.add_argument("file", type=Path, metavar="FILE.md")
    parser.add_argument("--runs", type=int, default=5)
    parser.add_argument("--copies", type=int, default=8)
    parser.add_argument("--threads", type=int, default=4)
    parser.add_argument("--as-bytes", action="store_true")
    asked = parser.parse_args()
    page = asked.file.read_bytes()
    page = page if asked.as_bytes else page.decode()
    rows = {name: lambda call=call: call(page) for name, call in CALLS.items()}
    for threads in range(1, asked.threads + 1):
        rows[f"html_many of {asked.copies}, threads={threads}"] = lambda threads=threads: list(mds.html_many([page] * asked.copies, threads=threads))
    print(f"{len(page):,} {'bytes' if asked.as_bytes else 'characters'}; by the clock, and of processors")
    for name, call in rows.items():
        print("{:10.1f} {:10.1f}  {}".format(*cost(call, asked.runs), name), flush=True)
    print(f"{min(longest_wait(lambda: mds.html(page)) for _ in range(asked.runs)):10.1f}  that another thread waits at most during html")


if __name__ == "__main__":
    main()
