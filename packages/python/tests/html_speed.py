#!/usr/bin/env python3
"""Prints how many megabytes of Markdown a second become HTML, by this package and by those of others that are installed: of each the
best of RUNS runs over the file, or over its first BYTES bytes, since commonmark takes a time that grows with the square of some pages.

    packages/python/tests/html_speed.py [--runs RUNS] [--bytes BYTES] [--without NAME] FILE.md"""
import argparse
import os
import sys
import timeit
from importlib import import_module
from pathlib import Path

TOP = Path(__file__).resolve().parents[3]
sys.dont_write_bytecode = True
sys.path.insert(0, os.environ.get("PYTHONPATH") or str(TOP / "packages/python"))
os.environ.setdefault("FILLAQUT_LIBRARY", str(TOP / "out/libfillaqut.so.0"))


def scanners(call="html", **asked):
    """This package's call."""
    made = getattr(import_module("fillaqut"), call)
    return lambda page: made(page, **asked)


# Of each row its name, and what makes the call; ImportError where the package is not installed.
MAKERS = {
    "fillaqut": scanners,
    "fillaqut, html_unsafe": lambda: scanners("html_unsafe"),
    "fillaqut, with tables, strikethrough and tasks": lambda: scanners(extensions=["tables", "strikethrough", "tasks"]),
    "markdown_it": lambda: import_module("markdown_it").MarkdownIt("commonmark").render,
    "mistune": lambda: import_module("mistune").html,
    "commonmark": lambda: import_module("commonmark").commonmark,
}


def rate(call, page, runs):
    """Megabytes a second, in the best run."""
    return len(page.encode()) / min(timeit.repeat(lambda: call(page), number=1, repeat=runs)) / 1e6


def main():
    parser = argparse.ArgumentParser(description=__doc__, formatter_class=argparse.RawDescriptionHelpFormatter)
    parser.add_argument("file", type=Path, metavar="FILE.md")
    parser.add_argument("--runs", type=int, default=5)
    parser.add_argument("--bytes", type=int, help="how many bytes of the file are read; else all")
    parser.add_argument("--without", choices=MAKERS, action="append", default=[], metavar="NAME", help="leaves this one out")
    asked = parser.parse_args()
    page = asked.file.read_bytes()[: asked.bytes].decode(errors="ignore")
    for name, make in [maker for maker in MAKERS.items() if maker[0] not in asked.without]:
        try:
            call = make()
        except ImportError:
            print(f"{'-':>8}  {name}: NOT TRIED, as it is not installed")
            continue
        print(f"{rate(call, page, asked.runs):8.2f}  {name}", flush=True)


if __name__ == "__main__":
    main()
