#!/usr/bin/env python3
"""Prints what calls of the package cost, in nanoseconds: of each the best of RUNS, on `bytes`, a `str` of ASCII, another `str`, and
a `bytearray`.

The first row is a call of the library by ctypes alone, and the second one with a struct for an answer.
"""
import argparse
import os
import sys
import timeit
from pathlib import Path

TOP = Path(__file__).resolve().parents[3]
sys.dont_write_bytecode = True
sys.path.insert(0, os.environ.get("PYTHONPATH") or str(TOP / "packages/python"))
os.environ.setdefault("FILLAQUT_LIBRARY", str(TOP / "out/libfillaqut.so.0"))
import ctypes

import fillaqut as mds
from fillaqut import _c

PAGE = "> - [a](<b c> 'd') &auml; <i>, `x`\n# Heading\n---\n<https://a.b>\n|-|:-:|\n  text\n~~~\n" * 100
# Of each call the text that is timed, where `p` is the page.
CALLS = [
    "mds.is_whitespace(32)",
    "mds.scan_line(p, 35)",
    "mds.scan_eol(p, 34, 60)",
    "mds.scan_blank_line(p, 35)",
    "mds.scan_ch_repeat(p, byte=35, at=35)",
    "mds.scan_while(p, accepted=b'# ', at=35)",
    "mds.scan_listitem(p, 2)",
    "mds.calc_indent(p, limit=8, at=71)",
    "mds.scan_atx_heading(p, 35)",
    "mds.scan_setext_heading(p, 45)",
    "mds.scan_hrule(p, 45)",
    "mds.scan_code_fence(p, 78)",
    "mds.scan_table_head(p, 63)",
    "mds.interrupts_paragraph(p, 35)",
    "mds.scan_html_block_start(p, 26)",
    "mds.scan_link_dest(p, 8)",
    "mds.scan_link_title(p, 14)",
    "mds.scan_autolink(p, 50)",
    "mds.scan_html_tag(p, 26)",
    "mds.scan_html_tag_over_lines(p, at=26)",
    "mds.scan_entity(p, 19)",
    "mds.unescape(p, at=19, end=25)",
    "mds.scan_link_label(p, at=5)",
    "mds.LineStart(p, 0, 35)",
    "start.quote()",
    "start.upto(4)",
    "start.list_item(0)",
    "start.place",
    "start.copy()",
]


def cost(text, names, runs):
    """The least of so many runs of 50 calls each, which are short, so that on a busy machine some are not interrupted."""
    return min(timeit.Timer(text, globals=names).repeat(runs, 50)) / 50 * 1e9


def alone(name, *given):
    """A function of the library, with nothing around it."""
    library = ctypes.PyDLL(os.environ["FILLAQUT_LIBRARY"])
    found = getattr(library, f"mds_{name}")
    found.restype, found.argtypes = _c.FUNCTIONS[name]
    return found


def main(runs):
    data = PAGE.encode()
    address = ctypes.cast(ctypes.c_char_p(data), ctypes.c_void_p).value
    for name in ("scan_line", "scan_code_fence"):
        names = {"call": alone(name), "a": address, "n": len(data)}
        print(f"{cost('call(a, n)', names, runs):8.0f}  {name} by ctypes")
    for text in CALLS:
        costs = []
        for page in (data, PAGE, PAGE.replace("text", "täxt"), bytearray(data)):
            try:
                names = {"mds": mds, "p": page, "start": mds.LineStart(page, 0, 35)}
                costs.append(f"{cost(text, names, runs):8.0f}")
            except TypeError:  # pages that an earlier package refuses
                costs.append(f"{'-':>8}")
        print(*costs, f" {text}")


if __name__ == "__main__":
    parser = argparse.ArgumentParser(description=__doc__, formatter_class=argparse.RawDescriptionHelpFormatter)
    parser.add_argument("runs", metavar="RUNS", type=int, nargs="?", default=500)
    main(parser.parse_args().runs)
