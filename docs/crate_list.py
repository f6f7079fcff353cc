#!/usr/bin/env python3
"""What crates.txt says: the crates of the tree, and which of them one is made of.

    docs/crate_list.py --below CRATE    prints the crate and all crates of the tree below it, a line each
"""
import argparse
from functools import cache
from pathlib import Path

TOP = Path(__file__).resolve().parent.parent
CRATES = TOP / "crates.txt"


@cache
def libraries():
    """The libraries that each crate uses, by its name, as crates.txt lists them; `#` begins a comment there."""
    lines = [line.partition("#")[0] for line in CRATES.read_text().splitlines()]
    rows = [line.partition(":") for line in lines if line.strip()]
    return {head.split()[0]: names.split() for head, _, names in rows}


def crates():
    """The names of all crates."""
    return list(libraries())


def made_of(crate):
    """The crate and, in the order in which they are met, all crates below it. Those of the kit have no line and are left out."""
    found = [crate]
    for name in found:
        found += [library for library in libraries()[name] if library in libraries() and library not in found]
    return found


def sources(crate):
    """The sources of this crate alone."""
    return sorted((TOP / "crates" / crate / "src").rglob("*.rt"))


def main():
    parser = argparse.ArgumentParser(description=__doc__, formatter_class=argparse.RawDescriptionHelpFormatter)
    parser.add_argument("--below", required=True, metavar="CRATE", choices=crates())
    print("\n".join(made_of(parser.parse_args().below)))


if __name__ == "__main__":
    main()
