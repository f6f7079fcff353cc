#!/usr/bin/env python3
"""packages/c/tests/examples.py: prints a program that tries the examples of the header's comments, each in a scope of its own. A
line of an example that ends in no semicolon is true. Each function that the header declares has one.

The last line that the program prints says how many lines hold."""
import re
import sys
from pathlib import Path

HEADER = Path(__file__).resolve().parents[1] / "include/fillaqut.h"
FRONT = """#include "fillaqut.h"
#include <stdio.h>
#include <string.h>

static unsigned passed, failed;

static void hold(bool holds, const char *line) {
    passed += holds;
    failed += !holds;
    if (!holds)
        printf("examples: %s\\n", line);
}
"""


def examples(text):
    """Each function that is declared after a comment, with the comment's lines of code."""
    for comment, name in re.findall(r"/\*((?:[^*]|\*(?!/))*)\*/\n[^/;{}#]*?\b(mds_\w+)\([^;{}]*\);", text):
        yield name, re.findall(r"^ \*     (\S.*)$", comment, re.M)


def quoted(line):
    return '"' + line.replace("\\", "\\\\").replace('"', '\\"') + '"'


def scope(lines):
    rows = [line if line.endswith(";") else f"hold({line}, {quoted(line)});" for line in lines]
    return "\n".join(["    {", *[f"        {row}" for row in rows], "    }"])


def main():
    text = HEADER.read_text()
    found = dict(examples(text))
    declared = re.findall(r"^(?!static)[\w ]+\b(mds_\w+)\(", text, re.M)
    missing = [name for name in declared if not any(f"{name}(" in line for line in found.get(name, []))]
    if missing or not declared:
        sys.exit(f"examples.py: no example of {', '.join(missing) or 'any function'}")
    scopes = "\n".join(scope(lines) for lines in found.values())
    print(f"{FRONT}\nint main(void) {{\n{scopes}")
    print('    printf("examples: %u passed, %u failed\\n", passed, failed);\n    return failed > 0;\n}')


if __name__ == "__main__":
    main()
