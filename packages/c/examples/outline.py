#!/usr/bin/env python3
"""Prints the outline of a Markdown file, as outline.c does, by the Python package fillaqut: the one that is
installed, else that of the tree, over the shared library that packages/c/build makes:

    packages/c/build && packages/c/examples/outline.py README.md
"""
import os
import re
import sys
from pathlib import Path

sys.dont_write_bytecode = True
TOP = Path(__file__).resolve().parents[2].parent
HELP = """usage: outline.py [FILE]
Prints the outline of a Markdown file, or of standard input: a line for each ATX and setext heading, for each
link reference definition with its normalised label, and for each full reference, as [text][label], whose label
no definition has, those in block quotes and lists too. Each line begins with the number of a line of the file.

It is no full CommonMark parser: all brackets before a label make a full reference, those with a link in them too.
The status is 0; 1 where a label has no definition; 2 where the outline can't be had.
"""
BACKTICKS = re.compile(b"`+")


def fail(what, why):
    sys.stderr.write(f"outline.py: {what}: {why}\n")
    sys.exit(2)


try:
    import fillaqut as mds
except ImportError:
    sys.path.insert(0, str(TOP / "packages/python"))
    os.environ.setdefault("FILLAQUT_LIBRARY", str(TOP / "out/libfillaqut.so.0"))
    try:
        import fillaqut as mds
    except ImportError as error:
        fail("library", error)


def find(text, place, closers):
    """The place of the first of these bytes that no backslash stands before, or one after the text. (2.4)"""
    while place < len(text) and text[place] not in closers:
        place += 2 if text[place] == ord("\\") else 1
    return place


class CodeSpans:
    """The code spans of a text. Where its last run of so many backticks begins is looked for once, at the first, so that no
    call looks for a closing run that is not there."""

    def __init__(self, text):
        self.text, self.last = text, None

    def length(self, place):
        """How many bytes the code span at the place takes, or its backticks where no run as long closes it. (6.1)"""
        if self.last is None:
            self.last = {len(run[0]): run.start() for run in BACKTICKS.finditer(self.text)}
        end = BACKTICKS.match(self.text, place).end()
        is_closed = self.last.get(end - place, place) > place
        return (mds.scan_code_span(self.text, place).end if is_closed else end) - place


class Outline:
    """What is found: headings are printed, and definitions and references kept, each with its line, label and key."""

    def __init__(self):
        self.output, self.definitions, self.references = [], [], []

    def read_label(self, text, place):
        """The label in brackets at the place, its key, and how many bytes it takes, or 0. (CommonMark 0.31.2, 6.3)"""
        end = find(text, place + 1, b"[]")
        if text[place : place + 1] != b"[" or end >= len(text):
            return b"", b"", 0
        label = mds.scan_link_label(text, place + 1, end + 1)
        return (label.text, mds.label_key(label.text), label.end - place) if label else (b"", b"", 0)

    def define(self, line, text):
        """Adds the definition that this text is, which begins in this line. (4.7)"""
        found = mds.scan_reference_definition(text)
        label = mds.scan_link_label(text, found.label.start).text
        self.definitions.append((line, label, mds.label_key(label), mds.unescape(text, *found.destination)))

    def inline_length(self, text, place, guard, spans):
        """How many bytes the escape, code span, autolink or HTML at the place takes; else 1. (2.4, 6.1, 6.5, 6.6)"""
        if text[place] == ord("\\"):
            return 2 if text[place + 1 : place + 2] and text[place + 1] in b"!\"#$%&'()*+,-./:;<=>?@[\\]^_`{|}~" else 1
        if text[place] != ord("<"):
            return spans.length(place) if text[place] == ord("`") else 1
        found = mds.scan_autolink(text, place + 1) or mds.scan_html_tag_over_lines(text, place)
        if found:
            return found.end - place
        html = guard.scan(place + 2) if text[place + 1 : place + 2] in (b"!", b"?") else None
        return html - place if html else 1

    def read_text(self, line, text):
        """Adds the full references of a text that begins in this line. (6.3)"""
        guard, spans = mds.HtmlScanGuard(text), CodeSpans(text)
        place = depth = 0
        while place < len(text):
            closes = text[place] == ord("]") and depth > 0
            label, key, taken = self.read_label(text, place + 1) if closes else (b"", b"", 0)
            if taken:
                self.references.append((line, label, key))
            taken += self.inline_length(text, place, guard, spans) if text[place] in b"\\`<" else 1
            depth += (text[place] == ord("[")) - closes
            line += text.count(b"\n", place, place + taken)
            place += taken

    def read_block(self, page, block):
        """Reads a heading, a definition, a paragraph or a table, which has its lines for a text. (4.2, 4.3, 4.7, 4.8)"""
        line, text = block.line + 1, b"\n".join(row.rstrip() for row in block.content().splitlines())
        if block.level:
            self.output.append(b"%d: %b %b\n" % (line, b"#" * block.level, text.replace(b"\n", b" ")))
        if block.kind == mds.BlockKind.DEFINITION:
            self.define(line, text)
        elif block.kind == mds.BlockKind.TABLE:
            self.read_text(line, page[block.start : block.stop])
        elif block.level or block.kind == mds.BlockKind.PARAGRAPH:
            self.read_text(line, text)

    def read(self, page):
        """Goes through the blocks of a page, and answers as `report`."""
        for block in mds.scan_blocks(page, extensions=["tables"]):
            self.read_block(page, block)
        return self.report()

    def report(self):
        """All that is printed, and how many labels have no definition."""
        known = {key for _, _, key, _ in self.definitions}
        missing = [reference for reference in self.references if reference[2] not in known]
        for line, label, _, target in self.definitions:
            self.output.append(b"%d: [%b]: %b\n" % (line, label, target.replace(b"\n", b" ")))
        self.output += [b"%d: [%b] has no definition\n" % (line, label) for line, label, _ in missing]
        return b"".join(self.output), len(missing)


def read_page(words):
    name = words[0] if words else "standard input"
    try:
        page = Path(name).read_bytes() if words else sys.stdin.buffer.read()
    except OSError as error:
        fail(name, error.strerror)
    if not mds.is_utf8(page):
        fail(name, "not UTF-8")
    return page


def main(words):
    if words == ["--help"]:
        print(HELP, end="")
        return 0
    if len(words) > 1:
        sys.stderr.write(HELP)
        return 2
    try:
        report, missing = Outline().read(read_page(words))
    except MemoryError:
        fail("memory", "refused")
    try:
        sys.stdout.buffer.write(report)
        sys.stdout.buffer.flush()
    except OSError as error:
        fail("standard output", error.strerror)
    return 1 if missing else 0


if __name__ == "__main__":
    sys.exit(main(sys.argv[1:]))
