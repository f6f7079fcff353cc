#!/usr/bin/env python3
"""Cases for pulldown-cmark's scanners and for tests_replay, a line each on standard output.

COUNT random cases, made of the bytes that each call looks for, and then cases from the lines of each Markdown file.
The same seed, count and files give the same cases. README.md says what a case looks like, and which inputs are left
out because the library departs from pulldown-cmark there.
"""
import argparse
import random

LARGEST = 2**64 - 1
LONGEST_LINES = 4000  # of a Markdown file
LONGEST_LINE = 200  # bytes of a line in which places are looked for
LONGEST_TEXT = 20000  # bytes of a file that are one text for inline HTML
LONGEST_LABEL = 999  # bytes: in longer texts the two count characters in different ways


def single_bytes(text):
    return [bytes([byte]) for byte in text]


SPACE = single_bytes(b"   \t\t\n\r\x0b\x0c")
LINE = SPACE + single_bytes(b">-*+:_.)[]!x0129a#") + [
    b"\t", b" ", b"    ", b"- ", b"1. ", b"[x]", b"[!NOTE]", b"[!tip]\n", b"---", b"\r\n",
]
TAG = SPACE + single_bytes(b"<>/=\"'`abZ1-_:.") + [
    b"<a", b" b=", b"='c'", b"=\"d e\"", b"/>", b"\n> ", b"\r\n", b" x=y", b"div", b"x",
]
INLINE = single_bytes(b"\\&;#()<>[]|!a1 \t\r\nxX\xc3\xa9") + [
    b"&amp;", b"&lt;", b"&#65;", b"&#x41;", b"&ngE;", b"\\|", b"\\\\|", "é".encode(), "藏".encode(), b"http:",
    b"a@b.c>", b"mailto:x>", b"&#0;", b"&#xD800;", b"&#x110000;",
]
LABEL = single_bytes(b"\\[]| \t\r\n\x0b\x0cab") + [
    b"\n", b"  ", "é".encode(), "«".encode(), b"\r\n", b"\n> ", b"x", b"\\]", b"\\|", b"\\\\|",
]
ROW = single_bytes(b"|:- \t\n\ra") + [b"--", b"|:-", b"-|", b":-:|"]
INLINE_HTML = single_bytes(b"<!?->[]a x") + [b"<!--", b"-->", b"<?", b"?>", b"<!a", b"]]>", b"--", b"<!"]
ITEM = single_bytes(b"0123456789.)-+*: \t\n\r")
METADATA = [
    b"---", b"+++", b"...", b"\n", b"\r\n", b"a: b\n", b" ", b"-", b"+", b"\t", b"\x0c", b"---\n", b"+++\n", b"...\n",
]
BLOCK_NAMES = b"address base div dl h1 h6 h7 html legend li p search ul track script pre divs d".split()
ENTITY_NAMES = [b"amp", b"lt", b"gt", b"quot", b"copy", b"AElig", b"ngE", b"frac34", b"Amp", b"nbsp", b""]
CODE_POINTS = [0, 9, 65, 233, 0xD7FF, 0xD800, 0xDFFF, 0xE000, 0x10FFFF, 0x110000, 9999999, 10000000, 0xFFFFFF, 0x1000000]
HANDLERS = ["zero", "bq", "sp", "x"]


def written(value):
    """An argument as a case has it."""
    if isinstance(value, bytes):
        return value.hex() or "-"
    return str(int(value)) if isinstance(value, bool) else str(value)


def text_of(value):
    """The bytes that are UTF-8, without the others."""
    return value.decode("utf-8", "ignore").encode()


def is_closing_tag_over_lines(data):
    return data.startswith(b"</") and (b"\n" in data or b"\r" in data)


class Cases:
    """Random cases of one generator of numbers."""

    def __init__(self, seed):
        self.random = random.Random(seed)

    def one_of(self, *choices):
        return self.random.choice(choices)

    def flag(self):
        return self.one_of(False, True)

    def fragment(self, parts, least, most):
        count = self.one_of(least, self.random.randint(least, most), self.random.randint(least, min(most, least + 6)))
        return b"".join(self.random.choice(parts) for _ in range(count))

    def run_of(self, byte, least, most):
        return byte * self.random.randint(least, most)

    def place(self, text):
        """A place between two characters of the text."""
        return self.random.choice([i for i in range(len(text) + 1) if i == len(text) or text[i] & 0xC0 != 0x80])

    def line_call(self):
        name = self.one_of("space", "upto", "all", "eol", "quote", "list", "def", "task", "tag")
        if name in ("space", "upto", "list", "def"):
            return f"{name}:{self.one_of(0, 1, 2, 3, 4, 5, 7, 9)}"
        return name

    def line_calls(self, most):
        return ",".join(self.line_call() for _ in range(self.random.randint(1, most)))

    # each method below makes the arguments of the call of its name

    def line(self):
        return [self.fragment(LINE, 0, 20), self.line_calls(8)]

    def eol(self):
        return [self.fragment(SPACE + [b"a"], 0, 8)]

    blank = wsnonl = eol

    def nextline(self):
        return [self.fragment(LINE, 0, 12)]

    def chrepeat(self):
        return [self.fragment(single_bytes(b"aab"), 0, 8), self.one_of(*b"ab")]

    def closefence(self):
        run = self.one_of(b"", self.run_of(b"`", 0, 6), self.run_of(b"~", 0, 5))
        rest = self.fragment(single_bytes(b"  `~a\n\r\x0b"), 0, 4)
        return [run + rest, self.one_of(*b"`~"), self.random.randint(0, 5)]

    def closemeta(self):
        return [self.fragment(METADATA, 0, 4), self.one_of(*b"-+")]

    def indent(self):
        return [self.fragment(single_bytes(b"  \t a"), 0, 10), self.one_of(0, 1, 3, 4, 5, 8, 100)]

    def hrule(self):
        return [self.one_of(b"", b"*", b"-", b"_") + self.fragment(single_bytes(b"**--_  \t\n\rx"), 0, 9)]

    def atx(self):
        return [self.run_of(b"#", 0, 8) + self.fragment(SPACE + single_bytes(b"#a"), 0, 3)]

    def setext(self):
        run = self.run_of(self.one_of(b"=", b"-", b""), 1, 4)
        return [run + self.fragment(single_bytes(b"=- \t\n\r\x0ba"), 0, 5)]

    def tablehead(self):
        row = self.one_of(
            self.fragment(ROW, 0, 14),
            self.fragment(single_bytes(b"||::--- "), 1, 12) + self.one_of(b"", b"\n", b"\r\n"),
        )
        return [self.one_of(b"", b"   ", b"|") + row]

    def fence(self):
        return [self.run_of(self.one_of(b"`", b"~"), 0, 5) + self.fragment(single_bytes(b"`~a \n\r"), 0, 6)]

    def meta(self):
        opening = self.one_of(b"---", b"+++", b"---", b"--", b"----") + self.one_of(b"\n", b" \n", b"\r\n", b"\t\n", b"")
        first = self.one_of(b"a: b\n", b"\n", b"---\n", b" x\n", b"")
        return [opening + first + self.fragment(METADATA, 0, 6), self.flag(), self.flag()]

    def bqstart(self):
        return [self.fragment(single_bytes(b"> \ta"), 0, 4)]

    def listitem(self):
        marker = self.one_of(b"-", b"+", b"*", b"1.", b"0)", b"123456789.", b"1234567890.", self.fragment(ITEM, 0, 3))
        return [marker + self.one_of(b" ", b"   ", b"\t", b"", b"      ") + self.fragment(ITEM, 0, 8)]

    def entity(self):
        if self.random.random() < 0.3:
            digits = single_bytes(b"0123456789abcdefxX#;") * 3
            return [b"&" + text_of(self.fragment(INLINE + digits, 0, 12))]
        number = self.one_of(*CODE_POINTS, self.random.randint(0, 1200000))
        body = self.one_of(
            b"#%d" % number,
            self.one_of(b"#x", b"#X") + b"%x" % number,
            self.one_of(*ENTITY_NAMES),
            b"#",
            b"#x",
            b"#00000%d" % self.random.randint(0, 999),
        )
        return [self.one_of(b"&", b"&", b"x") + body + self.one_of(b";", b";", b";", b"", b" ;", b";;", b"a")]

    def unescape(self):
        return [text_of(self.fragment(INLINE, 0, 16)), self.flag()]

    def wikilink(self):
        text = text_of(self.fragment(INLINE, 0, 10))
        return [text, self.place(text), self.random.randint(0, 12)]

    def linkdest(self):
        text = text_of(self.one_of(b"", b"<") + self.fragment(INLINE + single_bytes(b"()()"), 0, 14))
        return [text, self.one_of(0, 0, self.place(text)), self.one_of(0, 1, 2, 31, LARGEST)]

    def autolink(self):
        scheme = self.one_of(b"", b"http", self.run_of(b"a", 1, 34), b"a+b-c.d", b"1a") + self.one_of(b":", b"")
        text = text_of(b"<" + scheme + self.fragment(INLINE, 0, 8) + self.one_of(b">", b""))
        return [text, self.one_of(0, 1, 1, 1, self.place(text))]

    def type6(self):
        name = bytes(self.one_of(c, c ^ 32 if c in b"abcdefghijklmnopqrstuvwxyz" else c) for c in self.one_of(*BLOCK_NAMES))
        return [self.one_of(b"", b"/") + name + self.fragment(single_bytes(b" \t\r\n>/ax0"), 0, 3)]

    def type7(self):
        while True:
            opening = self.one_of(b"<a", b"</a", b"<", b"<b2-c", b"</")
            data = opening + self.fragment(TAG, 0, 12) + self.one_of(b">", b"", b"/>")
            if not is_closing_tag_over_lines(data):
                return [data]

    def htmlinner(self):
        return self.type7() + [self.one_of("none", *HANDLERS)]

    def inlinehtml(self):
        return [self.fragment(INLINE_HTML, 0, 24)]

    def label(self):
        text = text_of(self.fragment(LABEL, 0, 14) + self.one_of(b"]", b"]", b""))
        return [text, self.one_of("zero", *HANDLERS, "refuse"), self.flag()]


# how often each call comes
CALLS = (
    ["line"] * 12
    + ["htmlinner"] * 3
    + ["label"] * 4
    + ["tablehead", "listitem", "entity", "unescape", "linkdest", "inlinehtml"] * 2
    + ["eol", "blank", "wsnonl", "nextline", "chrepeat", "closefence", "closemeta", "indent", "hrule", "atx", "setext"]
    + ["fence", "meta", "bqstart", "wikilink", "autolink", "type6", "type7"]
)
LINE_SCANNERS = ["blank", "hrule", "atx", "setext", "tablehead", "fence", "bqstart", "nextline"]


def print_case(call, arguments):
    print("\t".join([call, *map(written, arguments)]))


def print_places(cases, line):
    """Cases of the calls that begin inside a line."""
    for place, byte in enumerate(line[:LONGEST_LINE]):
        rest = line[place:]
        if byte == ord("&"):
            print_case("entity", [rest])
        elif byte == ord("<"):
            print_case("type6", [rest[1:]])
            if not is_closing_tag_over_lines(rest):
                print_case("htmlinner", [rest, "zero"])
                print_case("type7", [rest])
            print_case("autolink", [line, place + 1])
        elif byte == ord("[") and len(rest) <= LONGEST_LABEL:
            print_case("label", [rest[1:], "zero", cases.flag()])
        elif byte == ord("("):
            print_case("linkdest", [line, place + 1, 31])


def print_file(cases, path):
    with open(path, "rb") as file:
        data = text_of(file.read())
    for line in data.splitlines(keepends=True)[:LONGEST_LINES]:
        print_case("line", [line, cases.line_calls(6)])
        for call in LINE_SCANNERS:
            print_case(call, [line])
        if b"\x0b" not in line and b"\x0c" not in line:
            print_case("listitem", [line])
        print_case("unescape", [line, cases.flag()])
        print_places(cases, line)
    if b"CDATA[" not in data:
        print_case("inlinehtml", [data[:LONGEST_TEXT]])


def main():
    parser = argparse.ArgumentParser(description=__doc__, formatter_class=argparse.RawDescriptionHelpFormatter)
    parser.add_argument("seed", metavar="SEED", type=int)
    parser.add_argument("count", metavar="COUNT", type=int)
    parser.add_argument("files", metavar="FILE.md", nargs="*")
    asked = parser.parse_args()
    cases = Cases(asked.seed)
    for _ in range(asked.count):
        call = cases.one_of(*CALLS)
        print_case(call, getattr(cases, call)())
    for path in asked.files:
        print_file(cases, path)


if __name__ == "__main__":
    main()
