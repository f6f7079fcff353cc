"""What cmark_scan is run on: its words, its input, and what it then prints and answers with ample memory."""
from program_runs import Scan

# How many reads are made at most.
READS = 1_048_576
# It takes no files.
NAMED = []

USAGE = b"usage: cmark_scan line CALL.. | html | label | unescape\n"
# Words that are answered, and as many that are not.
KNOWN, OTHER = ["html"], ["htmk"]
# What is printed on standard error: by which words, under what, with which status, and in which writes.
COMPLAINTS = [
    ("other words", OTHER, {}, 2, [USAGE]),
    ("no text", ["label"], {"given": b"\xff"}, 1, [b"not UTF-8\n"]),
    ("a read fault", ["html"], {"read_fail": 1}, 3, [b"read fault\n"]),
]

LIST_LINES = b"quote true\nupto 2\nlist - 0 4\nscanned 4\nrest 78\n"
HTML_LINES = b"2 none\n7 9\n12 none\n17 28\npassed 42 of 144\n"

A_LINE = Scan("a line", "line quote upto:3 list:2", b">\t- x", LIST_LINES)
INLINE_HTML = Scan("inline HTML", "html", b"<!-- <!x> <!-- <![CDATA[ ]]>", HTML_LINES)
A_LABEL = Scan("a label", "label", b"Foo  Bar]", b"bytes 9\nborrowed false\nlabel Foo Bar\n")
ESCAPES = Scan("escapes", "unescape", b"&lt;a&gt; \\*b", b"<a> *b")

# One of each command.
PLAIN = [A_LINE, INLINE_HTML, A_LABEL, ESCAPES]

# Words whose answer wants no input.
UNREAD = []

SMALL = [
    *PLAIN,
    Scan("a stopped line", "line upto:3 eol", b"\tx", b"upto 3\nscanned 1\nrest 2078\nstop 1 SpacePending\n", 1),
    Scan("a line without calls", "line", b"", b"scanned 0\nrest -\n"),
    Scan("no label", "label", b"", b"none\n", 1),
    Scan("no text for a label", "label", b"\xff", b"", 1, b"not UTF-8\n"),
    Scan("plain text", "unescape", b"plain", b"plain"),
    Scan("no text for escapes", "unescape", b"\xff", b"", 1, b"not UTF-8\n"),
]


def a_long_line(size):
    letters = b"ab" * (size // 2)
    shown = b"quote true\nupto 2\neol false\nscanned 2\nrest " + letters.hex().encode() + b"\n"
    return Scan("a long line", "line quote upto:9 eol", b">\t" + letters, shown)


def comments(count):
    """Each is passed over from the place after its opener: two bytes and the way to its end, three bytes further."""
    ends = b"".join(b"%d %d\n" % (place, place + 3) for place in range(2, 5 * count, 5))
    return Scan("comments", "html", b"<!-->" * count, ends + b"passed %d of %d\n" % (5 * count, 28 * count))


def references(count):
    return Scan("references", "unescape", b"&amp;" * count, b"&" * count)


def a_long_label(size):
    """Of 806 bytes over four lines, before much else."""
    line = b"ab" * 100
    given = b"\r\n".join([line] * 4) + b"]"
    shown = b"bytes %d\nborrowed false\nlabel %s\n" % (len(given), b" ".join([line] * 4))
    return Scan("a long label", "label", given + b"ab" * (size // 2), shown)


def long():
    """One of each command, whose input takes more than MANY reads of 512 bytes."""
    return [a_long_line(51_500), comments(10_300), a_long_label(51_500), references(10_300)]


def large():
    """Inputs that are longer than a read."""
    letters = b"ab" * 62_500
    opened = b"".join(b"%d none\n" % place for place in range(2, 125_000, 4))
    return [
        a_long_line(125_000),
        comments(25_000),
        Scan("open comments", "html", b"<!--" * 31_250, opened + b"passed 156249 of 750000\n"),
        Scan("a label before much else", "label", b"a\r\nb]" + letters, b"bytes 5\nborrowed false\nlabel a b\n"),
        references(26_250),
        Scan("long plain text", "unescape", letters, letters),
    ]
