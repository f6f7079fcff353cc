"""Calls on the start of a line, one after the other: each call's answer, and the bytes scanned and the columns of a tab that are
left after it."""

NEW_LINE = b"\n"


def rest(text, count=None):
    """The answer where a rest is written over so many `#`, by itself as many as it has bytes."""
    count = len(text) if count is None else count
    if count < len(text):
        return f"err/{len(text)}/" + "23" * count
    return f"ok/{len(text)}/" + text.hex() + "23" * (count - len(text))


ROWS = [
    # columns of space (2.2)
    ("line", b"   x", "upto:2,space:1,eol", "2 @2+0 true @3+0 false @3+0"),
    ("line", b"x", "space:1", "false @0+0"),
    ("line", b"  \nx", "upto:9,eol", "2 @2+0 true @2+0"),
    ("line", b"   ", "space:4,eol", "false @3+0 true @3+0"),
    ("line", b" x", "upto:18446744073709551615", "1 @1+0"),
    ("line", b"\tx", "upto:3,upto:5", "3 @1+1 1 @1+0"),
    ("line", b"\tx", "upto:3", "3 @1+1"),
    ("line", b">\t\tx", "quote,upto:9", "true @2+2 6 @3+0"),
    ("line", b">\t- x", "quote,upto:3,list:2", "true @2+2 2 @2+0 45/0/4 @4+0"),
    ("line", b" \tx", "all", "- @2+0"),
    ("line", b"\tx", "upto:1,all", "1 @1+3 - @1+0"),
    ("line", b"\t>\n", "upto:1,eol,quote,eol", "1 @1+3 false @1+3 true @2+2 true @2+2"),
    # what is left of a line, its tabs up to the next multiple of four (2.2)
    ("line", b"", "restlen,rest:0,rest:2", f"0 @0+0 {rest(b'')} @0+0 {rest(b'', 2)} @0+0"),
    ("line", b"x", "restlen,rest:0,rest:1,rest:3", f"1 @0+0 {rest(b'x', 0)} @0+0 {rest(b'x')} @0+0 {rest(b'x', 3)} @0+0"),
    ("line", b"a\tb", "restlen,rest:4,rest:5", f"5 @0+0 {rest(b'a   b', 4)} @0+0 {rest(b'a   b')} @0+0"),
    ("line", b"\t\t\t\t", "restlen,rest:16", f"16 @0+0 {rest(b' ' * 16)} @0+0"),
    ("line", b"abc\td\te", "restlen,rest:12", f"9 @0+0 {rest(b'abc d   e', 12)} @0+0"),
    ("line", b"\tx\ty\n", "upto:1,restlen,rest:9", f"1 @1+3 9 @1+3 {rest(b'   x   y' + NEW_LINE)} @1+3"),
    ("line", b"\tx\ty\n", "upto:4,rest:6,upto:1", f"4 @1+0 {rest(b'x   y' + NEW_LINE)} @1+0 0 @1+0"),
    ("line", b">\tx", "quote,restlen,rest:2,rest:3", f"true @2+2 3 @2+2 {rest(b'  x', 2)} @2+2 {rest(b'  x')} @2+2"),
    ("line", b">a\tb", "quote,rest:4", f"true @1+0 {rest(b'a  b')} @1+0"),
    ("line", b"\t\tx", "all,restlen,rest:1", f"- @2+0 1 @2+0 {rest(b'x')} @2+0"),
    # tabs after a line ending stay (2.1)
    *(("line", line, "restlen,rest:8", f"{len(left)} @0+0 {rest(left, 8)} @0+0") for line, left in (
        (b"a\n\tb", b"a\n\tb"), (b"\t\r\t", b"    \r\t"), (b"\r\n\t", b"\r\n\t"), (b"\x0b\tb", b"\x0b   b"))),
    # the ends of lines (2.1)
    *(("line", line, "eol", "true @0+0") for line in (b"", b"\nx", b"\rx", b"\r\nx")),
    *(("line", line, "eol", "false @0+0") for line in (b"x", b" \n", b"\x0b", b"\x0c")),
    # list items: bullet or delimiter, start and indent (5.2)
    ("line", b"-\tx", "list:0", "45/0/4 @2+0"),
    ("line", b"- * * *", "list:0,list:0", "45/0/2 @2+0 none @2+0"),
    ("line", b"123456789. x", "list:0", "46/123456789/11 @11+0"),
    ("line", b"1234567890. x", "list:0", "none @0+0"),
    ("line", b"-", "list:0", "45/0/2 @1+0"),
    ("line", b"-\t\tx", "list:0", "45/0/2 @2+2"),
    ("line", b"-\t", "list:0", "45/0/2 @2+2"),
    ("line", b"- x", "list:18446744073709551599", "45/0/18446744073709551601 @2+0"),
    ("line", b"1)\n", "list:0", "41/1/3 @2+0"),
    ("line", b"*    x", "list:0", "42/0/5 @5+0"),
    ("line", b"*     x", "list:0", "42/0/2 @2+0"),
    ("line", b"+x", "list:0", "none @0+0"),
    ("line", b"--", "list:0", "none @0+0"),
    ("line", b"---", "list:0", "none @0+0"),
    # definitions
    ("line", b":    x", "def:0", "5 @5+0"),
    ("line", b":     x", "def:0", "2 @2+0"),
    ("line", b":\tx", "def:0", "4 @2+0"),
    # boxes of tasks (GitHub Flavored Markdown 5.3)
    ("line", b"\t[x] a", "task", "true @4+1"),
    ("line", b"[x]", "task", "none @0+0"),
    ("line", b"[X]\n", "task", "true @3+0"),
    ("line", b"[\x0b] a", "task", "false @3+0"),
    ("line", b"    [x] a", "task", "none @0+0"),
    # tags of alerts
    ("line", b"[!Note]  \nx", "tag", "Note @10+0"),
    ("line", b"[!caution]", "tag", "Caution @10+0"),
    ("line", b"[!TIP]x", "tag", "none @0+0"),
    ("line", b"[!tip]\r\n", "tag", "Tip @8+0"),
    ("line", b"[!IMPORTANT]", "tag", "Important @12+0"),
    ("line", b"[!WARNING] \x0c", "tag", "Warning @12+0"),
    ("line", b"[!notes]", "tag", "none @0+0"),
    # a blank rest behind vertical white space, a thematic break, and a tab are read in two ways: see `listitem`
    *(("line", line, "list:0", "none @0+0") for line in (b"-\x0b\n", b"-\x0c\n", b"*\x0c", b"+\x0b \r\n", b"1.\x0b\t\n")),
    *(("line", line, "list:0", "none @0+0") for line in (b"- - -", b"*\t* *\n", b"-- -")),
    ("line", b"- \x0b\n", "list:0", "45/0/2 @2+0"),
    ("line", b"-\x0bx\n", "list:0", "none @0+0"),
    ("line", b"-\x0c \x00\n", "list:0", "none @0+0"),
    ("line", b"- \x0bx", "list:0", "45/0/2 @2+0"),
    ("line", b"12)  a", "list:0", "41/12/5 @5+0"),
    ("line", b"123.\tx", "list:0", "46/123/8 @5+0"),
    ("listitem", b"*\x0c", "1 42 0 2"),
    ("listitem", b"+\x0b \r\n", "1 43 0 2"),
    ("listitem", b"1.\x0b\t\n", "2 46 1 3"),
    ("listitem", b"- - -", "2 45 0 2"),
    ("listitem", b"*\t* *\n", "2 42 0 5"),
    ("listitem", b"---", None),
    ("listitem", b"-- -", None),
    ("listitem", b"- \x0b\n", "1 45 0 2"),
    ("listitem", b"-", "1 45 0 2"),
    ("listitem", b"-\x0bx\n", None),
    ("listitem", b"-\x0c \x00\n", None),
    ("listitem", b"- \x0bx", "2 45 0 2"),
    ("listitem", b"12)  a", "5 41 12 5"),
    ("listitem", b"-\tx", "2 45 0 5"),
    ("listitem", b"123.\tx", "5 46 123 8"),
]
