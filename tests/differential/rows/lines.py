"""Lines, runs of bytes and indents."""
ROWS = [
    # lengths of line endings (2.1)
    ("eol", b"", 0),
    ("eol", b"\n", 1),
    ("eol", b"\r\n", 2),
    ("eol", b"\rx", 1),
    ("eol", b"x", None),
    # blank lines (2.1)
    ("blank", b"\r\r\n", 1),
    ("blank", b" x", None),
    # lines with their endings (2.1)
    ("linelength", b"", 0),
    ("linelength", b"a", 1),
    ("linelength", b"a\nb", 2),
    ("linelength", b"a\r\nb", 3),
    ("linelength", b"a\rb\n", 2),
    ("linelength", b"\r\r\n", 1),
    ("linelength", b"\n\r", 1),
    ("linelength", b"a\x0b\x0c\x85\n.", 5),
    # lines without their endings (2.1)
    ("linehead", b"", b""),
    ("linehead", b"ab", b"ab"),
    ("linehead", b"a b\nc", b"a b"),
    ("linehead", b"a\r\nb", b"a"),
    ("linehead", b"a\rb\n", b"a"),
    ("linehead", b"\n\r", b""),
    ("linehead", b"\r", b""),
    ("linehead", b"\t\x0b\x0c\x85 \n.", b"\t\x0b\x0c\x85 "),
    # where the next line begins, which LF alone ends here
    ("nextline", b"a\rb\nc", 4),
    ("nextline", b"a\rb", 3),
    # white space that ends no line
    ("wsnonl", b" \t\x0b\x0c\n", 4),
    # spaces and tabs (2.1)
    ("spacestabs", b"", 0),
    ("spacestabs", b"x ", 0),
    ("spacestabs", b" \t  x\t", 4),
    ("spacestabs", b"\t\t", 2),
    *(("spacestabs", b" \t" + other + b" ", 2) for other in (b"\n", b"\r", b"\x0b", b"\x0c", b"\x1f", b"\xa0")),
    # a byte again and again
    ("chrepeat", b"aab", ord("a"), 2),
    # a place and columns, up to a limit (2.2)
    ("indent", b"  ", 4, "1/2"),
    ("indent", b"\t x", 4, "2/5"),
    ("indent", b"x", 4, "0/0"),
    ("indent", b"\t", 3, "0/0"),
]
