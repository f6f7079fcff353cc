"""Starts of blocks, by one scanner each."""
ROWS = [
    # block quotes (5.1)
    ("bqstart", b">\t", 1),
    ("bqstart", b"> ", 2),
    ("bqstart", b" >", None),
    # thematic breaks, or where they fail (4.1)
    ("hrule", b"* * *\n", "ok 6"),
    ("hrule", b"--", "err 0"),
    ("hrule", b"- -x-", "err 3"),
    ("hrule", b"- -\n", "err 4"),
    # ATX headings (4.2)
    ("atx", b"###", "H3"),
    ("atx", b"#######", None),
    ("atx", b"#a", None),
    ("atx", b"", None),
    # underlines of setext headings (4.3)
    ("setext", b"==  \nx", "5 H1"),
    ("setext", b"=-", None),
    # opening fences: length and byte (4.5)
    ("fence", b"~~~a`", (3, ord("~"))),
    ("fence", b"```a`\n", None),
    ("fence", b"```rs\n`", (3, ord("`"))),
    ("fence", b"```a\rb`", None),
    # closing fences, of at least so many bytes (4.5)
    ("closefence", b"````  \n", ord("`"), 3, 6),
    ("closefence", b"```\t\n", ord("`"), 3, 4),
    ("closefence", b"~~~ \t\r\n", ord("~"), 3, 5),
    ("closefence", b"~~~\x0b", ord("~"), 3, None),
    ("closefence", b"", ord("`"), 3, 0),
    ("closefence", b"``", ord("`"), 3, None),
    # metadata blocks, of hyphens or of pluses: length and byte
    ("meta", b"---\na: b\n---\n", True, False, (3, ord("-"))),
    ("meta", b"---\n---\n", True, False, None),
    ("meta", b"---\na\n...", True, False, (3, ord("-"))),
    ("meta", b"+++\na\n...", False, True, None),
    ("meta", b"---\na\n...", False, True, None),
    ("closemeta", b"--- \n", ord("-"), 4),
    ("closemeta", b"...", ord("-"), 3),
    ("closemeta", b"....", ord("-"), None),
    ("closemeta", b"...", ord("+"), None),
    ("closemeta", b"---\t\n", ord("-"), None),
    # list items: length, bullet or delimiter, start and indent (5.2)
    ("listitem", b"-   x", "4 45 0 4"),
    ("listitem", b"1.      x", "3 46 1 3"),
    ("listitem", b"-\n", "1 45 0 2"),
    ("listitem", b"-\x0b\n", "1 45 0 2"),
    ("listitem", b"-\x0c\n", "1 45 0 2"),
    ("listitem", b"-x", None),
    ("listitem", b"1844674407370955161615!", None),
    ("listitem", b"4444444444444444444444444444444444444444444444444444444444!", None),
    ("listitem", b"123456789. x", "11 46 123456789 11"),
    ("listitem", b"1234567890. x", None),
    ("listitem", b"123456789", None),
    # delimiter rows of tables: length and alignments (GitHub Flavored Markdown 4.10)
    ("tablehead", b"--|:--:|--:\n", "12 [None, Center, Right]"),
    ("tablehead", b"|-|:", "4 [None, Left]"),
    ("tablehead", b"||-|", "0 []"),
    ("tablehead", b"", "0 []"),
    ("tablehead", b"    -|-", "0 []"),
    ("tablehead", b"| a |", "0 []"),
    # lines that interrupt a paragraph (4.8)
    *(("interrupts", line, True) for line in (
        b"***\n", b"   - - -", b"# a", b"   ######\n", b"```", b"  ~~~ a`b\n", b"``` a\n`\n", b"``` a\r`", b">", b"   > a",
        b"- a", b"+\ta", b"*     a", b"1. a", b"1)\ta", b"  01. a", b"<pre>", b"<!-- a", b"<?", b"<!a", b"<![CDATA[",
        b"</div", b"<div>\n")),
    *(("interrupts", line, False) for line in (
        b"", b"\n", b"a", b"    ***", b"\t# a", b"   \t> a", b"    - a", b"--", b"===", b"#a", b"#######", b"``` a`", b"``",
        b"-", b"- \n", b"-\t", b"-a", b"1.", b"1. \n- a", b"1.a", b"2. a", b"0) a", b"10. a", b"1 a", b"<a>", b"</pre>",
        b"<pre/>", b"<a", b" <b c='d'>\n", b"\xff# a")),
]
