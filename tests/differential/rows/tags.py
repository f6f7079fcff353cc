"""HTML tags, over lines too, and where HTML blocks begin and end."""

NO_HANDLER, NOTHING, QUOTE = "none", "zero", "bq"

# The names that begin a block by condition 6 of 4.6.
BLOCK_NAMES = [
    "address", "article", "aside", "base", "basefont", "blockquote", "body", "caption", "center", "col", "colgroup",
    "dd", "details", "dialog", "dir", "div", "dl", "dt", "fieldset", "figcaption", "figure", "footer", "form", "frame",
    "frameset", "h1", "h2", "h3", "h4", "h5", "h6", "head", "header", "hr", "html", "iframe", "legend", "li", "link",
    "main", "menu", "menuitem", "nav", "noframes", "ol", "optgroup", "option", "p", "param", "search", "section",
    "summary", "table", "tbody", "td", "tfoot", "th", "thead", "title", "tr", "track", "ul",
]

# The lowest condition of 4.6 that begins a block.
STARTS = {
    "RawText": [b"<pre>", b"<PRE", b"<script type=a", b"<Style\t", b"<textarea\r", b"<pre\n>", b"<pre a b/>"],
    "Comment": [b"<!--", b"<!-- a -->", b"<!-->"],
    "Processing": [b"<?", b"<?php"],
    "Declaration": [b"<!D", b"<!doctype html>"],
    "Cdata": [b"<![CDATA[", b"<![CDATA[a"],
    "BlockName": [b"<div", b"<div>", b"</DIV >", b"<hr/>a", b"<blockquote/>", b"</blockquote/>", b"</blockquote\nx"],
    "TagAlone": [b"<pre-x>", b"<prefix>", b"</pre>", b"</TEXTAREA >\n", b"</blockquotes>", b"<a>", b"<a href='b'/> \t\r\n"],
    None: [
        b"<pre/>", b"<script/>\n", b"</pre> a", b"<pre\x0c>", b"<!-", b"<!- -", b"<!", b"<! D", b"<!1", b"<![cdata[",
        b"<![CDATA", b"</figcaption/", b"<a> b", b"<a b=\n'c'>", b"<1>", b"<", b"", b" <div>", b"a<div>", b"\xff<!--",
    ],
}

# Lines that end a block by the condition of this number, and lines that don't (4.6).
ENDS = {
    1: (
        [b"</pre>", b"a</SCRIPT>b", b"<</style>", b"</</textarea>"],
        [b"</pre >", b"</pre", b"<pre>", b"</div>", b"</pr\ne>", b""],
    ),
    2: (
        [b"a --> b", b"<!-->", b"---->"],
        [b"- ->", b"--", b"--\r>", b"a\n-->", b"a\r-->", b"\n"],
    ),
    3: ([b"<?>", b"a??>"], [b"? >"]),
    4: ([b"<!A>"], [b"<!A", b"a\n>"]),
    5: ([b"]]]>"], [b"]]", b"] ]>"]),
    6: ([b"\n", b" \t\r\na", b""], [b"</div>", b"a\n\n"]),
    7: ([b"  "], [b"-->", b".\n"]),
}

ROWS = [
    # names of blocks (4.6)
    *(("type6", f"{name}>".encode(), True) for name in BLOCK_NAMES),
    *(("type6", name, True) for name in (b"DIV>", b"/p/>", b"h1 ", b"UL", b"address", b"MenuItem\tx")),
    *(("type6", name, False) for name in (b"divx", b"p/", b"h7>", b"", b"/", b"//p>", b"p=", b"p\x0c")),
    # lengths of tags alone in a line (4.6)
    ("type7", b"<a b=\t'c'>  \n", 10),
    ("type7", b"<a>", 3),
    ("type7", b"<a> b\n", None),
    ("type7", b"<a\n>\n", None),
    ("type7", b"</a\n>\n", None),
    ("type7", b"</a>\r\nb", 4),
    *(("htmlstart", text, kind) for kind, texts in STARTS.items() for text in texts),
    *(("htmlends", line, kind, True) for kind, (ends, _) in ENDS.items() for line in ends),
    *(("htmlends", line, kind, False) for kind, (_, others) in ENDS.items() for line in others),
    # tags over lines (6.6), and what a handler skips at the front of each: the text, or none where it is the input's, and the length
    ("htmlinner", b"<foo\n> bar>", QUOTE, (b"<foo\nbar>", 11)),
    ("htmlinner", b"<foo\n> bar>", NO_HANDLER, None),
    ("htmlinner", b"<foo bar>", NO_HANDLER, (b"", 9)),
    ("htmlinner", b"<foo bar>", QUOTE, (b"", 9)),
    ("htmlinner", b"</a >", NO_HANDLER, (b"", 5)),
    ("htmlinner", b"<a b=\"x\ny\">", QUOTE, (b"", 11)),
    ("htmlinner", b"<a b=\"x\ny\">", NO_HANDLER, None),
    ("htmlinner", b"<a b=c/>", NO_HANDLER, (b"", 8)),
    ("htmlinner", b"<a b = c>", NO_HANDLER, (b"", 9)),
    ("htmlinner", b"<a/ >", NO_HANDLER, None),
    ("htmlinner", b"<a b=>", NO_HANDLER, None),
    ("htmlinner", b"<1>", NO_HANDLER, None),
    ("htmlinner", b"<a b=\t>", NO_HANDLER, None),
    ("htmlinner", b"<a\nb\nc>", QUOTE, (b"", 7)),
    ("htmlinner", b"<a\r\n> b>", QUOTE, (b"<a\r\nb>", 8)),
    ("htmlinner", b"<a\n> b='c\n> d'>", QUOTE, (b"<a\nb='c\nd'>", 15)),
    ("htmlinner", b"<a b=c\td=e>", NO_HANDLER, None),
    ("htmlinner", b"a>", NO_HANDLER, None),
    # in a closing tag stands at most one line ending
    ("htmlinner", b"</a\n>", NO_HANDLER, None),
    ("htmlinner", b"</a\n>", QUOTE, (b"", 5)),
    ("htmlinner", b"</a\r\n>", QUOTE, (b"", 6)),
    ("htmlinner", b"</a \n >", QUOTE, (b"", 7)),
    ("htmlinner", b"</a\n> >", QUOTE, (b"</a\n>", 7)),
    ("htmlinner", b"</a\n\n>", QUOTE, None),
    ("htmlinner", b"</a\n", QUOTE, None),
    ("htmlinner", b"</a\r> \n>", QUOTE, None),
    ("htmlinner", b"</a\r\n\n>", NOTHING, None),
]
