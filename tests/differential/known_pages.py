"""Pages of the ways in which our programs are known to differ from others, which the comparisons must find in them still. A way of which no page
is found any more is to leave its list.

Each page stands with the ways that are found in it.
"""

BLOCKS = [
    (["agree"], b"\xef\xbb\xbf# a\n"),
    (["agree"], b"\xef\xbb\xbf- |a|\n  |-|\n"),
    (["agree"], b"\xef\xbb\xbf\xef\xbb\xbf# a\n\n\xef\xbb\xbf# b\n"),
    (["agree"], b"# a\r\n\r\n> - b\r\n>   c\r\n\r\n3) d\r\n4) e\r\n\r\n<div>\r\nf\r\n"),
    (["agree"], b"~~~ a\tb &amp;\\* \xff\x01&#0;\ng\xff\n~~~\n"),
    (["agree"], b"|a|b\xff|\n|-|:-:|\n|c\n"),
    (["agree"], b"> a:-\n"),
    (["agree"], b"[a]: /b\n\nc\n"),
    (["agree"], b"- a\n\n  [b]: /c\n- d\n"),
    (["agree"], b"~~~ a\x00\nb\n"),
    (["hyphens"], b"[a]: /b\n---\nc\n"),
    (["loose"], b"* ---\n\n  a\n"),
    (["tight"], b"- <?a\n\n- b\n"),
    (["declaration"], b"a\n<!b\n"),
    (["cdata"], b"<![cdata[\n"),
    (["raw"], b"<pre/>\n"),
    (["name"], b"a\n<search>\n"),
    (["name"], b"a\n<source>\n"),
    (["agree"], b"#\fa\n"),
    (["agree"], b"a\n---\v\n"),
    (["marker"], b"-\fa\n"),
    (["marker"], b"a\n1.\vb\n"),
    (["agree"], b"a\n\f\nb\n"),
    (["info"], b"~~~ a\f\nb\n"),
    (["info"], b"~~~\v a\nb\n"),
    (["escape"], b"~~~ \\&amp;\nb\n"),
    (["begin"], b"-\n  \n  a\n"),
    (["agree"], b"|a|\n|-:-|\n"),
    (["agree"], b"a|b\n|-|:\n"),
    (["pipe"], b"|a|\n|-|\n|\n"),
    (["table"], b"- a|b\n  -|-\n  - c\n"),
    (["agree"], b"a\n:-\n"),
    (["agree"], b"a\n:-\n\n|b|\n|-|\n"),
    (["space"], b"|a|\n|-|\f\n"),
    (["older"], b"|a|\n|-|\n\n<textarea\n\nb\n"),
    (["older"], b"1. <textarea\n\t:-:\n"),
    (["header"], b"a\n|b|\n|-|\n"),
    (["header"], b"a\n    b|c\n-|-\n"),
    (["header"], b"a\n2. b|c\n-|-\n"),
    (["header"], b"> a\nb|c\n> -|-\n> d|e\n"),
    (["header"], b"- a\n      b|c\n  -|-\n"),
    (["lazy"], b"> a\n |b|c|\n> -|-\n"),
    (["declaration"], b"> <!a>\n>      ===\n>:-\n"),
    (["older"], b"a\nb\n:-:\n<textarea\nc\n"),
    (["older"], b"a\n<textarea\n:-\n"),
    (["tag"], b"- a\n</h7>\n     :-:\n"),
]

LONG = b"`" * 1001
INLINES = [
    (["agree"], b"# a *b* ``c ` d``\n\n> e [f]\n> **g**\\\n> h ![i](/j \"k\") &auml; <l@m.n> <o>\n\n[f]: /p 'q'\n"),
    (["declaration"], b"a <!b>\n"),
    (["comment"], b"a <!-- b -- c -->\n"),
    (["symbol"], b"*\xc2\xa3*b\n"),
    (["runs"], b"# _*__*_\n"),
    (["label"], b"[a][ ]\n\n[a]: /u\n"),
    (["escape"], b"[a](\\&amp;)\n"),
    (["backticks"], b"%s a %s\n" % (LONG, LONG)),
    (["bytes"], b"a\n\n\xff\n"),
]

# The same of links: of the ways of inlines those by which a link is none.
LINKS = [
    (["agree"], b"a [b](c 'd') ![e][f] <g:h> <i@j.k>\n\n[f]: /l\n"),
    (["declaration"], b"a <!b [c](d)>\n"),
    (["comment"], b"a <!-- b -- [c](d) -->\n"),
    (["definition"], b"> [a]: /b\n  [a]: /c\n"),
    (["bytes"], b"[a](\xff)\n"),
]
LINKS_EXTENDED = [(["parentheses"], b"[a](b](c )\n")]

# Of events the ways of the texts of those that agree are said after `text`, and those of the ends of their ranges after `end`.
EVENTS = [
    (["agree"], b"# a *b* `c`\n\n> 1. <d> [e](/f 'g')  \n>    h\n"),
    (["spaces"], b"a \nb\n"),
    (["tabs"], b"a\t \nb\n"),
    (["last"], b"- a  "),
    (["return"], b"    a\r\r\nb\n"),
    (["columns"], b"> <b\n  c>\n>\t<?d\n"),
    (["comment"], b"a <!-->\n"),
    (["comment"], b"a<!--b\n--c-->\n"),
    (["declaration"], b"a <!b>\n"),
    (["symbol"], b"*\xc2\xa3*a\n"),
    (["alone"], b"- a\n>b\n"),
    (["alone"], b"- a\n>b\n\n- c\t\n"),
    (["alone"], b"- `a\n>b`\n1. ```c\n   d`\n e\n"),
    (["alone"], b"<a:b>\t\n[e](\\\n\n"),
    (["there"], b"- a\n>b\n\nc <!-->\n"),
    (["quote"], b"- ***\n\n  a\n>b\n"),
    (["agree", "end collapsed", "end escape"], b"\\# [a][]\r\n\r\n[a]: /b\r\n\r\n\tc\r\n"),
    (["agree", "text indent", "end indent"], b"  <p\n"),
    (["agree", "text code"], b"``` `\n`m`\n"),
    (["agree", "end return"], b"<div>\n> n\r\r\n"),
    (["agree", "end fence", "end marker", "end tab"], b"> ```\n> ```\n>\n -\t\td\n"),
    (["agree", "text indent", "end closed"], b"<textarea\n</style>\n "),
    (["agree"], b"*    ~~~ a`\r\n \r\n"),
    (["agree", "text indent", "end part"], b"> <?a\n>\t"),
    (["bytes"], b"\xff\n"),
]
# With tables, strikethrough and tasks.
EVENTS_EXTENDED = [
    (["header"], b"a\n|-|\n"),
    (["alone"], b"a ~~b~~\n- c\n>d\n"),
    (["alone"], b"> |c|\n>  |-|\n"),
    (["alone"], b"a\n|b|\n|-|\n\n> |c|\n>  |-|\n"),
    (["agree", "text pipe", "end cell", "end row"], b"|a|b |\n|-|:-|\n|`\\|`|\n"),
    (["agree", "end blank", "end task"], b"- [ ] a\n\n- [x] b\n"),
    (["ends"], b"- [x] \n  foo"),
    (["below"], b"-\n  [ ] a\n"),
    (["brackets"], b"- [\t] a\n"),
    (["inside"], b"- [ ] # a\n"),
    (["inside"], b"- [ ] # a\n\n- b\n"),
    (["rows"], b"a|b\n-|-\n|\n10. c|d\n"),
    (["lazy"], b"> a\n\t||\n>|--|\n"),
    (["lazy"], b">a|b\\\n   |:-:|-:|\n> ---|---\n"),
    (["alone"], b"a\\\\|b\nc | `d|e`\n-|-|-\n"),
    (["alone"], b"- | -\n\t10. -  a|b\n  :-|:-\n- c\n"),
]


def pages(known):
    return [page for _, page in known]


def report(known, found, listed, apart):
    """Prints the pages in which their ways are not found, and says whether there are none, each listed way has a page, and two pages that
    differ, `apart`, do so in no known way."""
    pairs = zip(known, found, strict=True)
    wrong = [f"in {page!r} is found {', '.join(sorted(ways))}, and not {', '.join(wanted)}" for (wanted, page), ways in pairs if set(wanted) - set(ways)]
    wrong += [f"no page has the known way {way}" for way in sorted(set(listed) - {way for wanted, _ in known for way in wanted})]
    wrong += [] if apart.startswith("differ\n") else ["two pages that differ in no known way do not fail"]
    print(*wrong, sep="\n", end="\n" if wrong else "")
    print(f"known ways: {len(known)} pages, {len(wrong)} faults")
    return bool(known) and not wrong
