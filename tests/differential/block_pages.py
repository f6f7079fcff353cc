"""The pages that tests/differential/blocks compares: made ones, the examples of the specification, and files. All are bytes."""
import gzip
import lzma
import os
import random
import re
from pathlib import Path

# What a made line has before its text, up to three of them.
MARKERS = [
    b"", b"", b"", b"", b"> ", b">", b"- ", b"-", b"* ", b"1. ", b"2) ", b"10. ", b"+   ", b"-     ", b"  ", b"   ", b"    ",
    b"     ", b"\t", b">\t", b"-\t", b" > ",
]
LINES = [
    b"", b" ", b"a", b"a b", b"   b", b"    c", b"\td", b"# e", b"## f ##", b"####### g", b"#", b"#h", b"===", b"=", b"---",
    b"--", b"   ===", b"    ===", b"- - -", b"***", b"_ _ _", b"__", b"* *", b"```", b"````", b"``` x", b"  ```", b"    ```",
    b"~~~", b"~~~ a`", b"``` `", b"~~~~ ", b"<div>", b"</p>", b"<b>", b'<b c="d">', b"</b >", b"<b", b"<pre>", b"</pre>",
    b"<script>i</script>", b"</style>", b"<!-- j", b"-->", b"<!-->", b"<?k", b"?>", b"<!L", b">", b"<![CDATA[", b"]]>", b"`m`",
    b"\\#", b"  <p", b"<textarea", b"<address/>", b"</h7>", b"a  ", b"n\r", b"\ro",
]
# Rows of tables, and lines that are none.
ROWS = [
    b"|-|", b"-|-", b"-", b"|a", b"a|b", b"|a|b|", b"a\\|b", b"a\\\\|b", b"|a", b"|", b"||", b"a|b|c", b"|:-:|-:|", b"---|---",
    b"-|-|-", b":-|:-", b"|--|", b"    -|-", b"- | -", b"--", b"a | `b|c`", b"a|b\\", b" a|b ", b"> -|-", b"|- |",
]
# Lines that begin with a task list marker, and lines that do not.
TASKS = [
    b"[ ] a", b"[x] b", b"[X]\tc", b"[ ]", b"[x] ", b"[ ]  *d*", b"[y] e", b"[x]f", b"[\t] g", b"[ ] `h`", b"[ ] [i]", b"[ ] \\*j", b"k [x] l", b"[ ] [x] m",
    b"[x] # n", b"[ ]     o",
]
# What cmark 0.30.2 and cmark-gfm are known to see in another way, and bytes that are not UTF-8.
ODD = [
    b"<!a", b"<!a>", b"<![cdata[", b"<pre/>", b"<SCRIPT/>", b"<search>", b"</source>", b"#\f", b"##\v#", b"\f", b" \v", b":-", b"-:", b":-:",
    b"\xff", b"~~~ \xff&auml;\\*\0", b"# \xc3\x28", b"\0", b"\x01",
]
# Lines that cmark-gfm reads by CommonMark 0.29: <textarea> begins no block by condition 1 there, and a tag alone ends a lazy paragraph.
BY_OLDER_RULES = re.compile(rb"<b|</(?:b|pre|style|h7)|<textarea")
WITH_ROWS = [line for line in LINES if not BY_OLDER_RULES.match(line)] + 3 * ROWS
WITH_ODD = LINES + ODD
WITH_TASKS = LINES + 4 * TASKS

# What made paragraphs are made of, and what stands after them: a definition of a label that they have.
PARTS = [
    b"*", b"**", b"***", b"_", b"__", b"`", b"``", b"[", b"]", b"![", b"](", b")", b"[]", b"[a]", b"](b", b"<", b">", b"<c>", b"<!--", b"-->", b"&",
    b"&amp;", b' "d")', b" ", b"  ", b"\\", b"e", b"f", b"\n", b"\n> ", b"<g@h>", b"<ij:k>", b"~~", b"\t", b"\xc2\xa0", b"\xe2\x80\x9c",
]
DEFINITION = b"\n\n[a]: /l 'm'\n"

EXAMPLE = re.compile(rb'let original = r##"(.*?)"##;', re.S)
MARKDOWN = re.compile(r".*\.(?:md|markdown|mkd|mdown)(?:\.gz|\.xz)?", re.I)


def made_page(chosen, lines):
    end = chosen.choice([b"\n", b"\n", b"\n", b"\r\n"])
    made = [
        b"".join(chosen.choices(MARKERS, k=chosen.choice([0, 1, 1, 2, 3]))) + chosen.choice(lines) for _ in range(chosen.randint(1, 9))
    ]
    return end.join(made) + chosen.choice([b"", end])


def made(lines, seed, count):
    """So many pages of such lines, the same for a seed each time."""
    chosen = random.Random(seed)
    return [made_page(chosen, lines) for _ in range(count)]


def made_paragraphs(seed, count):
    """So many pages of a paragraph and a definition, the same for a seed each time."""
    chosen = random.Random(seed)
    return [b"b" + b"".join(chosen.choices(PARTS, k=chosen.randint(1, 16))) + DEFINITION for _ in range(count)]


def examples(path):
    """The specification's examples, as the tests of pulldown-cmark have them."""
    return EXAMPLE.findall(path.read_bytes())


def markdown_in(place):
    """The file, or the Markdown files in the folder, each once."""
    if not place.is_dir():
        return [place]
    paths = (Path(folder, name) for folder, _, names in os.walk(place) for name in names if MARKDOWN.fullmatch(name))
    return sorted({path.resolve() for path in paths if path.is_file()})


def text_of(path):
    """The bytes of a file, which may be compressed."""
    with {".gz": gzip.open, ".xz": lzma.open}.get(path.suffix, open)(path, "rb") as file:
        return file.read()


def texts_in(places):
    """The texts of files and folders, each once."""
    return list(dict.fromkeys(text_of(path) for place in places for path in markdown_in(place)))
