"""The ways in which fillaqut inlines is known to differ from cmark 0.30.2 in a block, each with the section that decides.

Sections are of CommonMark 0.31.2.
"""
import re
import unicodedata
from collections import namedtuple

# A comment that was none in 0.30.
COMMENT = rb"<!--(?:-?>|(?s:.)*?--(?!>)|(?s:.)*?--->)"

# A way to differ: what a block of it has, the section, and whether a text is one.
Kind = namedtuple("Kind", "words section fits")


def has(pattern):
    found = re.compile(pattern)
    return lambda text: found.search(text) is not None


def has_symbol(text):
    """That a symbol or a mark of punctuation that is not ASCII stands beside delimiters."""
    beside = "".join(map("".join, re.findall(r"(.?)[*_]+(?=(.?))", text.decode(errors="replace"), re.S)))
    return any(ord(item) > 127 and unicodedata.category(item)[0] in "PS" for item in beside)


def has_runs(text):
    """That there are three delimiter runs of `_` or more, not all as long, of what isn't escaped."""
    runs = re.findall(rb"_+", re.sub(rb"\\[!-/:-@[-`{-~]", b"\\\\", text))
    return len(runs) > 2 and len({len(run) for run in runs}) > 1


KINDS = {
    "declaration": Kind("have a declaration with a small letter, or a letter alone", "6.6", has(rb"<![A-Za-z]")),
    "comment": Kind("have a comment with two hyphens in it, or that begins with > or ->", "6.6", has(COMMENT)),
    "symbol": Kind("have a symbol that is not ASCII beside delimiters", "6.2", has_symbol),
    "runs": Kind("have runs of _ that are not all as long", "6.2, rules 9 and 10", has_runs),
    "label": Kind("have a label of white space", "6.3", has(rb"\]\[[ \t\r\n]+\]")),
    "escape": Kind("have an escaped & in a destination or title", "2.4", has(rb"\\&")),
    "backticks": Kind("have a backtick string of more than 1,000 bytes", "6.1", has(rb"`{1001}")),
}


def kind_of(text):
    """The way in which a block with this text is known to differ, or None."""
    return next((name for name, kind in KINDS.items() if kind.fits(text)), None)
