"""The ways in which the links of fillaqut links are known to differ from those of cmark 0.30.2 and cmark-gfm 0.29, each with the section that decides.

Sections are of CommonMark 0.31.2.
"""
import inline_kinds
from inline_kinds import Kind, has

# A definition, and an indented line after it that is another.
LATER_DEFINITION = rb"\]:[^\r\n]*(?:\r\n|[\r\n])[ \t>]*[ \t]\[[^\]]+\]:"


def is_unbalanced(their):
    """That the destination for cmark has an opening parenthesis that none closes."""
    return their is not None and their.leads[0].count(b"(") > their.leads[0].count(b")")


LINES = {**inline_kinds.KINDS, "definition": Kind("have a definition in an indented lazy line after another", "4.7, 5.1", has(LATER_DEFINITION))}
KINDS = {**LINES, "parentheses": Kind("have a destination whose parentheses are not balanced", "6.3", is_unbalanced)}


def kind_of(part, their):
    """The way in which links in this part of a page are known to differ, the first of which is this for cmark, or None."""
    if is_unbalanced(their):
        return "parentheses"
    return next((name for name, kind in LINES.items() if kind.fits(part)), None)
