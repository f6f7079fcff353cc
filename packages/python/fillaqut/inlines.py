"""The inlines of a text. Sections in brackets are those of CommonMark 0.31.2."""
from __future__ import annotations

from ctypes import addressof
from enum import IntEnum
from typing import Any, Callable, Iterable, Iterator, NamedTuple, Optional

from . import _c
from ._library import function
from ._pages import Page, stated_of, unchanged
from ._views import views_of
from .blocks import Span
from .extensions import bits_of

_scan_inlines: Callable[..., _c.Inlines] = function("scan_inlines")


class InlineKind(IntEnum):
    """What an inline is, or what begins or ends there."""

    TEXT = _c.INLINE_TEXT  #: text; delimiters in no emphasis and brackets of no link are text too (6.9)
    ESCAPE = _c.INLINE_ESCAPE  #: a backslash and the punctuation that it escapes (2.4)
    REFERENCE = _c.INLINE_REFERENCE  #: a character reference (2.5)
    CODE = _c.INLINE_CODE  #: a code span (6.1)
    URI = _c.INLINE_URI  #: an absolute URI in angle brackets (6.5)
    EMAIL = _c.INLINE_EMAIL  #: an email address in angle brackets (6.5)
    HTML = _c.INLINE_HTML  #: raw HTML (6.6)
    SOFT_BREAK = _c.INLINE_SOFT_BREAK  #: a soft line break, with the spaces around it (6.8)
    HARD_BREAK = _c.INLINE_HARD_BREAK  #: a hard line break, with the spaces around it and the backslash that may make it (6.7)
    EMPHASIS = _c.INLINE_EMPHASIS  #: emphasis begins (6.2)
    EMPHASIS_END = _c.INLINE_EMPHASIS_END  #: the innermost emphasis that has begun ends
    STRONG = _c.INLINE_STRONG  #: strong emphasis begins (6.2)
    STRONG_END = _c.INLINE_STRONG_END  #: the innermost strong emphasis that has begun ends
    LINK = _c.INLINE_LINK  #: a link begins (6.3)
    IMAGE = _c.INLINE_IMAGE  #: an image begins (6.4)
    LINK_END = _c.INLINE_LINK_END  #: the innermost link or image that has begun ends
    STRIKETHROUGH = _c.INLINE_STRIKETHROUGH  #: strikethrough begins, where it is asked for
    STRIKETHROUGH_END = _c.INLINE_STRIKETHROUGH_END  #: the innermost strikethrough that has begun ends


class LinkTarget(IntEnum):
    """Where a link or an image leads, by what follows its text (6.3), or as a wikilink."""

    INLINE = _c.TARGET_INLINE  #: a destination and perhaps a title in parentheses
    FULL = _c.TARGET_FULL  #: a label
    COLLAPSED = _c.TARGET_COLLAPSED  #: `[]`; its text is the label
    SHORTCUT = _c.TARGET_SHORTCUT  #: neither; its text is the label
    WIKI = _c.TARGET_WIKI  #: it is a wikilink, whose target stands before its text; one that has no text shows its target


class Link(NamedTuple):
    """A link or an image. Its parts stand there as they are written: `unescape` decodes a destination and a title, and
    `scan_link_label` reads a label at its start."""

    target: LinkTarget  #: where it leads
    end: int  #: the place after all of it
    destination: Optional[Span]  #: of `INLINE` its destination, without angle brackets; of `WIKI` its target, which is not decoded
    title: Optional[Span]  #: of `INLINE` its title, if it has one, without the bytes around it
    label: Optional[Span]  #: of the other targets what stands between the brackets of the label


class Inline(NamedTuple):
    """An inline that holds no others, or where one begins or ends that does."""

    kind: InlineKind
    start: int  #: the place of its first byte
    stop: int  #: the place after its last one; of a link or an image that begins, where its text begins
    content: Optional[Span]  #: of a code span what stands between its backticks; of an autolink its address
    link: Optional[Link]  #: of a link or an image that begins where it leads


_KINDS = tuple(InlineKind)


def scan_inlines(
    data: Page,
    at: int = 0,
    end: Optional[int] = None,
    *,
    labels: Iterable[Page] = (),
    extensions: Iterable[str] = (),
) -> Iterator[Inline]:
    r"""The inlines of a text, in order: of the content of a paragraph or a heading, as `Block.content` has it. Joined, they are the
    text, and they nest: each that begins ends. Text may stand in several, one after another.

    `labels` are those that are defined, each as `scan_link_label` answers it: what refers to a label that matches none of them is
    text. Of `extensions` "strikethrough" and "wikilinks" are read in a text; the other names change nothing. ValueError for a name
    that is none; NotUtf8Error. (6)

    >>> [(inline.kind.name, inline.start) for inline in scan_inlines("*a* [B]", labels=["b"])]
    [('EMPHASIS', 0), ('TEXT', 1), ('EMPHASIS_END', 2), ('TEXT', 3), ('LINK', 4), ('TEXT', 5), ('LINK_END', 6)]
    >>> next(scan_inlines("[a](/b 'c')")).link.destination
    Span(start=4, stop=6)
    >>> [inline.kind.name for inline in scan_inlines("~~a~~", extensions=["strikethrough"])]
    ['STRIKETHROUGH', 'TEXT', 'STRIKETHROUGH_END']
    >>> next(scan_inlines("[[a|b]]", extensions=["wikilinks"])).link.destination
    Span(start=2, stop=3)
    """
    bits = bits_of(extensions)
    address, length, origin = unchanged(data, at, end)
    views, held = views_of("labels", labels)
    count = length // 16 + 8
    while True:
        inlines = (_c.Inline * count)()
        found = _scan_inlines(address, length, addressof(views), len(views), bits, addressof(inlines), count)
        if found.status != _c.TOO_SHORT:
            break
        count = found.count
    named = {f"labels[{at}]": label for at, label in enumerate(held[0])} if found.status == _c.NOT_UTF8 else {}
    del held  # until here the labels have stayed where they are
    stated_of(found.status, data, at, end, **named)
    return (_inline(origin, row) for row in map(inlines.__getitem__, range(found.count)))


def _inline(origin: int, row: Any) -> Inline:
    kind = _KINDS[row.kind]
    start, stop = row.start, row.start + row.length
    content = link = None
    if kind == InlineKind.CODE:
        content = Span(origin + (start + row.count), origin + (stop - row.count))
    elif kind in (InlineKind.URI, InlineKind.EMAIL):
        content = Span(origin + (start + 1), origin + (stop - 1))
    elif kind in (InlineKind.LINK, InlineKind.IMAGE):
        link = _link(origin, row)
    return Inline(kind, origin + start, origin + stop, content, link)


def _link(origin: int, row: Any) -> Link:
    target, end = LinkTarget(row.target), origin + row.end
    destination = _span(origin, row.destination_start, row.destination_length)
    if target == LinkTarget.WIKI:
        return Link(target, end, destination, None, None)
    if target != LinkTarget.INLINE:
        return Link(target, end, None, None, _span(origin, row.label_start, row.label_length))
    title = None if row.title_start == _c.NONE else _span(origin, row.title_start, row.title_length)
    return Link(target, end, destination, title, None)


def _span(origin: int, start: int, length: int) -> Span:
    return Span(origin + start, origin + (start + length))
