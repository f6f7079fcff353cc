"""Thematic breaks, headings, fences, metadata, definitions and tables at a place. Sections in brackets are those of CommonMark 0.31.2."""
from __future__ import annotations

from enum import IntEnum
from typing import Any, Callable, NamedTuple, Optional

from . import _c
from ._library import ROOM, function, writer
from ._pages import Page, after, flag, front, number, whole
from ._pages import byte as _byte
from .errors import stated
from .line_scanners import Byte

_scan_hrule: Callable[..., _c.Break] = function("scan_hrule")
_scan_atx_heading: Callable[..., int] = function("scan_atx_heading")
_scan_setext_heading: Callable[..., _c.Underline] = function("scan_setext_heading")
_scan_code_fence: Callable[..., _c.Fence] = function("scan_code_fence")
_scan_closing_code_fence: Callable[..., int] = function("scan_closing_code_fence")
_scan_metadata_block: Callable[..., _c.Fence] = function("scan_metadata_block")
_scan_closing_metadata_block: Callable[..., int] = function("scan_closing_metadata_block")
_interrupts_paragraph: Callable[..., bool] = function("interrupts_paragraph")
_scan_reference_definition: Callable[..., _c.ReferenceDefinition] = function("scan_reference_definition")
_scan_table_head: Callable[..., tuple[Any, bytes]] = writer("scan_table_head")


def scan_hrule(data: Page, at: int = 0, end: Optional[int] = None) -> Optional[int]:
    r"""The offset after a thematic break and its line ending. (4.1)

    >>> scan_hrule(b"* * *\na"), scan_hrule(b"* * a")
    (6, None)
    """
    address, length, at = front(data, at, end)
    return after(at, _scan_hrule(address, length).length)


def no_hrule_before(data: Page, at: int = 0, end: Optional[int] = None) -> int:
    """Where no thematic break begins: one begins at no place from this one on and before the answer. (4.1)

    >>> no_hrule_before(b"* * a")
    4
    """
    address, length, at = front(data, at, end)
    return at + _scan_hrule(address, length).none_before


def scan_atx_heading(data: Page, at: int = 0, end: Optional[int] = None) -> Optional[int]:
    """The level of an ATX heading, 1 to 6, which has as many `#`. (4.2)

    >>> scan_atx_heading(b"## a"), scan_atx_heading(b"##a")
    (2, None)
    """
    address, length, _held = front(data, at, end)
    return _scan_atx_heading(address, length) or None


class Underline(NamedTuple):
    """A setext heading's underline."""

    end: int  #: the offset after its line ending
    level: int  #: 1 of `=`, 2 of `-`


def scan_setext_heading(data: Page, at: int = 0, end: Optional[int] = None) -> Optional[Underline]:
    r"""A setext heading's underline. (4.3)

    >>> scan_setext_heading(b"a\n---\n", 2)
    Underline(end=6, level=2)
    """
    address, length, at = front(data, at, end)
    found = _scan_setext_heading(address, length)
    return None if found.length == _c.NONE else Underline(at + found.length, found.level)


class Fence(NamedTuple):
    """A fence, of code or of metadata."""

    end: int  #: the offset after the fence's bytes
    byte: int  #: a backtick or `~` of code; `-` or `+` of metadata


def _fence(found: _c.Fence, at: int) -> Optional[Fence]:
    return None if found.length == _c.NONE else Fence(at + found.length, found.byte)


def scan_code_fence(data: Page, at: int = 0, end: Optional[int] = None) -> Optional[Fence]:
    """An opening code fence, without its info string. (4.5)

    >>> scan_code_fence(b"~~~~ python")
    Fence(end=4, byte=126)
    """
    address, length, at = front(data, at, end)
    return _fence(_scan_code_fence(address, length), at)


def scan_closing_code_fence(
    data: Page, at: int = 0, end: Optional[int] = None, *, byte: Byte, count: int
) -> Optional[int]:
    r"""The offset after the fence that closes one of `count` of the byte, with spaces and tabs after it. At the end of the
    bytes it is that end. (4.5)

    >>> scan_closing_code_fence(b"~~~~ \n", byte="~", count=3), scan_closing_code_fence(b"~~\n", byte="~", count=3)
    (5, None)
    """
    address, length, at = front(data, at, end)
    return after(at, _scan_closing_code_fence(address, length, _byte(byte), number("count", count)))


def scan_metadata_block(
    data: Page, at: int = 0, end: Optional[int] = None, *, yaml: bool, pluses: bool
) -> Optional[Fence]:
    r"""The opening line of a metadata block, of `---` where `yaml` is true and of `+++` where `pluses` is. (An extension of
    pulldown-cmark)

    >>> scan_metadata_block(b"---\na: b\n---\n", yaml=True, pluses=False)
    Fence(end=3, byte=45)
    """
    address, length, at = front(data, at, end)
    return _fence(_scan_metadata_block(address, length, flag("yaml", yaml), flag("pluses", pluses)), at)


def scan_closing_metadata_block(data: Page, at: int = 0, end: Optional[int] = None, *, byte: Byte) -> Optional[int]:
    r"""The offset after what closes a metadata block that was opened by the byte.

    >>> scan_closing_metadata_block(b"...\n", byte="-")
    3
    """
    address, length, at = front(data, at, end)
    return after(at, _scan_closing_metadata_block(address, length, _byte(byte)))


def interrupts_paragraph(data: Page, at: int = 0, end: Optional[int] = None) -> bool:
    """Whether the line can interrupt a paragraph, after at most three columns of indent. (4.8)

    >>> interrupts_paragraph(b"- a"), interrupts_paragraph(b"2. a")
    (True, False)
    """
    address, length, _held = front(data, at, end)
    return _interrupts_paragraph(address, length)


class Span(NamedTuple):
    """Bytes of a page."""

    start: int  #: the place of the first
    stop: int  #: the place after the last


class ReferenceDefinition(NamedTuple):
    """A link reference definition. Its parts stand there as they are written."""

    end: int  #: the place after its last line
    label: Span  #: what stands between the brackets of its label
    destination: Span  #: its destination, without angle brackets
    title: Optional[Span]  #: its title, without what stands around it


def scan_reference_definition(
    data: Page, at: int = 0, end: Optional[int] = None, *, max_next: int = 31
) -> Optional[ReferenceDefinition]:
    r"""A link reference definition, in the content of a paragraph: its lines without the markers of containers and without
    indent. Parentheses may stand in each other `max_next` + 1 deep. (4.7)

    >>> found = scan_reference_definition(b"[a]: <b> 'c'\n")
    >>> found.end, found.destination, found.title
    (13, Span(start=6, stop=7), Span(start=10, stop=11))
    """
    address, length, first, origin = whole(data, at, end)
    found = _scan_reference_definition(address, length, first, number("max_next", max_next))
    if not stated(found.status):
        return None
    label = _span(origin, found.label_start, found.label_length)
    destination = _span(origin, found.destination_start, found.destination_length)
    title = None if found.title_start == _c.NONE else _span(origin, found.title_start, found.title_length)
    return ReferenceDefinition(origin + found.end, label, destination, title)


def _span(origin: int, start: int, length: int) -> Span:
    return Span(origin + start, origin + (start + length))


class Alignment(IntEnum):
    """How a column of a table is aligned."""

    NONE = _c.ALIGN_NONE
    LEFT = _c.ALIGN_LEFT
    CENTER = _c.ALIGN_CENTER
    RIGHT = _c.ALIGN_RIGHT


_ALIGNMENTS = tuple(Alignment)


class TableHead(NamedTuple):
    """The delimiter row of a table."""

    end: int  #: the offset after its line ending
    alignments: tuple[Alignment, ...]  #: of each column


def scan_table_head(data: Page, at: int = 0, end: Optional[int] = None) -> Optional[TableHead]:
    r"""The delimiter row of a table. (GitHub Flavored Markdown 0.29, 4.10)

    >>> scan_table_head(b"|-|:-:|\n").alignments
    (<Alignment.NONE: 0>, <Alignment.CENTER: 2>)
    """
    address, length, at = front(data, at, end)
    found, alignments = _scan_table_head(address, length, ROOM)
    return TableHead(at + found.taken, tuple([_ALIGNMENTS[byte] for byte in alignments])) if stated(found.status) else None
