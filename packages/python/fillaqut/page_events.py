"""The events of a page. Sections in brackets are those of CommonMark 0.31.2."""
from __future__ import annotations

import struct
from array import array
from ctypes import string_at
from enum import IntEnum
from functools import cached_property
from typing import Any, Callable, Generic, Iterable, Iterator, NamedTuple, Optional, overload

from . import _c
from ._library import FAST, address_of, function, unwritten
from ._pages import Buffer, InText, Made, Page, limits, stated_of, unchanged
from .blocks import Alignment
from .extensions import built_bits_of

_events: Callable[..., _c.Events] = function("events")
_RECORD = struct.Struct("<3I4x9Q")  # struct mds_event
_KIND, _ELEMENT = 0, 4  # the bytes of a record that are these, whose numbers are below 256
_START, _STOP, _WORDS = 3, 4, _RECORD.size // 8  # the words that are these, and how many a record has


class EventKind(IntEnum):
    """What an event is."""

    START = _c.EVENT_START  #: an element begins
    END = _c.EVENT_END  #: the element ends that has begun last, of those that have not ended
    TEXT = _c.EVENT_TEXT  #: text, its escapes and references resolved; of code and HTML blocks as it is
    CODE = _c.EVENT_CODE  #: a code span (6.1)
    HTML = _c.EVENT_HTML  #: a line of an HTML block (4.6)
    INLINE_HTML = _c.EVENT_INLINE_HTML  #: raw HTML in a text (6.6)
    SOFT_BREAK = _c.EVENT_SOFT_BREAK  #: a line ending in a paragraph (6.8)
    HARD_BREAK = _c.EVENT_HARD_BREAK  #: a line ending that is kept (6.7)
    RULE = _c.EVENT_RULE  #: a thematic break (4.1)
    TASK = _c.EVENT_TASK  #: the box of a list item (GitHub Flavored Markdown 0.29, 5.3)


class Element(IntEnum):
    """What begins or ends."""

    PARAGRAPH = _c.ELEMENT_PARAGRAPH  #: (4.8)
    HEADING = _c.ELEMENT_HEADING  #: (4.2, 4.3)
    QUOTE = _c.ELEMENT_QUOTE  #: a block quote (5.1)
    CODE_BLOCK = _c.ELEMENT_CODE_BLOCK  #: (4.4, 4.5)
    HTML_BLOCK = _c.ELEMENT_HTML_BLOCK  #: (4.6)
    LIST = _c.ELEMENT_LIST  #: (5.3)
    ITEM = _c.ELEMENT_ITEM  #: (5.2)
    TABLE = _c.ELEMENT_TABLE  #: (GitHub Flavored Markdown 0.29, 4.10)
    TABLE_HEAD = _c.ELEMENT_TABLE_HEAD  #: the first row of a table
    TABLE_ROW = _c.ELEMENT_TABLE_ROW  #: each later row
    TABLE_CELL = _c.ELEMENT_TABLE_CELL
    EMPHASIS = _c.ELEMENT_EMPHASIS  #: (6.2)
    STRONG = _c.ELEMENT_STRONG  #: (6.2)
    STRIKETHROUGH = _c.ELEMENT_STRIKETHROUGH  #: (GitHub Flavored Markdown 0.29, 6.5)
    LINK = _c.ELEMENT_LINK  #: (6.3, 6.5)
    IMAGE = _c.ELEMENT_IMAGE  #: (6.4)


class LinkKind(IntEnum):
    """How a link or an image is written."""

    INLINE = _c.LINK_INLINE  #: with a destination and perhaps a title in parentheses (6.3)
    REFERENCE = _c.LINK_REFERENCE  #: with a label in brackets
    COLLAPSED = _c.LINK_COLLAPSED  #: with `[]`
    SHORTCUT = _c.LINK_SHORTCUT  #: with neither
    AUTOLINK = _c.LINK_AUTOLINK  #: an absolute URI in angle brackets (6.5)
    EMAIL = _c.LINK_EMAIL  #: an email address in angle brackets, its destination without `mailto:` (6.5)
    WIKI = _c.LINK_WIKI  #: `[[target]]`
    WIKI_PIPED = _c.LINK_WIKI_PIPED  #: `[[target|text]]`


class Target(NamedTuple, Generic[Made]):
    """Where a link or an image leads."""

    kind: LinkKind
    destination: Made  #: its escapes and references resolved
    title: Made  #: the same; empty where there is none
    label: Made  #: of a reference its label, as it is written, else empty


class Event(NamedTuple, Generic[Made]):
    """An event, and where its source stands: both events of an element have the place of the whole."""

    kind: EventKind
    start: int  #: the place in the page where its source begins
    stop: int  #: the place after it
    element: Optional[Element]  #: what begins or ends
    text: Optional[Made]  #: of a text, code or HTML; of a fenced code block that begins its info string
    level: int  #: of a heading 1 to 6, else 0
    number: Optional[int]  #: of an ordered list that begins the number of its first item
    alignments: tuple[Alignment, ...]  #: of a table that begins, one for each column
    target: Optional[Target[Made]]  #: of a link or an image that begins
    checked: bool  #: of a task, whether its box is checked
    is_ordered: bool  #: of a list that begins or ends, whether it is an ordered one


_KINDS = {int(kind): kind for kind in EventKind}
_ELEMENTS = {int(element): element for element in Element}
_LINK_KINDS = {int(kind): kind for kind in LinkKind}
_ALIGNMENTS = tuple(Alignment)
_WITH_TEXT = frozenset({_c.EVENT_TEXT, _c.EVENT_CODE, _c.EVENT_HTML, _c.EVENT_INLINE_HTML})


class EventColumns(Generic[Made]):
    """The events of a page in columns, to go through many of them in less time; and each one of them, `columns[index]`, as `events`
    has it."""

    kinds: bytes  #: of each event its `EventKind`
    elements: bytes  #: the `Element` that begins or ends, else 0
    starts: array[int]  #: the place in the page where its source begins
    stops: array[int]  #: the place after it

    def __init__(self, records: memoryview, texts: memoryview, is_str: bool) -> None:
        self._records, self._texts, self._is_str = records, texts, is_str
        self.kinds, self.elements, self.starts, self.stops = _split(records)

    def __len__(self) -> int:
        return len(self.kinds)

    def __iter__(self) -> Iterator[Event[Made]]:
        return map(self._event, _RECORD.iter_unpack(self._records), self.starts, self.stops)

    def __getitem__(self, index: int) -> Event[Made]:
        at = range(len(self))[index]
        return self._event(_RECORD.unpack_from(self._records, at * _RECORD.size), self.starts[at], self.stops[at])

    @cached_property
    def _event(self) -> Callable[[tuple[int, ...], int, int], Event[Made]]:
        """What makes an event of its record and its place."""
        return _event_of(_sliced(self._texts.tobytes(), self._is_str))

    def _count_characters(self, source: tuple[int, int], first: int) -> None:
        """Puts the places of characters in the place of those of bytes of this source, the address and the length of its UTF-8, and as
        many more as the first place says."""
        if FAST:
            for column in (self.starts, self.stops):
                FAST.count_characters(*source, *column.buffer_info(), first)
        else:
            counted = _characters(string_at(*source), sorted({*self.starts, *self.stops}), first)
            self.starts, self.stops = [array("Q", map(counted.__getitem__, column)) for column in (self.starts, self.stops)]


@overload
def event_columns(data: str, at: int = 0, end: Optional[int] = None, *, extensions: Iterable[str] = ()) -> EventColumns[str]: ...
@overload
def event_columns(data: Buffer, at: int = 0, end: Optional[int] = None, *, extensions: Iterable[str] = ()) -> EventColumns[bytes]: ...
def event_columns(data: Page, at: int = 0, end: Optional[int] = None, *, extensions: Iterable[str] = ()) -> EventColumns[Any]:
    r"""The events of a page, as `events` has them, in columns of numbers: the kinds of all, their elements, and where they start and
    stop. (3 to 6)

    >>> columns = event_columns("# A\n\n*b*")
    >>> columns.kinds.count(EventKind.TEXT), columns.elements.count(Element.HEADING)
    (2, 2)
    >>> [(start, stop) for kind, start, stop in zip(columns.kinds, columns.starts, columns.stops) if kind == EventKind.TEXT]
    [(2, 3), (6, 7)]
    >>> len(columns), columns[1].text
    (8, 'A')
    """
    bits = built_bits_of(extensions)
    address, length, origin = unchanged(data, at, end)
    count, size = length // 8 + 64, length + 64
    while True:
        records, texts = unwritten(count * _RECORD.size), unwritten(size)
        found = _events(address, length, bits, address_of(records), count, address_of(texts), size)
        if found.status != _c.TOO_SHORT:
            break
        count, size = found.count, found.length + 1  # an empty buffer may have no address
    stated_of(found.status, data, at, end)
    made: EventColumns[Any] = EventColumns(
        memoryview(records)[: found.count * _RECORD.size], memoryview(texts)[: found.length], isinstance(data, str)
    )
    first = limits(data, at, end)[0]
    if isinstance(origin, InText):
        made._count_characters((address, length), first)
    elif first:
        made.starts, made.stops = [array("Q", map(first.__add__, column)) for column in (made.starts, made.stops)]
    return made


@overload
def events(data: str, at: int = 0, end: Optional[int] = None, *, extensions: Iterable[str] = ()) -> Iterator[Event[str]]: ...
@overload
def events(data: Buffer, at: int = 0, end: Optional[int] = None, *, extensions: Iterable[str] = ()) -> Iterator[Event[bytes]]: ...
def events(data: Page, at: int = 0, end: Optional[int] = None, *, extensions: Iterable[str] = ()) -> Iterator[Any]:
    r"""The events of a page, in order: where each element begins and ends, and what stands in it. Each that begins ends, and they nest;
    so do their places in the page, which are those of characters of a `str`, and else of bytes. `extensions` is as of `html`.
    NotUtf8Error. (3 to 6)

    >>> [(event.kind.name, event.start, event.stop) for event in events("é *a*")][:4]
    [('START', 0, 5), ('TEXT', 0, 2), ('START', 2, 5), ('TEXT', 3, 4)]
    >>> [event.text for event in events("# A\n\nb\\*`c`") if event.text is not None]
    ['A', 'b', '*', 'c']
    >>> next(event.target for event in events("[a](/b 'c')") if event.target)
    Target(kind=<LinkKind.INLINE: 1>, destination='/b', title='c', label='')
    >>> [event.level for event in events("## a\nb") if event.element == Element.HEADING]
    [2, 2]
    """
    return iter(event_columns(data, at, end, extensions=extensions))


def _sliced(texts: bytes, is_str: bool) -> Callable[[int, int], Any]:
    """What answers so many bytes of the texts from a byte on, as a `str` where it is to be one."""
    if is_str and not texts.isascii():
        return lambda start, length: texts[start : start + length].decode()
    whole = texts.decode() if is_str else texts
    return lambda start, length: whole[start : start + length]


def _split(records: memoryview) -> tuple[bytes, bytes, array[int], array[int]]:
    """The columns of records: kinds, elements, starts and stops, in bytes."""
    count = len(records) // _RECORD.size
    if FAST:
        kinds, elements, starts, stops = unwritten(count), unwritten(count), array("Q", [0]) * count, array("Q", [0]) * count
        columns = address_of(kinds), address_of(elements), starts.buffer_info()[0], stops.buffer_info()[0]
        FAST.split_events(address_of(records), count, *columns)
        return kinds, elements, starts, stops
    kinds, elements = [records[byte :: _RECORD.size].tobytes() for byte in (_KIND, _ELEMENT)]
    starts, stops = [array("Q", records.cast("Q")[word::_WORDS].tobytes()) for word in (_START, _STOP)]
    return kinds, elements, starts, stops


def _characters(source: bytes, places: list[int], first: int) -> dict[int, int]:
    """How many characters stand before each of these places, which rise, and so many more."""
    before, last = first, 0
    found: dict[int, int] = {}
    for place in places:
        before, last = before + len(source[last:place].decode()), place
        found[place] = before
    return found


def _event_of(words: Callable[[int, int], Any]) -> Callable[[tuple[int, ...], int, int], Event[Any]]:
    """What makes an event of its record and its place."""

    def made(row: tuple[int, ...], start: int, stop: int) -> Event[Any]:
        kind, element, detail, number = row[:4]
        text = words(row[6], row[7]) if kind in _WITH_TEXT else None
        if kind != _c.EVENT_START:
            level = detail if element == _c.ELEMENT_HEADING else 0
            is_checked, is_ordered = kind == _c.EVENT_TASK and detail == 1, element == _c.ELEMENT_LIST and detail == 1
            return Event(_KINDS[kind], start, stop, _ELEMENTS.get(element), text, level, None, (), None, is_checked, is_ordered)
        level, first, target = 0, None, None
        alignments: tuple[Alignment, ...] = ()
        if element == _c.ELEMENT_HEADING:
            level = detail
        elif element == _c.ELEMENT_CODE_BLOCK and detail:
            text = words(row[6], row[7])
        elif element == _c.ELEMENT_LIST and detail:
            first = number
        elif element == _c.ELEMENT_TABLE:
            alignments = tuple(_ALIGNMENTS[value] for value in _numbers(words(row[6], row[7])))
        elif element in (_c.ELEMENT_LINK, _c.ELEMENT_IMAGE):
            target = Target(_LINK_KINDS[detail], words(row[6], row[7]), words(row[8], row[9]), words(row[10], row[11]))
        return Event(_KINDS[kind], start, stop, _ELEMENTS[element], text, level, first, alignments, target, False, first is not None)

    return made


def _numbers(alignments: Any) -> bytes:
    """The numbers of alignments, which stand among the texts as bytes."""
    return alignments.encode() if isinstance(alignments, str) else bytes(alignments)
