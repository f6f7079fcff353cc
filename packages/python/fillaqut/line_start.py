"""A place in a line that is read column by column. Sections in brackets are those of CommonMark 0.31.2."""
from __future__ import annotations

from ctypes import addressof
from enum import IntEnum
from operator import index
from typing import Any, Callable, Generic, NamedTuple, Optional, overload

from . import _c
from ._library import function
from ._pages import Buffer, Made, Page, front, number
from .errors import stated

_line_space: Callable[..., int] = function("line_space")
_line_space_up_to: Callable[..., _c.Columns] = function("line_space_up_to")
_line_all_space: Callable[..., int] = function("line_all_space")
_line_is_at_end: Callable[..., int] = function("line_is_at_end")
_line_quote: Callable[..., int] = function("line_quote")
_line_list: Callable[..., _c.LineItem] = function("line_list")
_line_definition: Callable[..., _c.Columns] = function("line_definition")
_line_task: Callable[..., _c.Task] = function("line_task")
_line_alert: Callable[..., _c.Alert] = function("line_alert")


class ListMarker(NamedTuple):
    """A list item's marker."""

    delimiter: int  #: the byte `-`, `+` or `*`; `.` or `)` of an ordered item
    start: int  #: the number of an ordered item, else 0
    indent: int  #: columns of what the item holds


class AlertKind(IntEnum):
    """The kinds of alerts."""

    NOTE = _c.ALERT_NOTE
    TIP = _c.ALERT_TIP
    IMPORTANT = _c.ALERT_IMPORTANT
    WARNING = _c.ALERT_WARNING
    CAUTION = _c.ALERT_CAUTION


class LineStart(Generic[Made]):
    r"""A place in a line, whose tabs go to stops of four columns. The line begins at the place that is given; the bytes may go on
    after it. A buffer is held as long as this lives: it can't be resized or closed.

    >>> start = LineStart(b">\t- item")
    >>> start.quote(), start.upto(4), start.list_item(2)
    (True, 2, ListMarker(delimiter=45, start=0, indent=4))
    >>> start
    <LineStart from 0 to 8, at place 4>
    """

    _given: tuple[int, int, int]  # the bytes, which stay where they are, and the address of the numbers

    @overload
    def __init__(self: LineStart[str], data: str, at: int = 0, end: Optional[int] = None) -> None: ...
    @overload
    def __init__(self: LineStart[bytes], data: Buffer, at: int = 0, end: Optional[int] = None) -> None: ...
    def __init__(self, data: Page, at: int = 0, end: Optional[int] = None) -> None:
        address, length, self._front = front(data, at, end)
        self.data = self._kept = data
        self.begin, self.end = index(at), len(data) if end is None else index(end)
        self._numbers = numbers = _c.LineStart()
        self._given = address, length, addressof(numbers)

    def __copy__(self) -> LineStart[Made]:
        made: LineStart[Made] = object.__new__(type(self))
        made.__dict__.update(self.__dict__)
        made._count(_c.LineStart.from_buffer_copy(self._numbers))
        return made

    def _count(self, numbers: _c.LineStart) -> None:
        """Goes on from these numbers."""
        address, length, _ = self._given
        self._numbers, self._given = numbers, (address, length, addressof(numbers))

    def __reduce__(self) -> tuple[Any, ...]:
        numbers = tuple(getattr(self._numbers, name) for name in _NAMES)
        return _made_again, (type(self), self.data, self.begin, self.end, numbers)

    def __eq__(self, other: object) -> bool:
        """Whether both are at the same place of the same line, with the same columns before and after it."""
        return isinstance(other, LineStart) and self._state() == other._state()

    def _state(self) -> tuple[Any, ...]:
        numbers = self._numbers
        return numbers.place, numbers.pending, numbers.phase, self.begin, self.end, type(self.data), self.data

    def __repr__(self) -> str:
        pending = f", {self.pending} columns pending" if self.pending else ""
        return f"<LineStart from {self.begin} to {self.end}, at place {self.place}{pending}>"

    def copy(self) -> LineStart[Made]:
        """A copy, which goes on by itself.

        >>> start = LineStart(b"> a")
        >>> other = start.copy()
        >>> start.quote(), start.place, other.place
        (True, 2, 0)
        """
        return self.__copy__()

    @property
    def place(self) -> int:
        r"""The place in the bytes that is reached.

        >>> LineStart(b"a\nb", 2).place
        2
        """
        return self._front + self._numbers.place

    @property
    def pending(self) -> int:
        r"""Columns of the last tab that have not been taken.

        >>> start = LineStart(b"\ta")
        >>> start.space(1), start.pending
        (True, 3)
        """
        return self._numbers.pending

    def space(self, count: int) -> bool:
        """Takes so many columns of space, or fewer where there are fewer: whether there were as many. (2.2)

        >>> LineStart(b"  a").space(2), LineStart(b"  a").space(3)
        (True, False)
        """
        return stated(_line_space(*self._given, number("count", count)))

    def upto(self, count: int) -> int:
        """Takes at most so many columns of space, and answers how many. (2.2)

        >>> LineStart(b"  a").upto(4)
        2
        """
        found = _line_space_up_to(*self._given, number("count", count))
        stated(found.status)
        return found.columns

    def all_space(self) -> None:
        r"""Drops pending columns and passes all spaces and tabs, each as one column.

        >>> start = LineStart(b" \t a")
        >>> start.all_space()
        >>> start.place
        3
        """
        stated(_line_all_space(*self._given))

    def eol(self) -> bool:
        r"""Whether the line ends there. Pending columns are looked past.

        >>> LineStart(b"\n").eol(), LineStart(b"a").eol()
        (True, False)
        """
        return stated(_line_is_at_end(*self._given))

    def quote(self) -> bool:
        """Passes a block quote marker and at most one column of space. (5.1)

        >>> LineStart(b"> a").quote(), LineStart(b"a").quote()
        (True, False)
        """
        return stated(_line_quote(*self._given))

    def list_item(self, indent: int) -> Optional[ListMarker]:
        """Passes a list item's marker at an indent of so many columns, and the columns that belong to it; None also where a
        thematic break begins. TooLargeError where the indent is. (5.2)

        >>> LineStart(b"10) a").list_item(0)
        ListMarker(delimiter=41, start=10, indent=4)
        >>> LineStart(b"* * *").list_item(0)
        """
        found = _line_list(*self._given, number("indent", indent))
        return ListMarker(found.delimiter, found.start, found.indent) if stated(found.status) else None

    def definition(self, indent: int) -> Optional[int]:
        """Passes a definition's marker at an indent of so many columns: the indent of what it holds. TooLargeError where the indent
        is. (An extension of pulldown-cmark)

        >>> LineStart(b": a").definition(0)
        2
        """
        found = _line_definition(*self._given, number("indent", indent))
        return found.columns if stated(found.status) else None

    def task(self) -> Optional[bool]:
        """Passes a task list item's box: whether it is checked. (GitHub Flavored Markdown 0.29, 5.3)

        >>> LineStart(b"[x] a").task(), LineStart(b"[ ] a").task(), LineStart(b"a").task()
        (True, False, None)
        """
        found = _line_task(*self._given)
        return bool(found.checked) if stated(found.status) else None

    def alert(self) -> Optional[AlertKind]:
        r"""Passes the line of an alert. (An extension of GitHub)

        >>> LineStart(b"[!tip]\n").alert()
        <AlertKind.TIP: 2>
        """
        found = _line_alert(*self._given)
        return AlertKind(found.kind) if stated(found.status) else None


_NAMES = tuple(name for name, *_ in _c.LineStart._fields_)


def _made_again(kind: type[LineStart[Made]], data: Any, begin: int, end: int, numbers: tuple[int, ...]) -> LineStart[Made]:
    made = kind(data, begin, end)
    made._count(_c.LineStart(*numbers))
    return made
