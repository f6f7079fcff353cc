"""Many calls in one: on a line start, and of inline HTML. Sections in brackets are those of CommonMark 0.31.2."""
from __future__ import annotations

from ctypes import addressof, c_size_t
from enum import IntEnum
from typing import Any, Callable, Iterable, Optional, TypeVar, Union

from . import _c
from ._library import function, writer
from ._pages import Made, Page, after, kind_of, number, pair, place_in, several, text_for, whole
from .errors import StoppedError, TooLargeError, refusal, stated
from .line_start import LineStart, ListMarker

_run_line: Callable[..., _c.LineRun] = function("run_line")
_line_rest: Callable[..., tuple[Any, bytes]] = writer("line_rest")
_run_inline_html: Callable[..., _c.HtmlRun] = function("run_inline_html")


class CallKind(IntEnum):
    """What a call of a run reads."""

    SPACE = _c.SPACE  #: so many columns of space: whether there were as many
    UPTO = _c.UPTO  #: at most so many columns of space: how many
    EOL = _c.EOL  #: whether the line ends there
    QUOTE = _c.QUOTE  #: a block quote marker: whether there is one
    LIST = _c.LIST  #: a list item's marker at that indent: a ListMarker or None
    DEFINITION = _c.DEFINITION  #: a definition's marker at that indent: the indent of what it holds, or None


LineAnswer = Union[bool, int, ListMarker, None]
Answer = TypeVar("Answer")


def _answer(kind: CallKind, found: _c.LineAnswer) -> LineAnswer:
    if kind == CallKind.UPTO:
        return found.number
    if kind not in (CallKind.LIST, CallKind.DEFINITION):
        return bool(found.found)
    if not found.found:
        return None
    return found.number if kind == CallKind.DEFINITION else ListMarker(found.delimiter, found.start, found.number)


def _checked(start: LineStart[Made]) -> LineStart[Made]:
    if not isinstance(start, LineStart):
        raise TypeError(f"start is of type {type(start).__name__}, and not LineStart")
    return start


def run_line(start: LineStart[Made], calls: Iterable[tuple[int, int]]) -> tuple[LineAnswer, ...]:
    r"""Makes the calls in turn, each a kind and a number, from the line start on, as on the line with its tabs written out to stops
    of four, and leaves it where the run stopped. Before a call that is refused the run stops: SpacePendingError or TooLargeError,
    whose `run` has the answers of the calls before it. (2.2)

    >>> start = LineStart(b">\tx")
    >>> run_line(start, [(CallKind.QUOTE, 0), (CallKind.UPTO, 1)]), start.place, start.pending
    ((True, 1), 2, 1)
    """
    kinds: list[Any] = [_call(*pair("a call", call)) for call in several("calls", calls, "calls")]
    given, answers = (_c.LineCall * len(kinds))(*kinds), (_c.LineAnswer * len(kinds))()
    found = _run_line(*_checked(start)._given, addressof(given), len(kinds), addressof(answers), len(kinds))
    run = tuple(_answer(kind, answer) for (kind, _), answer in zip(kinds, answers[: found.count]))
    return _ended(found.status, run)


def _call(kind: int, value: int) -> tuple[CallKind, int]:
    return kind_of("the kind of a call", CallKind, kind), number("a number of a call", value)


def line_rest(start: LineStart[Made]) -> Made:
    r"""What is left of the bytes from the line start on: its pending columns as spaces, then the bytes from its place on, their
    tabs before a line ending written out. (2.2)

    >>> line_rest(LineStart(b"a\tb\n\tc"))
    b'a   b\n\tc'
    """
    address, length, numbers = _checked(start)._given
    capacity = 4 * (length - start._numbers.place) + start.pending
    found, text = _line_rest(address, length, numbers, capacity)
    stated(found.status)
    rest: Made = text_for(start.data, text)
    return rest


def run_inline_html(data: Page, places: Iterable[int], end: Optional[int] = None) -> tuple[Optional[int], ...]:
    """The offset after what begins at each of the places in turn, or None, as HtmlScanGuard finds them. Before a place that is
    refused the run stops: NoOpenerError, NotRisingError or InsideFindError, whose `run` has the ends that were found before
    it. (6.6)

    >>> run_inline_html(b"<!a> <? <!-- b -->", [2, 7, 10])
    (4, None, 18)
    """
    address, length, _, origin = whole(data, 0, end)
    listed = [min(place_in(data, number("a place", place)), _c.NONE) for place in several("places", places, "places")]
    given, ends = (c_size_t * len(listed))(*listed), (c_size_t * len(listed))()
    found = _run_inline_html(address, length, addressof(given), len(listed), addressof(ends), len(listed))
    return _ended(found.status, tuple(after(origin, offset) for offset in ends[: found.count]))


def _ended(status: int, run: tuple[Answer, ...]) -> tuple[Answer, ...]:
    """The run; or its refusal, which has it."""
    if status in (_c.OK, _c.NOTHING):
        return run
    why = refusal(status)
    if isinstance(why, (StoppedError, TooLargeError)):
        why.run = run
    raise why
