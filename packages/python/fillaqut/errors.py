"""Why a call refuses what it is given. A refusal of memory is a MemoryError."""
from __future__ import annotations

from typing import Any, Optional

from . import _c


class RefusalError(Exception):
    """A call has refused what it was given."""

    status: Optional[int] = None
    page: Optional[int] = None  #: of `html_many` the index of the page that was refused

    def __str__(self) -> str:
        said = super().__str__()
        return said if self.page is None else f"page {self.page}: {said}"


class NotUtf8Error(RefusalError, ValueError):
    """The text is not UTF-8; `index` is the offset of its first byte that is wrong, or None of `scan_delimiter_run`, which reads a few."""

    status = _c.NOT_UTF8

    def __init__(self, index: Optional[int] = None, name: str = "the text") -> None:
        super().__init__(f"{name} is not UTF-8" + ("" if index is None else f": the byte at index {index} is wrong"))
        self.index, self.name = index, name

    def __reduce__(self) -> tuple[Any, ...]:
        return type(self), (self.index, self.name), self.__dict__


class LoneSurrogateError(RefusalError, ValueError):
    """A str has half of a surrogate pair, which UTF-8 can't write; `index` is its offset."""

    def __init__(self, index: int) -> None:
        super().__init__(f"the str has half of a surrogate pair at index {index}")
        self.index = index

    def __reduce__(self) -> tuple[Any, ...]:
        return type(self), (self.index,), self.__dict__


class BadSkipsError(RefusalError, ValueError):
    """The table of what is left out is not of this text."""

    status = _c.BAD_SKIPS


class TooLargeError(RefusalError, ValueError):
    """A limit or an indent is so large that columns can't be added to it."""

    status = _c.TOO_LARGE
    run: Any = None  #: of a run: what was found up to there


class EmptyError(RefusalError, ValueError):
    """There are no bytes."""

    status = _c.EMPTY


class StoppedError(RefusalError, ValueError):
    """A run has stopped before its end; `run` has what was found up to there."""

    run: Any = None


class NoOpenerError(StoppedError):
    """No `<!` or `<?` ends at the offset."""

    status = _c.NO_OPENER


class NotRisingError(StoppedError):
    """The place is not above the one before it."""

    status = _c.NOT_RISING


class InsideFindError(StoppedError):
    """The place is inside what was found before it."""

    status = _c.INSIDE_FIND


class SpacePendingError(StoppedError):
    """Columns of a tab are pending, and the call is not one that takes space."""

    status = _c.SPACE_PENDING


# The names of an earlier form, which the next version leaves out.
Refusal, NotUtf8, BadSkips, TooLarge, Empty = RefusalError, NotUtf8Error, BadSkipsError, TooLargeError, EmptyError
Stopped, NoOpener, NotRising, InsideFind = StoppedError, NoOpenerError, NotRisingError, InsideFindError
SpacePending = SpacePendingError

_REFUSALS: dict[int, type[RefusalError]] = {
    _c.BAD_SKIPS: BadSkipsError,
    _c.TOO_LARGE: TooLargeError,
    _c.EMPTY: EmptyError,
    _c.NO_OPENER: NoOpenerError,
    _c.NOT_RISING: NotRisingError,
    _c.INSIDE_FIND: InsideFindError,
    _c.SPACE_PENDING: SpacePendingError,
}


def refusal(status: int) -> Exception:
    """What is raised for a status that is neither an answer nor nothing."""
    if status == _c.NO_MEMORY:
        return MemoryError("memory was refused")
    if status == _c.NOT_UTF8:
        return NotUtf8Error()
    if status not in _REFUSALS:
        return RefusalError(f"status {status}")
    kind = _REFUSALS[status]
    return kind((kind.__doc__ or "").splitlines()[0].rstrip("."))


def stated(status: int) -> bool:
    """Whether there is an answer; a refusal is raised."""
    if status > _c.NOTHING:
        raise refusal(status)
    return status == _c.OK
