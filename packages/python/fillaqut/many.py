"""The HTML of many pages, made in several threads."""
from __future__ import annotations

import os
from collections import deque
from concurrent.futures import Future, ThreadPoolExecutor
from functools import partial
from typing import Any, Callable, Iterable, Iterator, Optional, overload

from ._library import UNLOCKED
from ._pages import Buffer, Page, check_several, view_of, whole_number
from .errors import RefusalError
from .page_html import DEFAULT_SCHEMES, RawHtml, html_asked, html_made

_AHEAD = 2  #: so many pages are taken for each thread, before the first one of them is returned


@overload
def html_many(
    pages: Iterable[str],
    *,
    threads: Optional[int] = None,
    extensions: Iterable[str] = (),
    schemes: Iterable[str] = DEFAULT_SCHEMES,
    raw_html: RawHtml = "escaped",
    rel: bool = True,
    images_as_links: bool = False,
    strict: bool = False,
) -> Iterator[str]: ...
@overload
def html_many(
    pages: Iterable[Buffer],
    *,
    threads: Optional[int] = None,
    extensions: Iterable[str] = (),
    schemes: Iterable[str] = DEFAULT_SCHEMES,
    raw_html: RawHtml = "escaped",
    rel: bool = True,
    images_as_links: bool = False,
    strict: bool = False,
) -> Iterator[bytes]: ...
def html_many(
    pages: Iterable[Page],
    *,
    threads: Optional[int] = None,
    extensions: Iterable[str] = (),
    schemes: Iterable[str] = DEFAULT_SCHEMES,
    raw_html: RawHtml = "escaped",
    rel: bool = True,
    images_as_links: bool = False,
    strict: bool = False,
) -> Iterator[Any]:
    r"""The HTML of many pages, each as `html` has it with this setting, in order. So many threads make it, and as many as there are
    processors that may be used where none are named. Two pages for each thread are taken ahead, and no more, so that the pages may
    come from an iterator that reads them.

    A page that is refused ends it: the exception is that of `html`, and its `page` is the index of that page; another exception, as
    a TypeError of what is no page, has a note of it. (3 to 6)

    >>> list(html_many(["# A", "*b*"], threads=2))
    ['<h1>A</h1>\n', '<p><em>b</em></p>\n']
    >>> list(html_many([b"a", b"b\xff"], strict=True))
    Traceback (most recent call last):
    fillaqut.errors.NotUtf8Error: page 1: the text is not UTF-8: the byte at index 1 is wrong
    """
    check_several("pages", pages, "pages")
    count = _processors() if threads is None else whole_number("threads", threads)
    if count < 1:
        raise ValueError(f"threads is {threads}, and not 1 or more")
    return _in_order(pages, count, partial(html_made, *html_asked(extensions, schemes, raw_html, rel, images_as_links, strict)))


def _processors() -> int:
    """How many processors may be used."""
    if hasattr(os, "sched_getaffinity"):
        return len(os.sched_getaffinity(0))
    return os.cpu_count() or 1


def _in_order(pages: Iterable[Page], threads: int, make: Callable[[Page], Any]) -> Iterator[Any]:
    """What is made of each page."""
    made: deque[Callable[[], Any]] = deque()
    with ThreadPoolExecutor(threads) as executor:
        try:
            for index, page in enumerate(map(_kept, pages)):
                made.append(_begun(executor, partial(_named, make, index, page), page))
                if len(made) >= _AHEAD * threads:
                    yield made.popleft()()
            while made:
                yield made.popleft()()
        finally:
            executor.shutdown(cancel_futures=True)


def _kept(page: Page) -> Page:
    """The page, or a copy of a buffer, which may change before it is read."""
    if isinstance(page, (str, bytes)):
        return page
    try:
        return bytes(view_of(page))
    except TypeError:
        return page  # which is refused in its turn


def _begun(executor: ThreadPoolExecutor, make: Callable[[], Any], page: Page) -> Callable[[], Any]:
    """What answers the HTML of the page: a thread makes it meanwhile, or of a short page, of which no thread gives up the lock, it is made
    when it is asked for."""
    if isinstance(page, (str, bytes)) and len(page) < UNLOCKED:
        return make
    future: Future[Any] = executor.submit(make)
    return future.result


def _named(make: Callable[[Page], Any], index: int, page: Page) -> Any:
    """What is made of the page, whose index is named where it is refused."""
    try:
        return make(page)
    except RefusalError as why:
        why.page = index
        raise
    except Exception as why:
        why.add_note(f"of page {index}")
        raise
