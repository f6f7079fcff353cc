"""The HTML of a page. Sections in brackets are those of CommonMark 0.31.2."""
from __future__ import annotations

from ctypes import addressof
from typing import Any, Callable, Iterable, Literal, Optional, overload

from . import _c
from ._library import writer
from ._pages import Buffer, Page, check_text, flag, stated_of, text_for, unchanged
from ._views import views_of
from .extensions import built_bits_of

#: The schemes that addresses may have where none are named.
DEFAULT_SCHEMES = ("http", "https", "mailto", "tel")
#: What is written of raw HTML: its text, or nothing.
RawHtml = Literal["escaped", "omitted"]

_RAW_HTML = {"escaped": _c.RAW_HTML_ESCAPED, "omitted": _c.RAW_HTML_OMITTED}
_html: Callable[..., tuple[Any, bytes]] = writer("html")
_html_with: Callable[..., tuple[Any, bytes]] = writer("html_with")
_html_unsafe: Callable[..., tuple[Any, bytes]] = writer("html_unsafe")


@overload
def html(
    data: str,
    at: int = 0,
    end: Optional[int] = None,
    *,
    extensions: Iterable[str] = (),
    schemes: Iterable[str] = DEFAULT_SCHEMES,
    raw_html: RawHtml = "escaped",
    rel: bool = True,
    images_as_links: bool = False,
    strict: bool = False,
) -> str: ...
@overload
def html(
    data: Buffer,
    at: int = 0,
    end: Optional[int] = None,
    *,
    extensions: Iterable[str] = (),
    schemes: Iterable[str] = DEFAULT_SCHEMES,
    raw_html: RawHtml = "escaped",
    rel: bool = True,
    images_as_links: bool = False,
    strict: bool = False,
) -> bytes: ...
def html(
    data: Page,
    at: int = 0,
    end: Optional[int] = None,
    *,
    extensions: Iterable[str] = (),
    schemes: Iterable[str] = DEFAULT_SCHEMES,
    raw_html: RawHtml = "escaped",
    rel: bool = True,
    images_as_links: bool = False,
    strict: bool = False,
) -> Any:
    r"""The HTML of a page, safe for pages by people who are not trusted: raw HTML is written as text, links and images lead to
    addresses that are relative or have one of the schemes http, https, mailto and tel, others being written as empty, and links say
    `rel="nofollow noopener"`. All else is as the examples of CommonMark have it.

    `extensions` has names: "tables", "strikethrough", "tasks" and "wikilinks". ValueError for another name, and for "footnotes" and
    "definition-lists", of which HTML is not built yet. Bytes that are not UTF-8 are read with U+FFFD in the place of each part that is
    wrong, as `bytes.decode` has it with `errors="replace"`; with `strict` they are a NotUtf8Error. (3 to 6)

    The others ask for other HTML, which is as safe. `schemes` are those that addresses may have, without a colon; of none relative
    addresses are written alone. Of raw HTML nothing is written where `raw_html` is "omitted". Without `rel` links say nothing of where
    they lead. With `images_as_links` an image is written as a link to it, whose text is its description, and in a link as that text
    alone.

    >>> html("# A\n<b> [c](javascript:d)")
    '<h1>A</h1>\n<p>&lt;b&gt; <a href="" rel="nofollow noopener">c</a></p>\n'
    >>> html("~~a~~", extensions=["strikethrough"])
    '<p><del>a</del></p>\n'
    >>> html("a<b> <ftp://c>", raw_html="omitted", schemes=[*DEFAULT_SCHEMES, "ftp"], rel=False)
    '<p>a <a href="ftp://c">ftp://c</a></p>\n'
    >>> html("![a](b)", images_as_links=True)
    '<p><a href="b" rel="nofollow noopener">a</a></p>\n'
    >>> html(b"a\xe2\x82").decode()
    '<p>a\ufffd</p>\n'
    >>> html(b"a\xe2\x82", strict=True)
    Traceback (most recent call last):
    fillaqut.errors.NotUtf8Error: the text is not UTF-8: the byte at index 1 is wrong
    """
    bits, write = html_asked(extensions, schemes, raw_html, rel, images_as_links, strict)
    return html_made(bits, write, data, at, end)


def html_asked(
    extensions: Iterable[str], schemes: Iterable[str], raw_html: RawHtml, rel: bool, images_as_links: bool, strict: bool
) -> tuple[int, Callable[..., tuple[Any, bytes]]]:
    """The bits of the extensions that are asked for, and what writes HTML with this setting."""
    bits = built_bits_of(extensions)
    if schemes is DEFAULT_SCHEMES and raw_html == "escaped" and rel is True and images_as_links is False and strict is False:
        return bits, _html
    return bits, _Asked(schemes, raw_html, rel, images_as_links, strict).html


class _Asked:
    """What HTML is written with, as C has it, and what has to live as long as this is used."""

    def __init__(self, schemes: Iterable[str], raw_html: str, rel: bool, images_as_links: bool, strict: bool) -> None:
        views, held = views_of("schemes", schemes)
        if len(views) == 0:
            views, held = views_of("schemes", [""])  # no address has this one
        if raw_html not in _RAW_HTML:
            raise ValueError(f"raw_html is {raw_html!r}, and not one of {', '.join(_RAW_HTML)}")
        self._held = [views, held]
        self._setting = _c.HtmlSetting(
            schemes=addressof(views),
            scheme_count=len(views),
            raw_html=_RAW_HTML[raw_html],
            rel=_c.REL_NOFOLLOW if flag("rel", rel) else _c.REL_NONE,
            images_as_links=flag("images_as_links", images_as_links),
            strict=flag("strict", strict),
        )

    def html(self, address: int, length: int, bits: int, room: int) -> tuple[Any, bytes]:
        return _html_with(address, length, bits, addressof(self._setting), room)


@overload
def html_unsafe(
    data: str, at: int = 0, end: Optional[int] = None, *, extensions: Iterable[str] = (), strict: bool = False
) -> str: ...
@overload
def html_unsafe(
    data: Buffer, at: int = 0, end: Optional[int] = None, *, extensions: Iterable[str] = (), strict: bool = False
) -> bytes: ...
def html_unsafe(
    data: Page, at: int = 0, end: Optional[int] = None, *, extensions: Iterable[str] = (), strict: bool = False
) -> Any:
    r"""The HTML of a page as the examples of CommonMark write it: raw HTML stands in it as it is, and links lead anywhere. It is for
    text of one's own, and `html` for text by others. `strict` is as of `html`. (3 to 6)

    >>> html_unsafe(b"<b>")
    b'<b>\n'
    """
    bits = built_bits_of(extensions)
    if flag("strict", strict):
        check_text(data, at, end)
    return html_made(bits, _html_unsafe, data, at, end)


def html_made(bits: int, write: Callable[..., tuple[Any, bytes]], data: Page, at: int = 0, end: Optional[int] = None) -> Any:
    """What is written of a page, as a str of a str."""
    address, length, _held = unchanged(data, at, end)
    found, made = write(address, length, bits, 3 * length + 256)
    if found.status:
        stated_of(found.status, data, at, end)
    return text_for(data, made)
