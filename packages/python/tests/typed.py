"""What a type checker says of calls: packages/python/test has mypy read this, and Python run it."""
from mmap import mmap
from typing import Any, Iterator, Optional, assert_type

import fillaqut as mds


def of_str(page: str) -> None:
    assert_type(mds.unescape(page), str)
    assert_type(mds.label_key(page), str)
    assert_type(mds.scan_entity(page), Optional[mds.Entity[str]])
    assert_type(mds.scan_link_label(page), Optional[mds.Label[str]])
    assert_type(mds.line_rest(mds.LineStart(page)), str)
    assert_type(mds.scan_blocks(page, extensions=["tables"]), Iterator[mds.Block[str]])
    assert_type([block.content() for block in mds.scan_blocks(page)], list[str])
    assert_type(mds.scan_inlines(page, labels=[page], extensions=("strikethrough", "wikilinks")), Iterator[mds.Inline])
    assert_type(mds.events(page, extensions=["tables"]), Iterator[mds.Event[str]])
    assert_type([event.target.title for event in mds.events(page) if event.target], list[str])
    assert_type(mds.event_columns(page), mds.EventColumns[str])
    assert_type(list(mds.event_columns(page).starts), list[int])
    assert_type([event.text for event in mds.event_columns(page)], list[Optional[str]])
    assert_type(mds.html_many([page], threads=2, rel=False), Iterator[str])
    assert_type(mds.html(page, extensions=["tables"], schemes=[*mds.DEFAULT_SCHEMES, "ftp"], raw_html="omitted"), str)


def of_bytes(page: bytes) -> None:
    assert_type(mds.unescape(page), bytes)
    assert_type(mds.scan_entity(page), Optional[mds.Entity[bytes]])
    assert_type(mds.scan_html_tag_over_lines(page, skips=mds.Skips(page)), Optional[mds.Tag[bytes]])
    assert_type(mds.line_rest(mds.LineStart(page)), bytes)
    assert_type([block.content() for block in mds.scan_blocks(page)], list[bytes])
    assert_type([block.containers for block in mds.scan_blocks(page)], list[tuple[mds.Container, ...]])
    assert_type([event.text for event in mds.events(page)], list[Optional[bytes]])
    raw_html: mds.RawHtml = "escaped"
    assert_type(mds.html(page, raw_html=raw_html, rel=False, images_as_links=True), bytes)
    assert_type(mds.html_unsafe(page), bytes)
    assert_type(mds.html_many(iter([page]), extensions=["tables"]), Iterator[bytes])
    assert_type(mds.event_columns(page, extensions=["tables"]).kinds, bytes)


def of_pieces(pieces: list[bytes]) -> None:
    assert_type(mds.read_blocks(pieces, extensions={"footnotes", "definition-lists"}), Iterator[mds.Block[bytes]])
    assert_type(mds.BlockReader(extensions=["tables"]).feed(pieces[0]), list[mds.Block[bytes]])


def of_pieces_of_text(pieces: list[str]) -> None:
    assert_type(mds.read_blocks(pieces), Iterator[mds.Block[str]])
    assert_type(mds.BlockReader().feed("a"), list[mds.Block[str]])
    assert_type(mds.BlockReader().close(), list[mds.Block[Any]])


def of_buffers(buffer: bytearray, view: memoryview, mapped: mmap) -> None:
    assert_type(mds.unescape(buffer), bytes)
    assert_type(mds.label_key(view), bytes)
    assert_type(mds.lines(mapped), Iterator[mds.Line])


def of_places(page: mds.Page) -> None:
    assert_type(mds.scan_line(page), int)
    assert_type(mds.scan_eol(page), Optional[int])
    assert_type(mds.scan_link_dest(page), Optional[mds.Part])
    assert_type(mds.scan_code_span(page), Optional[mds.Part])
    assert_type(mds.scan_reference_definition(page), Optional[mds.ReferenceDefinition])
    assert_type(mds.scan_delimiter_run(page), Optional[mds.DelimiterRun])
    assert_type(mds.interrupts_paragraph(page), bool)
    assert_type(mds.scan_lists(page, extensions=["footnotes"]), Iterator[mds.ListBlock])
    assert_type(mds.scan_html_block_start(page), Optional[mds.HtmlBlockKind])
    assert_type([line.next for line in mds.lines(page)], list[int])
    assert_type([inline.link for inline in mds.scan_inlines(page)], list[Optional[mds.Link]])
    assert_type([inline.content for inline in mds.scan_inlines(page, labels=(page, "a"))], list[Optional[mds.Span]])


of_str("&amp;")
of_bytes(b"&amp;")
of_places("a")
