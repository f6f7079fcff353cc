#![doc = include_str!("../README.md")]
#![no_std]
#![deny(unsafe_code)]

#[cfg(not(all(target_pointer_width = "64", target_endian = "little")))]
compile_error!("fillaqut is for 64-bit machines whose numbers have their lowest byte first");

extern crate alloc;

mod blocks;
mod extensions;
mod inline;
mod inlines;
mod labels;
mod line;
mod page_events;
mod page_html;
mod pages;
#[allow(unsafe_code)]
mod raw;
mod runs;
mod spans;
mod values;

pub use blocks::*;
pub use extensions::Extensions;
pub use inline::*;
pub use inlines::{scan_inlines, Inline, InlineKind, Inlines, Link, LinkTarget};
pub use labels::*;
pub use line::LineStart;
pub use page_events::{CodeBlockKind, Event, OffsetIter, Parser, Tag, TagEnd, Target};
pub use page_html::{html, html_lossy, html_lossy_with, html_unsafe, html_unsafe_lossy, html_with};
pub use page_html::{HtmlSetting, RawHtml, DEFAULT_SCHEMES};
pub use pages::{scan_blocks, scan_lists, Block, BlockKind, BlockReader, Blocks, Container, ListBlock};
pub use raw::Skip;
pub use runs::{line_rest, run_inline_html, run_line, HtmlRun, HtmlStop, LineAnswer, LineCall, LineRun, LineStop};
pub use spans::*;
pub use values::{
    Alignment, BadSkips, BlockQuoteKind, HeadingLevel, HtmlBlockKind, InvalidHeadingLevel, LinkType, ListItem,
};
