//! The functions of `fillaqut.h` over slices: all that is unsafe stands here.
//!
//! The header asks of a caller that a pointer and a length are those of memory that is there, at most `isize::MAX` bytes and
//! aligned, and that nothing that is written overlaps anything else that a call is given. A slice is such memory, and a
//! `&mut` overlaps nothing. What is given is read during the call alone.

use alloc::alloc::handle_alloc_error;
use alloc::vec::Vec;
use core::alloc::Layout;
use core::ffi::c_void;

#[allow(dead_code)] // it has all numbers of the header, and some are for programs in C
pub(crate) mod ffi;

pub(crate) use ffi::{LineStart, Text};

/// What is left out at the front of a line: at `place`, that of the line's first byte, `length` bytes.
#[repr(transparent)]
#[derive(Clone, Copy, Debug, Default, PartialEq, Eq)]
pub struct Skip(ffi::Skip);

impl Skip {
    /// `length` bytes at `place`.
    #[must_use]
    pub const fn new(place: usize, length: usize) -> Self {
        Skip(ffi::Skip { place, length })
    }

    /// The place of the first byte that is left out.
    #[must_use]
    pub const fn place(self) -> usize {
        self.0.place
    }

    /// How many bytes are left out.
    #[must_use]
    pub const fn length(self) -> usize {
        self.0.length
    }
}

/// Ends the process, as it begins or loads the library, where that is of another version than the crate's, or an earlier one.
extern "C" fn check_version() {
    // SAFETY: it is given nothing.
    let returned = unsafe { ffi::mds_version() };
    let fits = returned >= ffi::VERSION && returned >> 16 == ffi::VERSION >> 16;
    assert!(fits, "fillaqut is of version {:#08x}, and its library of {returned:#08x}", ffi::VERSION);
}

/// A shared library may be another one where a program is run than where it was linked.
#[used]
#[cfg_attr(target_vendor = "apple", link_section = "__DATA,__mod_init_func")]
#[cfg_attr(windows, link_section = ".CRT$XCU")]
#[cfg_attr(not(any(target_vendor = "apple", windows)), link_section = ".init_array")]
static CHECKS_VERSION: extern "C" fn() = check_version;

#[inline]
fn front(bytes: &[u8]) -> *const c_void {
    bytes.as_ptr().cast()
}

/// Ends the process as where any other memory is refused.
#[cold]
fn refused() -> ! {
    handle_alloc_error(Layout::new::<usize>())
}

/// Functions of a byte or a character.
macro_rules! of_one {
    ($($name:ident($kind:ty) = $function:ident;)*) => {$(
        #[inline]
        pub(crate) fn $name(one: $kind) -> bool {
            // SAFETY: it is given no pointer.
            unsafe { ffi::$function(one) }
        }
    )*};
}

of_one! {
    is_whitespace(u8) = mds_is_whitespace;
    is_whitespace_in_line(u8) = mds_is_whitespace_in_line;
    is_punctuation(u8) = mds_is_punctuation;
    is_unicode_whitespace(u32) = mds_is_unicode_whitespace;
    is_unicode_punctuation(u32) = mds_is_unicode_punctuation;
}

/// Functions that read a slice, and are given numbers besides.
macro_rules! reading {
    ($($name:ident($($given:ident: $kind:ty),*) -> $answer:ty = $function:ident;)*) => {$(
        #[inline]
        pub(crate) fn $name(bytes: &[u8] $(, $given: $kind)*) -> $answer {
            // SAFETY: the pointer and the length are those of one slice, and nothing is written.
            unsafe { ffi::$function(front(bytes), bytes.len() $(, $given)*) }
        }
    )*};
}

reading! {
    scan_ch(byte: u8) -> usize = mds_scan_ch;
    scan_ch_repeat(byte: u8) -> usize = mds_scan_ch_repeat;
    scan_whitespace_in_line() -> usize = mds_scan_whitespace_in_line;
    scan_eol() -> usize = mds_scan_eol;
    scan_line() -> usize = mds_scan_line;
    scan_nextline() -> usize = mds_scan_nextline;
    scan_blank_line() -> usize = mds_scan_blank_line;
    scan_blockquote_start() -> usize = mds_scan_blockquote_start;
    scan_listitem() -> ffi::ListItem = mds_scan_listitem;
    calc_indent(max: usize) -> ffi::Indent = mds_calc_indent;
    scan_hrule() -> ffi::Break = mds_scan_hrule;
    scan_atx_heading() -> u32 = mds_scan_atx_heading;
    scan_setext_heading() -> ffi::Underline = mds_scan_setext_heading;
    scan_code_fence() -> ffi::Fence = mds_scan_code_fence;
    scan_closing_code_fence(fence: u8, count: usize) -> usize = mds_scan_closing_code_fence;
    scan_metadata_block(yaml: bool, pluses: bool) -> ffi::Fence = mds_scan_metadata_block;
    scan_closing_metadata_block(fence: u8) -> usize = mds_scan_closing_metadata_block;
    interrupts_paragraph() -> bool = mds_interrupts_paragraph;
    scan_link_dest(start: usize, max_next: usize) -> ffi::Part = mds_scan_link_dest;
    scan_link_title(start: usize) -> ffi::Part = mds_scan_link_title;
    scan_autolink(start: usize) -> ffi::Part = mds_scan_autolink;
    scan_email_autolink(start: usize) -> ffi::Part = mds_scan_email_autolink;
    scan_code_span(start: usize) -> ffi::Part = mds_scan_code_span;
    scan_delimiter_run(place: usize) -> ffi::DelimiterRun = mds_scan_delimiter_run;
    scan_reference_definition(start: usize, max_next: usize) -> ffi::ReferenceDefinition = mds_scan_reference_definition;
    scan_wikilink_pipe(start: usize, count: usize) -> ffi::Part = mds_scan_wikilink_pipe;
    starts_html_block_type_6() -> bool = mds_starts_html_block_type_6;
    scan_html_type_7() -> usize = mds_scan_html_type_7;
    scan_html_block_start() -> u32 = mds_scan_html_block_start;
    ends_html_block(kind: u32) -> u32 = mds_ends_html_block;
    scan_html_tag() -> usize = mds_scan_html_tag;
}

/// Functions that read a line from its front, and move a line start.
macro_rules! moving {
    ($($name:ident($($given:ident),*) -> $answer:ty = $function:ident;)*) => {$(
        #[inline]
        pub(crate) fn $name(bytes: &[u8], start: &mut LineStart $(, $given: usize)*) -> $answer {
            // SAFETY: the pointer and the length are those of one slice, and what is written is a `&mut` of its own.
            unsafe { ffi::$function(front(bytes), bytes.len(), start $(, $given)*) }
        }
    )*};
}

moving! {
    line_space(count) -> u32 = mds_line_space;
    line_space_up_to(count) -> ffi::Columns = mds_line_space_up_to;
    line_all_space() -> u32 = mds_line_all_space;
    line_quote() -> u32 = mds_line_quote;
    line_list(indent) -> ffi::LineItem = mds_line_list;
    line_definition(indent) -> ffi::Columns = mds_line_definition;
    line_task() -> ffi::Task = mds_line_task;
    line_alert() -> ffi::Alert = mds_line_alert;
}

#[inline]
pub(crate) fn line_is_at_end(bytes: &[u8], start: &LineStart) -> u32 {
    // SAFETY: the pointer and the length are those of one slice, the line start is a `&`, and nothing is written.
    unsafe { ffi::mds_line_is_at_end(front(bytes), bytes.len(), start) }
}

#[inline]
pub(crate) fn scan_inline_html(bytes: &[u8], place: usize, guard: &mut ffi::HtmlGuard) -> ffi::End {
    // SAFETY: the pointer and the length are those of one slice, and what is written is a `&mut` of its own.
    unsafe { ffi::mds_scan_inline_html(front(bytes), bytes.len(), place, guard) }
}

/// Functions that read two slices, and count bytes of the first.
macro_rules! counting {
    ($($name:ident = $function:ident;)*) => {$(
        #[inline]
        pub(crate) fn $name(bytes: &[u8], accepted: &[u8]) -> usize {
            // SAFETY: each pointer and length are those of one slice, and nothing is written.
            unsafe { ffi::$function(front(bytes), bytes.len(), front(accepted), accepted.len()) }
        }
    )*};
}

counting! {
    scan_while = mds_scan_while;
    scan_rev_while = mds_scan_rev_while;
}

#[inline]
pub(crate) fn labels_match(one: &str, other: &str) -> bool {
    let (one, other) = (one.as_bytes(), other.as_bytes());
    // SAFETY: each pointer and length are those of one slice, and nothing is written.
    let status = unsafe { ffi::mds_labels_match(front(one), one.len(), front(other), other.len()) };
    status == ffi::OK
}

/// The table of skips as C has it.
#[inline]
fn table(skips: &[Skip]) -> *const ffi::Skip {
    skips.as_ptr().cast() // a `Skip` is one of C's, transparently
}

#[inline]
pub(crate) fn scan_table_head(bytes: &[u8], buffer: &mut [u8]) -> Text {
    // SAFETY: each pointer and length are those of one slice, and what is written is a `&mut` of its own.
    returned(unsafe { ffi::mds_scan_table_head(front(bytes), bytes.len(), buffer.as_mut_ptr(), buffer.len()) })
}

#[inline]
pub(crate) fn scan_entity(bytes: &[u8], buffer: &mut [u8]) -> Text {
    // SAFETY: each pointer and length are those of one slice, and what is written is a `&mut` of its own.
    returned(unsafe { ffi::mds_scan_entity(front(bytes), bytes.len(), buffer.as_mut_ptr(), buffer.len()) })
}

#[inline]
pub(crate) fn unescape(text: &str, in_table: bool, buffer: &mut [u8]) -> Text {
    let bytes = text.as_bytes();
    // SAFETY: each pointer and length are those of one slice, and what is written is a `&mut` of its own.
    returned(unsafe { ffi::mds_unescape(front(bytes), bytes.len(), in_table, buffer.as_mut_ptr(), buffer.len()) })
}

#[inline]
pub(crate) fn label_key(text: &str, buffer: &mut [u8]) -> Text {
    let bytes = text.as_bytes();
    // SAFETY: each pointer and length are those of one slice, and what is written is a `&mut` of its own.
    returned(unsafe { ffi::mds_label_key(front(bytes), bytes.len(), buffer.as_mut_ptr(), buffer.len()) })
}

#[inline]
pub(crate) fn check_skips(bytes: &[u8], skips: &[Skip]) -> bool {
    // SAFETY: each pointer and length are those of one slice, and nothing is written.
    unsafe { ffi::mds_check_skips(front(bytes), bytes.len(), table(skips), skips.len()) == ffi::OK }
}

#[inline]
pub(crate) fn scan_html_tag_over_lines(bytes: &[u8], start: usize, skips: &[Skip], buffer: &mut [u8]) -> ffi::Tag {
    let (out, capacity) = (buffer.as_mut_ptr(), buffer.len());
    // SAFETY: each pointer and length are those of one slice, and what is written is a `&mut` of its own.
    let tag = unsafe {
        ffi::mds_scan_html_tag_over_lines(front(bytes), bytes.len(), start, table(skips), skips.len(), out, capacity)
    };
    if tag.status == ffi::NO_MEMORY {
        refused();
    }
    tag
}

#[inline]
pub(crate) fn scan_link_label(
    bytes: &[u8],
    start: usize,
    in_table: bool,
    skips: &[Skip],
    buffer: &mut [u8],
) -> ffi::Label {
    let (listed, many) = (table(skips), skips.len());
    let (out, capacity) = (buffer.as_mut_ptr(), buffer.len());
    // SAFETY: each pointer and length are those of one slice, and what is written is a `&mut` of its own.
    let label =
        unsafe { ffi::mds_scan_link_label(front(bytes), bytes.len(), start, in_table, listed, many, out, capacity) };
    if label.status == ffi::NO_MEMORY {
        refused();
    }
    label
}

#[inline]
fn returned(text: Text) -> Text {
    if text.status == ffi::NO_MEMORY {
        refused();
    }
    text
}

pub(crate) fn run_line(
    bytes: &[u8],
    start: &mut LineStart,
    calls: &[ffi::LineCall],
    answers: &mut [ffi::LineAnswer],
) -> ffi::LineRun {
    let (listed, capacity) = (answers.as_mut_ptr(), answers.len());
    // SAFETY: each pointer and length are those of one slice, and what is written are two `&mut` of their own.
    unsafe { ffi::mds_run_line(front(bytes), bytes.len(), start, calls.as_ptr(), calls.len(), listed, capacity) }
}

pub(crate) fn line_rest(bytes: &[u8], start: &LineStart, buffer: &mut [u8]) -> Text {
    // SAFETY: each pointer and length are those of one slice, the line start is a `&`, and what is written is a `&mut` of
    // its own.
    unsafe { ffi::mds_line_rest(front(bytes), bytes.len(), start, buffer.as_mut_ptr(), buffer.len()) }
}

pub(crate) fn run_inline_html(bytes: &[u8], places: &[usize], ends: &mut [usize]) -> ffi::HtmlRun {
    let (listed, capacity) = (ends.as_mut_ptr(), ends.len());
    // SAFETY: each pointer and length are those of one slice, and what is written is a `&mut` of its own.
    let run =
        unsafe { ffi::mds_run_inline_html(front(bytes), bytes.len(), places.as_ptr(), places.len(), listed, capacity) };
    if run.status == ffi::NO_MEMORY {
        refused();
    }
    run
}

pub(crate) fn scan_blocks(bytes: &[u8], extensions: u32, blocks: &mut [ffi::Block]) -> ffi::Blocks {
    let (listed, capacity) = (blocks.as_mut_ptr(), blocks.len());
    // SAFETY: each pointer and length are those of one slice, and what is written is a `&mut` of its own.
    let found = unsafe { ffi::mds_scan_blocks(front(bytes), bytes.len(), extensions, listed, capacity) };
    if found.status == ffi::NO_MEMORY {
        refused();
    }
    found
}

pub(crate) fn scan_lists(bytes: &[u8], extensions: u32, lists: &mut [ffi::List]) -> ffi::Blocks {
    let (listed, capacity) = (lists.as_mut_ptr(), lists.len());
    // SAFETY: each pointer and length are those of one slice, and what is written is a `&mut` of its own.
    let found = unsafe { ffi::mds_scan_lists(front(bytes), bytes.len(), extensions, listed, capacity) };
    if found.status == ffi::NO_MEMORY {
        refused();
    }
    found
}

pub(crate) fn block_line(
    bytes: &[u8],
    has_ended: bool,
    containers: &mut [ffi::Block],
    page: &mut ffi::OpenBlocks,
    block: &mut ffi::Block,
) -> ffi::LineBlock {
    let (listed, capacity) = (containers.as_mut_ptr(), containers.len());
    // SAFETY: each pointer and length are those of one slice, and what is written are `&mut` of their own.
    let found = unsafe { ffi::mds_block_line(front(bytes), bytes.len(), has_ended, listed, capacity, page, block) };
    if found.status == ffi::NO_MEMORY {
        refused();
    }
    found
}

pub(crate) fn block_content(
    bytes: &[u8],
    block: &ffi::Block,
    containers: &[ffi::Block],
    kept: usize,
    buffer: &mut [u8],
) -> Text {
    let (listed, many) = (containers.as_ptr(), containers.len());
    let (out, capacity) = (buffer.as_mut_ptr(), buffer.len());
    // SAFETY: each pointer and length are those of one slice, the block is a `&`, and what is written is a `&mut` of its own.
    returned(unsafe { ffi::mds_block_content(front(bytes), bytes.len(), block, listed, many, kept, out, capacity) })
}

pub(crate) fn scan_inlines(text: &str, labels: &[&str], extensions: u32, inlines: &mut [ffi::Inline]) -> ffi::Inlines {
    let (bytes, views) = (text.as_bytes(), views_of(labels));
    let (listed, capacity) = (inlines.as_mut_ptr(), inlines.len());
    // SAFETY: each pointer and length are those of one slice, those of the views too, and what is written is a `&mut` of its own.
    let found = unsafe {
        ffi::mds_scan_inlines(front(bytes), bytes.len(), views.as_ptr(), views.len(), extensions, listed, capacity)
    };
    if found.status == ffi::NO_MEMORY {
        refused();
    }
    found
}

/// Texts as C has them, as long as they live.
fn views_of(texts: &[&str]) -> Vec<ffi::View> {
    texts.iter().map(|it| ffi::View { text: front(it.as_bytes()), length: it.len() }).collect()
}

pub(crate) fn html_unsafe(page: &[u8], extensions: u32, buffer: &mut [u8]) -> Text {
    // SAFETY: each pointer and length are those of one slice, and what is written is a `&mut` of its own.
    returned(unsafe { ffi::mds_html_unsafe(front(page), page.len(), extensions, buffer.as_mut_ptr(), buffer.len()) })
}

pub(crate) fn html(page: &[u8], extensions: u32, buffer: &mut [u8]) -> Text {
    // SAFETY: each pointer and length are those of one slice, and what is written is a `&mut` of its own.
    returned(unsafe { ffi::mds_html(front(page), page.len(), extensions, buffer.as_mut_ptr(), buffer.len()) })
}

/// What safe HTML is written with, by the numbers of C.
pub(crate) struct AskedHtml<'a> {
    pub(crate) schemes: &'a [&'a str],
    pub(crate) raw_html: u32,
    pub(crate) rel: u32,
    pub(crate) images_as_links: bool,
}

pub(crate) fn html_with(page: &[u8], extensions: u32, asked: &AskedHtml, buffer: &mut [u8]) -> Text {
    let views = views_of(asked.schemes);
    let setting = ffi::HtmlSetting {
        schemes: views.as_ptr(),
        scheme_count: views.len(),
        raw_html: asked.raw_html,
        rel: asked.rel,
        images_as_links: asked.images_as_links.into(),
        strict: 0,
        reserved: [0; 8],
    };
    let (out, capacity) = (buffer.as_mut_ptr(), buffer.len());
    // SAFETY: each pointer and length are those of one slice, those of the setting and of its views too, and what is written is a
    // `&mut` of its own.
    returned(unsafe { ffi::mds_html_with(front(page), page.len(), extensions, &setting, out, capacity) })
}

pub(crate) fn events(text: &str, extensions: u32, events: &mut [ffi::Event], texts: &mut [u8]) -> ffi::Events {
    let bytes = text.as_bytes();
    let (listed, many, out, capacity) = (events.as_mut_ptr(), events.len(), texts.as_mut_ptr(), texts.len());
    // SAFETY: each pointer and length are those of one slice, and what is written are two `&mut` of its own.
    let found = unsafe { ffi::mds_events(front(bytes), bytes.len(), extensions, listed, many, out, capacity) };
    if found.status == ffi::NO_MEMORY {
        refused();
    }
    found
}
