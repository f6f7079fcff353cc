//! The structs, functions and numbers of `fillaqut.h`, as `packages/c/bindings` has written them.

use core::ffi::c_void;

pub const VERSION: u32 = 0x000200;
pub const NONE: usize = usize::MAX;

pub const OK: u32 = 0;
pub const NOTHING: u32 = 1;
pub const NOT_UTF8: u32 = 2;
pub const PAST_END: u32 = 3;
pub const BAD_SKIPS: u32 = 4;
pub const TOO_LARGE: u32 = 5;
pub const EMPTY: u32 = 6;
pub const TOO_SHORT: u32 = 7;
pub const NO_MEMORY: u32 = 8;
pub const NO_OPENER: u32 = 9;
pub const NOT_RISING: u32 = 10;
pub const INSIDE_FIND: u32 = 11;
pub const SPACE_PENDING: u32 = 12;
pub const BAD_KIND: u32 = 13;
pub const BAD_STATE: u32 = 14;

pub const TABLES: u32 = 2;
pub const FOOTNOTES: u32 = 4;
pub const STRIKETHROUGH: u32 = 8;
pub const TASKS: u32 = 16;
pub const DEFINITION_LISTS: u32 = 4096;
pub const WIKILINKS: u32 = 32768;

pub const ALERT_NOTE: u32 = 1;
pub const ALERT_TIP: u32 = 2;
pub const ALERT_IMPORTANT: u32 = 3;
pub const ALERT_WARNING: u32 = 4;
pub const ALERT_CAUTION: u32 = 5;

pub const SPACE: u32 = 0;
pub const UPTO: u32 = 1;
pub const EOL: u32 = 2;
pub const QUOTE: u32 = 3;
pub const LIST: u32 = 4;
pub const DEFINITION: u32 = 5;

pub const ALIGN_NONE: u32 = 0;
pub const ALIGN_LEFT: u32 = 1;
pub const ALIGN_CENTER: u32 = 2;
pub const ALIGN_RIGHT: u32 = 3;

pub const BLOCK_END: u32 = 0;
pub const BLOCK_QUOTE: u32 = 1;
pub const BLOCK_ITEM: u32 = 2;
pub const BLOCK_BLANK: u32 = 3;
pub const BLOCK_BREAK: u32 = 4;
pub const BLOCK_HEADING: u32 = 5;
pub const BLOCK_SETEXT: u32 = 6;
pub const BLOCK_INDENTED: u32 = 7;
pub const BLOCK_FENCED: u32 = 8;
pub const BLOCK_HTML: u32 = 9;
pub const BLOCK_TABLE: u32 = 10;
pub const BLOCK_DEFINITION: u32 = 11;
pub const BLOCK_PARAGRAPH: u32 = 12;
pub const BLOCK_FOOTNOTE: u32 = 13;
pub const BLOCK_TERM_DEFINITION: u32 = 14;

pub const INLINE_TEXT: u32 = 0;
pub const INLINE_ESCAPE: u32 = 1;
pub const INLINE_REFERENCE: u32 = 2;
pub const INLINE_CODE: u32 = 3;
pub const INLINE_URI: u32 = 4;
pub const INLINE_EMAIL: u32 = 5;
pub const INLINE_HTML: u32 = 6;
pub const INLINE_SOFT_BREAK: u32 = 7;
pub const INLINE_HARD_BREAK: u32 = 8;
pub const INLINE_EMPHASIS: u32 = 9;
pub const INLINE_EMPHASIS_END: u32 = 10;
pub const INLINE_STRONG: u32 = 11;
pub const INLINE_STRONG_END: u32 = 12;
pub const INLINE_LINK: u32 = 13;
pub const INLINE_IMAGE: u32 = 14;
pub const INLINE_LINK_END: u32 = 15;
pub const INLINE_STRIKETHROUGH: u32 = 16;
pub const INLINE_STRIKETHROUGH_END: u32 = 17;

pub const TARGET_INLINE: u32 = 1;
pub const TARGET_FULL: u32 = 2;
pub const TARGET_COLLAPSED: u32 = 3;
pub const TARGET_SHORTCUT: u32 = 4;
pub const TARGET_WIKI: u32 = 5;

pub const RAW_HTML_ESCAPED: u32 = 0;
pub const RAW_HTML_OMITTED: u32 = 1;

pub const REL_NOFOLLOW: u32 = 0;
pub const REL_NONE: u32 = 1;

pub const EVENT_START: u32 = 0;
pub const EVENT_END: u32 = 1;
pub const EVENT_TEXT: u32 = 2;
pub const EVENT_CODE: u32 = 3;
pub const EVENT_INLINE_MATH: u32 = 4;
pub const EVENT_DISPLAY_MATH: u32 = 5;
pub const EVENT_HTML: u32 = 6;
pub const EVENT_INLINE_HTML: u32 = 7;
pub const EVENT_FOOTNOTE_REFERENCE: u32 = 8;
pub const EVENT_SOFT_BREAK: u32 = 9;
pub const EVENT_HARD_BREAK: u32 = 10;
pub const EVENT_RULE: u32 = 11;
pub const EVENT_TASK: u32 = 12;

pub const ELEMENT_PARAGRAPH: u32 = 1;
pub const ELEMENT_HEADING: u32 = 2;
pub const ELEMENT_QUOTE: u32 = 3;
pub const ELEMENT_CODE_BLOCK: u32 = 4;
pub const ELEMENT_HTML_BLOCK: u32 = 5;
pub const ELEMENT_LIST: u32 = 6;
pub const ELEMENT_ITEM: u32 = 7;
pub const ELEMENT_FOOTNOTE: u32 = 8;
pub const ELEMENT_DEFINITION_LIST: u32 = 9;
pub const ELEMENT_TERM: u32 = 10;
pub const ELEMENT_DEFINITION: u32 = 11;
pub const ELEMENT_TABLE: u32 = 12;
pub const ELEMENT_TABLE_HEAD: u32 = 13;
pub const ELEMENT_TABLE_ROW: u32 = 14;
pub const ELEMENT_TABLE_CELL: u32 = 15;
pub const ELEMENT_EMPHASIS: u32 = 16;
pub const ELEMENT_STRONG: u32 = 17;
pub const ELEMENT_STRIKETHROUGH: u32 = 18;
pub const ELEMENT_SUPERSCRIPT: u32 = 19;
pub const ELEMENT_SUBSCRIPT: u32 = 20;
pub const ELEMENT_LINK: u32 = 21;
pub const ELEMENT_IMAGE: u32 = 22;
pub const ELEMENT_METADATA: u32 = 23;

pub const LINK_INLINE: u32 = 1;
pub const LINK_REFERENCE: u32 = 2;
pub const LINK_REFERENCE_UNKNOWN: u32 = 3;
pub const LINK_COLLAPSED: u32 = 4;
pub const LINK_COLLAPSED_UNKNOWN: u32 = 5;
pub const LINK_SHORTCUT: u32 = 6;
pub const LINK_SHORTCUT_UNKNOWN: u32 = 7;
pub const LINK_AUTOLINK: u32 = 8;
pub const LINK_EMAIL: u32 = 9;
pub const LINK_WIKI: u32 = 10;
pub const LINK_WIKI_PIPED: u32 = 11;

pub const HTML_RAW_TEXT: u32 = 1;
pub const HTML_COMMENT: u32 = 2;
pub const HTML_PROCESSING: u32 = 3;
pub const HTML_DECLARATION: u32 = 4;
pub const HTML_CDATA: u32 = 5;
pub const HTML_BLOCK_NAME: u32 = 6;
pub const HTML_TAG_ALONE: u32 = 7;

#[repr(C)]
#[derive(Clone, Copy, Debug, Default, PartialEq, Eq)]
pub struct Text {
    pub status: u32,
    pub taken: usize,
    pub length: usize,
}

#[repr(C)]
#[derive(Clone, Copy, Debug, Default, PartialEq, Eq)]
pub struct ListItem {
    pub length: usize,
    pub start: usize,
    pub indent: usize,
    pub delimiter: u8,
}

#[repr(C)]
#[derive(Clone, Copy, Debug, Default, PartialEq, Eq)]
pub struct Indent {
    pub status: u32,
    pub place: usize,
    pub columns: usize,
}

#[repr(C)]
#[derive(Clone, Copy, Debug, Default, PartialEq, Eq)]
pub struct LineStart {
    pub place: usize,
    pub pending: usize,
    pub phase: usize,
    pub none_before: usize,
    pub behind_break: usize,
}

#[repr(C)]
#[derive(Clone, Copy, Debug, Default, PartialEq, Eq)]
pub struct Columns {
    pub status: u32,
    pub columns: usize,
}

#[repr(C)]
#[derive(Clone, Copy, Debug, Default, PartialEq, Eq)]
pub struct LineItem {
    pub status: u32,
    pub delimiter: u8,
    pub start: u64,
    pub indent: usize,
}

#[repr(C)]
#[derive(Clone, Copy, Debug, Default, PartialEq, Eq)]
pub struct Task {
    pub status: u32,
    pub checked: bool,
}

#[repr(C)]
#[derive(Clone, Copy, Debug, Default, PartialEq, Eq)]
pub struct Alert {
    pub status: u32,
    pub kind: u32,
}

#[repr(C)]
#[derive(Clone, Copy, Debug, Default, PartialEq, Eq)]
pub struct LineCall {
    pub kind: u32,
    pub number: usize,
}

#[repr(C)]
#[derive(Clone, Copy, Debug, Default, PartialEq, Eq)]
pub struct LineAnswer {
    pub found: bool,
    pub delimiter: u8,
    pub start: u64,
    pub number: usize,
}

#[repr(C)]
#[derive(Clone, Copy, Debug, Default, PartialEq, Eq)]
pub struct LineRun {
    pub status: u32,
    pub count: usize,
}

#[repr(C)]
#[derive(Clone, Copy, Debug, Default, PartialEq, Eq)]
pub struct Break {
    pub length: usize,
    pub none_before: usize,
}

#[repr(C)]
#[derive(Clone, Copy, Debug, Default, PartialEq, Eq)]
pub struct Underline {
    pub length: usize,
    pub level: u32,
}

#[repr(C)]
#[derive(Clone, Copy, Debug, Default, PartialEq, Eq)]
pub struct Fence {
    pub length: usize,
    pub byte: u8,
}

#[repr(C)]
#[derive(Clone, Copy, Debug, Default, PartialEq, Eq)]
pub struct ReferenceDefinition {
    pub status: u32,
    pub end: usize,
    pub label_start: usize,
    pub label_length: usize,
    pub destination_start: usize,
    pub destination_length: usize,
    pub title_start: usize,
    pub title_length: usize,
}

#[repr(C)]
#[derive(Clone, Copy, Debug, Default, PartialEq, Eq)]
pub struct Block {
    pub kind: u32,
    pub number: u32,
    pub byte: u8,
    pub width: u8,
    pub count: usize,
    pub indent: usize,
    pub line: usize,
    pub lines: usize,
    pub start: usize,
    pub bytes: usize,
    pub place: usize,
}

#[repr(C)]
#[derive(Clone, Copy, Debug, Default, PartialEq, Eq)]
pub struct Blocks {
    pub status: u32,
    pub count: usize,
}

#[repr(C)]
#[derive(Clone, Copy, Debug, Default, PartialEq, Eq)]
pub struct OpenBlocks {
    pub depth: usize,
    pub extensions: u32,
    pub state: u32,
}

#[repr(C)]
#[derive(Clone, Copy, Debug, Default, PartialEq, Eq)]
pub struct LineBlock {
    pub status: u32,
    pub kept: usize,
    pub depth: usize,
}

#[repr(C)]
#[derive(Clone, Copy, Debug, Default, PartialEq, Eq)]
pub struct List {
    pub delimiter: u8,
    pub is_loose: bool,
    pub start: u32,
    pub depth: usize,
    pub line: usize,
    pub end: usize,
}

#[repr(C)]
#[derive(Clone, Copy, Debug, PartialEq, Eq)]
pub struct View {
    pub text: *const c_void,
    pub length: usize,
}

#[repr(C)]
#[derive(Clone, Copy, Debug, Default, PartialEq, Eq)]
pub struct Inline {
    pub kind: u32,
    pub target: u32,
    pub start: usize,
    pub length: usize,
    pub count: usize,
    pub end: usize,
    pub destination_start: usize,
    pub destination_length: usize,
    pub title_start: usize,
    pub title_length: usize,
    pub label_start: usize,
    pub label_length: usize,
}

#[repr(C)]
#[derive(Clone, Copy, Debug, Default, PartialEq, Eq)]
pub struct Inlines {
    pub status: u32,
    pub count: usize,
}

#[repr(C)]
#[derive(Clone, Copy, Debug, PartialEq, Eq)]
pub struct HtmlSetting {
    pub schemes: *const View,
    pub scheme_count: usize,
    pub raw_html: u32,
    pub rel: u32,
    pub images_as_links: u32,
    pub strict: u32,
    pub reserved: [u32; 8],
}

#[repr(C)]
#[derive(Clone, Copy, Debug, Default, PartialEq, Eq)]
pub struct Event {
    pub kind: u32,
    pub element: u32,
    pub detail: u32,
    pub number: u64,
    pub start: usize,
    pub end: usize,
    pub text_start: usize,
    pub text_length: usize,
    pub title_start: usize,
    pub title_length: usize,
    pub label_start: usize,
    pub label_length: usize,
}

#[repr(C)]
#[derive(Clone, Copy, Debug, Default, PartialEq, Eq)]
pub struct Events {
    pub status: u32,
    pub count: usize,
    pub length: usize,
}

#[repr(C)]
#[derive(Clone, Copy, Debug, Default, PartialEq, Eq)]
pub struct Part {
    pub status: u32,
    pub end: usize,
    pub start: usize,
    pub length: usize,
}

#[repr(C)]
#[derive(Clone, Copy, Debug, Default, PartialEq, Eq)]
pub struct DelimiterRun {
    pub status: u32,
    pub byte: u8,
    pub can_open: bool,
    pub can_close: bool,
    pub count: usize,
}

#[repr(C)]
#[derive(Clone, Copy, Debug, Default, PartialEq, Eq)]
pub struct Skip {
    pub place: usize,
    pub length: usize,
}

#[repr(C)]
#[derive(Clone, Copy, Debug, Default, PartialEq, Eq)]
pub struct Tag {
    pub status: u32,
    pub end: usize,
    pub length: usize,
}

#[repr(C)]
#[derive(Clone, Copy, Debug, Default, PartialEq, Eq)]
pub struct HtmlGuard {
    pub comment: usize,
    pub cdata: usize,
    pub declaration: usize,
    pub processing: usize,
}

#[repr(C)]
#[derive(Clone, Copy, Debug, Default, PartialEq, Eq)]
pub struct End {
    pub status: u32,
    pub end: usize,
    pub passed: usize,
}

#[repr(C)]
#[derive(Clone, Copy, Debug, Default, PartialEq, Eq)]
pub struct HtmlRun {
    pub status: u32,
    pub count: usize,
}

#[repr(C)]
#[derive(Clone, Copy, Debug, Default, PartialEq, Eq)]
pub struct Label {
    pub status: u32,
    pub end: usize,
    pub length: usize,
    pub start: usize,
}

extern "C" {
    pub fn mds_version() -> u32;
    pub fn mds_is_whitespace(byte: u8) -> bool;
    pub fn mds_is_whitespace_in_line(byte: u8) -> bool;
    pub fn mds_is_punctuation(byte: u8) -> bool;
    pub fn mds_is_unicode_whitespace(character: u32) -> bool;
    pub fn mds_is_unicode_punctuation(character: u32) -> bool;
    pub fn mds_is_utf8(bytes: *const c_void, length: usize) -> bool;
    pub fn mds_scan_ch(bytes: *const c_void, length: usize, byte: u8) -> usize;
    pub fn mds_scan_ch_repeat(bytes: *const c_void, length: usize, byte: u8) -> usize;
    pub fn mds_scan_while(bytes: *const c_void, length: usize, accepted: *const c_void, count: usize) -> usize;
    pub fn mds_scan_rev_while(bytes: *const c_void, length: usize, accepted: *const c_void, count: usize) -> usize;
    pub fn mds_scan_whitespace_in_line(bytes: *const c_void, length: usize) -> usize;
    pub fn mds_scan_eol(bytes: *const c_void, length: usize) -> usize;
    pub fn mds_scan_line(bytes: *const c_void, length: usize) -> usize;
    pub fn mds_scan_nextline(bytes: *const c_void, length: usize) -> usize;
    pub fn mds_scan_blank_line(bytes: *const c_void, length: usize) -> usize;
    pub fn mds_scan_blockquote_start(bytes: *const c_void, length: usize) -> usize;
    pub fn mds_scan_listitem(bytes: *const c_void, length: usize) -> ListItem;
    pub fn mds_calc_indent(bytes: *const c_void, length: usize, max: usize) -> Indent;
    pub fn mds_line_space(bytes: *const c_void, length: usize, start: *mut LineStart, count: usize) -> u32;
    pub fn mds_line_space_up_to(bytes: *const c_void, length: usize, start: *mut LineStart, count: usize) -> Columns;
    pub fn mds_line_all_space(bytes: *const c_void, length: usize, start: *mut LineStart) -> u32;
    pub fn mds_line_is_at_end(bytes: *const c_void, length: usize, start: *const LineStart) -> u32;
    pub fn mds_line_quote(bytes: *const c_void, length: usize, start: *mut LineStart) -> u32;
    pub fn mds_line_list(bytes: *const c_void, length: usize, start: *mut LineStart, indent: usize) -> LineItem;
    pub fn mds_line_definition(bytes: *const c_void, length: usize, start: *mut LineStart, indent: usize) -> Columns;
    pub fn mds_line_task(bytes: *const c_void, length: usize, start: *mut LineStart) -> Task;
    pub fn mds_line_alert(bytes: *const c_void, length: usize, start: *mut LineStart) -> Alert;
    pub fn mds_run_line(
        bytes: *const c_void,
        length: usize,
        start: *mut LineStart,
        calls: *const LineCall,
        call_count: usize,
        answers: *mut LineAnswer,
        capacity: usize,
    ) -> LineRun;
    pub fn mds_line_rest(
        bytes: *const c_void,
        length: usize,
        start: *const LineStart,
        buffer: *mut u8,
        capacity: usize,
    ) -> Text;
    pub fn mds_scan_hrule(bytes: *const c_void, length: usize) -> Break;
    pub fn mds_scan_atx_heading(bytes: *const c_void, length: usize) -> u32;
    pub fn mds_scan_setext_heading(bytes: *const c_void, length: usize) -> Underline;
    pub fn mds_scan_code_fence(bytes: *const c_void, length: usize) -> Fence;
    pub fn mds_scan_closing_code_fence(bytes: *const c_void, length: usize, fence: u8, count: usize) -> usize;
    pub fn mds_scan_metadata_block(bytes: *const c_void, length: usize, yaml: bool, pluses: bool) -> Fence;
    pub fn mds_scan_closing_metadata_block(bytes: *const c_void, length: usize, fence: u8) -> usize;
    pub fn mds_interrupts_paragraph(bytes: *const c_void, length: usize) -> bool;
    pub fn mds_scan_reference_definition(
        bytes: *const c_void,
        length: usize,
        start: usize,
        max_next: usize,
    ) -> ReferenceDefinition;
    pub fn mds_scan_table_head(bytes: *const c_void, length: usize, alignments: *mut u8, capacity: usize) -> Text;
    pub fn mds_scan_blocks(
        bytes: *const c_void,
        length: usize,
        extensions: u32,
        blocks: *mut Block,
        capacity: usize,
    ) -> Blocks;
    pub fn mds_block_content(
        bytes: *const c_void,
        length: usize,
        block: *const Block,
        containers: *const Block,
        container_count: usize,
        kept: usize,
        buffer: *mut u8,
        capacity: usize,
    ) -> Text;
    pub fn mds_block_line(
        bytes: *const c_void,
        length: usize,
        has_ended: bool,
        containers: *mut Block,
        capacity: usize,
        open: *mut OpenBlocks,
        block: *mut Block,
    ) -> LineBlock;
    pub fn mds_scan_lists(
        bytes: *const c_void,
        length: usize,
        extensions: u32,
        lists: *mut List,
        capacity: usize,
    ) -> Blocks;
    pub fn mds_scan_inlines(
        text: *const c_void,
        length: usize,
        labels: *const View,
        label_count: usize,
        extensions: u32,
        inlines: *mut Inline,
        capacity: usize,
    ) -> Inlines;
    pub fn mds_html(page: *const c_void, length: usize, extensions: u32, buffer: *mut u8, capacity: usize) -> Text;
    pub fn mds_html_with(
        page: *const c_void,
        length: usize,
        extensions: u32,
        setting: *const HtmlSetting,
        buffer: *mut u8,
        capacity: usize,
    ) -> Text;
    pub fn mds_html_unsafe(
        page: *const c_void,
        length: usize,
        extensions: u32,
        buffer: *mut u8,
        capacity: usize,
    ) -> Text;
    pub fn mds_events(
        text: *const c_void,
        length: usize,
        extensions: u32,
        events: *mut Event,
        capacity: usize,
        texts: *mut u8,
        texts_capacity: usize,
    ) -> Events;
    pub fn mds_scan_link_dest(bytes: *const c_void, length: usize, start: usize, max_next: usize) -> Part;
    pub fn mds_scan_link_title(bytes: *const c_void, length: usize, start: usize) -> Part;
    pub fn mds_scan_autolink(bytes: *const c_void, length: usize, start: usize) -> Part;
    pub fn mds_scan_email_autolink(bytes: *const c_void, length: usize, start: usize) -> Part;
    pub fn mds_scan_code_span(bytes: *const c_void, length: usize, start: usize) -> Part;
    pub fn mds_scan_wikilink_pipe(bytes: *const c_void, length: usize, start: usize, count: usize) -> Part;
    pub fn mds_scan_delimiter_run(bytes: *const c_void, length: usize, place: usize) -> DelimiterRun;
    pub fn mds_check_skips(bytes: *const c_void, length: usize, skips: *const Skip, skip_count: usize) -> u32;
    pub fn mds_starts_html_block_type_6(bytes: *const c_void, length: usize) -> bool;
    pub fn mds_scan_html_type_7(bytes: *const c_void, length: usize) -> usize;
    pub fn mds_scan_html_block_start(bytes: *const c_void, length: usize) -> u32;
    pub fn mds_ends_html_block(bytes: *const c_void, length: usize, kind: u32) -> u32;
    pub fn mds_scan_html_tag(bytes: *const c_void, length: usize) -> usize;
    pub fn mds_scan_html_tag_over_lines(
        bytes: *const c_void,
        length: usize,
        start: usize,
        skips: *const Skip,
        skip_count: usize,
        buffer: *mut u8,
        capacity: usize,
    ) -> Tag;
    pub fn mds_scan_inline_html(bytes: *const c_void, length: usize, place: usize, guard: *mut HtmlGuard) -> End;
    pub fn mds_run_inline_html(
        bytes: *const c_void,
        length: usize,
        places: *const usize,
        place_count: usize,
        ends: *mut usize,
        capacity: usize,
    ) -> HtmlRun;
    pub fn mds_scan_entity(bytes: *const c_void, length: usize, buffer: *mut u8, capacity: usize) -> Text;
    pub fn mds_unescape(text: *const c_void, length: usize, in_table: bool, buffer: *mut u8, capacity: usize) -> Text;
    pub fn mds_scan_link_label(
        bytes: *const c_void,
        length: usize,
        start: usize,
        in_table: bool,
        skips: *const Skip,
        skip_count: usize,
        buffer: *mut u8,
        capacity: usize,
    ) -> Label;
    pub fn mds_labels_match(one: *const c_void, one_length: usize, other: *const c_void, other_length: usize) -> u32;
    pub fn mds_label_key(text: *const c_void, length: usize, buffer: *mut u8, capacity: usize) -> Text;
}
