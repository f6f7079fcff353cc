"""The structs, functions and numbers of fillaqut.h, as packages/c/bindings has written them."""
from ctypes import Structure, c_void_p, c_bool, c_size_t, c_uint32, c_uint64, c_uint8
from typing import Any

VERSION = 0x000200
NONE = c_size_t(-1).value

OK = 0
NOTHING = 1
NOT_UTF8 = 2
PAST_END = 3
BAD_SKIPS = 4
TOO_LARGE = 5
EMPTY = 6
TOO_SHORT = 7
NO_MEMORY = 8
NO_OPENER = 9
NOT_RISING = 10
INSIDE_FIND = 11
SPACE_PENDING = 12
BAD_KIND = 13
BAD_STATE = 14

TABLES = 2
FOOTNOTES = 4
STRIKETHROUGH = 8
TASKS = 16
DEFINITION_LISTS = 4096
WIKILINKS = 32768

ALERT_NOTE = 1
ALERT_TIP = 2
ALERT_IMPORTANT = 3
ALERT_WARNING = 4
ALERT_CAUTION = 5

SPACE = 0
UPTO = 1
EOL = 2
QUOTE = 3
LIST = 4
DEFINITION = 5

ALIGN_NONE = 0
ALIGN_LEFT = 1
ALIGN_CENTER = 2
ALIGN_RIGHT = 3

BLOCK_END = 0
BLOCK_QUOTE = 1
BLOCK_ITEM = 2
BLOCK_BLANK = 3
BLOCK_BREAK = 4
BLOCK_HEADING = 5
BLOCK_SETEXT = 6
BLOCK_INDENTED = 7
BLOCK_FENCED = 8
BLOCK_HTML = 9
BLOCK_TABLE = 10
BLOCK_DEFINITION = 11
BLOCK_PARAGRAPH = 12
BLOCK_FOOTNOTE = 13
BLOCK_TERM_DEFINITION = 14

INLINE_TEXT = 0
INLINE_ESCAPE = 1
INLINE_REFERENCE = 2
INLINE_CODE = 3
INLINE_URI = 4
INLINE_EMAIL = 5
INLINE_HTML = 6
INLINE_SOFT_BREAK = 7
INLINE_HARD_BREAK = 8
INLINE_EMPHASIS = 9
INLINE_EMPHASIS_END = 10
INLINE_STRONG = 11
INLINE_STRONG_END = 12
INLINE_LINK = 13
INLINE_IMAGE = 14
INLINE_LINK_END = 15
INLINE_STRIKETHROUGH = 16
INLINE_STRIKETHROUGH_END = 17

TARGET_INLINE = 1
TARGET_FULL = 2
TARGET_COLLAPSED = 3
TARGET_SHORTCUT = 4
TARGET_WIKI = 5

RAW_HTML_ESCAPED = 0
RAW_HTML_OMITTED = 1

REL_NOFOLLOW = 0
REL_NONE = 1

EVENT_START = 0
EVENT_END = 1
EVENT_TEXT = 2
EVENT_CODE = 3
EVENT_INLINE_MATH = 4
EVENT_DISPLAY_MATH = 5
EVENT_HTML = 6
EVENT_INLINE_HTML = 7
EVENT_FOOTNOTE_REFERENCE = 8
EVENT_SOFT_BREAK = 9
EVENT_HARD_BREAK = 10
EVENT_RULE = 11
EVENT_TASK = 12

ELEMENT_PARAGRAPH = 1
ELEMENT_HEADING = 2
ELEMENT_QUOTE = 3
ELEMENT_CODE_BLOCK = 4
ELEMENT_HTML_BLOCK = 5
ELEMENT_LIST = 6
ELEMENT_ITEM = 7
ELEMENT_FOOTNOTE = 8
ELEMENT_DEFINITION_LIST = 9
ELEMENT_TERM = 10
ELEMENT_DEFINITION = 11
ELEMENT_TABLE = 12
ELEMENT_TABLE_HEAD = 13
ELEMENT_TABLE_ROW = 14
ELEMENT_TABLE_CELL = 15
ELEMENT_EMPHASIS = 16
ELEMENT_STRONG = 17
ELEMENT_STRIKETHROUGH = 18
ELEMENT_SUPERSCRIPT = 19
ELEMENT_SUBSCRIPT = 20
ELEMENT_LINK = 21
ELEMENT_IMAGE = 22
ELEMENT_METADATA = 23

LINK_INLINE = 1
LINK_REFERENCE = 2
LINK_REFERENCE_UNKNOWN = 3
LINK_COLLAPSED = 4
LINK_COLLAPSED_UNKNOWN = 5
LINK_SHORTCUT = 6
LINK_SHORTCUT_UNKNOWN = 7
LINK_AUTOLINK = 8
LINK_EMAIL = 9
LINK_WIKI = 10
LINK_WIKI_PIPED = 11

HTML_RAW_TEXT = 1
HTML_COMMENT = 2
HTML_PROCESSING = 3
HTML_DECLARATION = 4
HTML_CDATA = 5
HTML_BLOCK_NAME = 6
HTML_TAG_ALONE = 7


class Text(Structure):
    status: int
    taken: int
    length: int
    _fields_ = [
        ("status", c_uint32),
        ("taken", c_size_t),
        ("length", c_size_t),
    ]


class ListItem(Structure):
    length: int
    start: int
    indent: int
    delimiter: int
    _fields_ = [
        ("length", c_size_t),
        ("start", c_size_t),
        ("indent", c_size_t),
        ("delimiter", c_uint8),
    ]


class Indent(Structure):
    status: int
    place: int
    columns: int
    _fields_ = [
        ("status", c_uint32),
        ("place", c_size_t),
        ("columns", c_size_t),
    ]


class LineStart(Structure):
    place: int
    pending: int
    phase: int
    none_before: int
    behind_break: int
    _fields_ = [
        ("place", c_size_t),
        ("pending", c_size_t),
        ("phase", c_size_t),
        ("none_before", c_size_t),
        ("behind_break", c_size_t),
    ]


class Columns(Structure):
    status: int
    columns: int
    _fields_ = [
        ("status", c_uint32),
        ("columns", c_size_t),
    ]


class LineItem(Structure):
    status: int
    delimiter: int
    start: int
    indent: int
    _fields_ = [
        ("status", c_uint32),
        ("delimiter", c_uint8),
        ("start", c_uint64),
        ("indent", c_size_t),
    ]


class Task(Structure):
    status: int
    checked: bool
    _fields_ = [
        ("status", c_uint32),
        ("checked", c_bool),
    ]


class Alert(Structure):
    status: int
    kind: int
    _fields_ = [
        ("status", c_uint32),
        ("kind", c_uint32),
    ]


class LineCall(Structure):
    kind: int
    number: int
    _fields_ = [
        ("kind", c_uint32),
        ("number", c_size_t),
    ]


class LineAnswer(Structure):
    found: bool
    delimiter: int
    start: int
    number: int
    _fields_ = [
        ("found", c_bool),
        ("delimiter", c_uint8),
        ("start", c_uint64),
        ("number", c_size_t),
    ]


class LineRun(Structure):
    status: int
    count: int
    _fields_ = [
        ("status", c_uint32),
        ("count", c_size_t),
    ]


class Break(Structure):
    length: int
    none_before: int
    _fields_ = [
        ("length", c_size_t),
        ("none_before", c_size_t),
    ]


class Underline(Structure):
    length: int
    level: int
    _fields_ = [
        ("length", c_size_t),
        ("level", c_uint32),
    ]


class Fence(Structure):
    length: int
    byte: int
    _fields_ = [
        ("length", c_size_t),
        ("byte", c_uint8),
    ]


class ReferenceDefinition(Structure):
    status: int
    end: int
    label_start: int
    label_length: int
    destination_start: int
    destination_length: int
    title_start: int
    title_length: int
    _fields_ = [
        ("status", c_uint32),
        ("end", c_size_t),
        ("label_start", c_size_t),
        ("label_length", c_size_t),
        ("destination_start", c_size_t),
        ("destination_length", c_size_t),
        ("title_start", c_size_t),
        ("title_length", c_size_t),
    ]


class Block(Structure):
    kind: int
    number: int
    byte: int
    width: int
    count: int
    indent: int
    line: int
    lines: int
    start: int
    bytes: int
    place: int
    _fields_ = [
        ("kind", c_uint32),
        ("number", c_uint32),
        ("byte", c_uint8),
        ("width", c_uint8),
        ("count", c_size_t),
        ("indent", c_size_t),
        ("line", c_size_t),
        ("lines", c_size_t),
        ("start", c_size_t),
        ("bytes", c_size_t),
        ("place", c_size_t),
    ]


class Blocks(Structure):
    status: int
    count: int
    _fields_ = [
        ("status", c_uint32),
        ("count", c_size_t),
    ]


class OpenBlocks(Structure):
    depth: int
    extensions: int
    state: int
    _fields_ = [
        ("depth", c_size_t),
        ("extensions", c_uint32),
        ("state", c_uint32),
    ]


class LineBlock(Structure):
    status: int
    kept: int
    depth: int
    _fields_ = [
        ("status", c_uint32),
        ("kept", c_size_t),
        ("depth", c_size_t),
    ]


class List(Structure):
    delimiter: int
    is_loose: bool
    start: int
    depth: int
    line: int
    end: int
    _fields_ = [
        ("delimiter", c_uint8),
        ("is_loose", c_bool),
        ("start", c_uint32),
        ("depth", c_size_t),
        ("line", c_size_t),
        ("end", c_size_t),
    ]


class View(Structure):
    text: int
    length: int
    _fields_ = [
        ("text", c_void_p),
        ("length", c_size_t),
    ]


class Inline(Structure):
    kind: int
    target: int
    start: int
    length: int
    count: int
    end: int
    destination_start: int
    destination_length: int
    title_start: int
    title_length: int
    label_start: int
    label_length: int
    _fields_ = [
        ("kind", c_uint32),
        ("target", c_uint32),
        ("start", c_size_t),
        ("length", c_size_t),
        ("count", c_size_t),
        ("end", c_size_t),
        ("destination_start", c_size_t),
        ("destination_length", c_size_t),
        ("title_start", c_size_t),
        ("title_length", c_size_t),
        ("label_start", c_size_t),
        ("label_length", c_size_t),
    ]


class Inlines(Structure):
    status: int
    count: int
    _fields_ = [
        ("status", c_uint32),
        ("count", c_size_t),
    ]


class HtmlSetting(Structure):
    schemes: int
    scheme_count: int
    raw_html: int
    rel: int
    images_as_links: int
    strict: int
    reserved: Any
    _fields_ = [
        ("schemes", c_void_p),
        ("scheme_count", c_size_t),
        ("raw_html", c_uint32),
        ("rel", c_uint32),
        ("images_as_links", c_uint32),
        ("strict", c_uint32),
        ("reserved", c_uint32 * 8),
    ]


class Event(Structure):
    kind: int
    element: int
    detail: int
    number: int
    start: int
    end: int
    text_start: int
    text_length: int
    title_start: int
    title_length: int
    label_start: int
    label_length: int
    _fields_ = [
        ("kind", c_uint32),
        ("element", c_uint32),
        ("detail", c_uint32),
        ("number", c_uint64),
        ("start", c_size_t),
        ("end", c_size_t),
        ("text_start", c_size_t),
        ("text_length", c_size_t),
        ("title_start", c_size_t),
        ("title_length", c_size_t),
        ("label_start", c_size_t),
        ("label_length", c_size_t),
    ]


class Events(Structure):
    status: int
    count: int
    length: int
    _fields_ = [
        ("status", c_uint32),
        ("count", c_size_t),
        ("length", c_size_t),
    ]


class Part(Structure):
    status: int
    end: int
    start: int
    length: int
    _fields_ = [
        ("status", c_uint32),
        ("end", c_size_t),
        ("start", c_size_t),
        ("length", c_size_t),
    ]


class DelimiterRun(Structure):
    status: int
    byte: int
    can_open: bool
    can_close: bool
    count: int
    _fields_ = [
        ("status", c_uint32),
        ("byte", c_uint8),
        ("can_open", c_bool),
        ("can_close", c_bool),
        ("count", c_size_t),
    ]


class Skip(Structure):
    place: int
    length: int
    _fields_ = [
        ("place", c_size_t),
        ("length", c_size_t),
    ]


class Tag(Structure):
    status: int
    end: int
    length: int
    _fields_ = [
        ("status", c_uint32),
        ("end", c_size_t),
        ("length", c_size_t),
    ]


class HtmlGuard(Structure):
    comment: int
    cdata: int
    declaration: int
    processing: int
    _fields_ = [
        ("comment", c_size_t),
        ("cdata", c_size_t),
        ("declaration", c_size_t),
        ("processing", c_size_t),
    ]


class End(Structure):
    status: int
    end: int
    passed: int
    _fields_ = [
        ("status", c_uint32),
        ("end", c_size_t),
        ("passed", c_size_t),
    ]


class HtmlRun(Structure):
    status: int
    count: int
    _fields_ = [
        ("status", c_uint32),
        ("count", c_size_t),
    ]


class Label(Structure):
    status: int
    end: int
    length: int
    start: int
    _fields_ = [
        ("status", c_uint32),
        ("end", c_size_t),
        ("length", c_size_t),
        ("start", c_size_t),
    ]


# What each function answers, and what it takes.
FUNCTIONS: dict[str, tuple[Any, tuple[Any, ...]]] = {
    "is_whitespace": (c_bool, (c_uint8,)),
    "is_whitespace_in_line": (c_bool, (c_uint8,)),
    "is_punctuation": (c_bool, (c_uint8,)),
    "is_unicode_whitespace": (c_bool, (c_uint32,)),
    "is_unicode_punctuation": (c_bool, (c_uint32,)),
    "is_utf8": (c_bool, (c_void_p, c_size_t)),
    "scan_ch": (c_size_t, (c_void_p, c_size_t, c_uint8)),
    "scan_ch_repeat": (c_size_t, (c_void_p, c_size_t, c_uint8)),
    "scan_while": (c_size_t, (c_void_p, c_size_t, c_void_p, c_size_t)),
    "scan_rev_while": (c_size_t, (c_void_p, c_size_t, c_void_p, c_size_t)),
    "scan_whitespace_in_line": (c_size_t, (c_void_p, c_size_t)),
    "scan_eol": (c_size_t, (c_void_p, c_size_t)),
    "scan_line": (c_size_t, (c_void_p, c_size_t)),
    "scan_nextline": (c_size_t, (c_void_p, c_size_t)),
    "scan_blank_line": (c_size_t, (c_void_p, c_size_t)),
    "scan_blockquote_start": (c_size_t, (c_void_p, c_size_t)),
    "scan_listitem": (ListItem, (c_void_p, c_size_t)),
    "calc_indent": (Indent, (c_void_p, c_size_t, c_size_t)),
    "line_space": (c_uint32, (c_void_p, c_size_t, c_void_p, c_size_t)),
    "line_space_up_to": (Columns, (c_void_p, c_size_t, c_void_p, c_size_t)),
    "line_all_space": (c_uint32, (c_void_p, c_size_t, c_void_p)),
    "line_is_at_end": (c_uint32, (c_void_p, c_size_t, c_void_p)),
    "line_quote": (c_uint32, (c_void_p, c_size_t, c_void_p)),
    "line_list": (LineItem, (c_void_p, c_size_t, c_void_p, c_size_t)),
    "line_definition": (Columns, (c_void_p, c_size_t, c_void_p, c_size_t)),
    "line_task": (Task, (c_void_p, c_size_t, c_void_p)),
    "line_alert": (Alert, (c_void_p, c_size_t, c_void_p)),
    "run_line": (LineRun, (c_void_p, c_size_t, c_void_p, c_void_p, c_size_t, c_void_p, c_size_t)),
    "line_rest": (Text, (c_void_p, c_size_t, c_void_p, c_void_p, c_size_t)),
    "scan_hrule": (Break, (c_void_p, c_size_t)),
    "scan_atx_heading": (c_uint32, (c_void_p, c_size_t)),
    "scan_setext_heading": (Underline, (c_void_p, c_size_t)),
    "scan_code_fence": (Fence, (c_void_p, c_size_t)),
    "scan_closing_code_fence": (c_size_t, (c_void_p, c_size_t, c_uint8, c_size_t)),
    "scan_metadata_block": (Fence, (c_void_p, c_size_t, c_bool, c_bool)),
    "scan_closing_metadata_block": (c_size_t, (c_void_p, c_size_t, c_uint8)),
    "interrupts_paragraph": (c_bool, (c_void_p, c_size_t)),
    "scan_reference_definition": (ReferenceDefinition, (c_void_p, c_size_t, c_size_t, c_size_t)),
    "scan_table_head": (Text, (c_void_p, c_size_t, c_void_p, c_size_t)),
    "scan_blocks": (Blocks, (c_void_p, c_size_t, c_uint32, c_void_p, c_size_t)),
    "block_content": (Text, (c_void_p, c_size_t, c_void_p, c_void_p, c_size_t, c_size_t, c_void_p, c_size_t)),
    "block_line": (LineBlock, (c_void_p, c_size_t, c_bool, c_void_p, c_size_t, c_void_p, c_void_p)),
    "scan_lists": (Blocks, (c_void_p, c_size_t, c_uint32, c_void_p, c_size_t)),
    "scan_inlines": (Inlines, (c_void_p, c_size_t, c_void_p, c_size_t, c_uint32, c_void_p, c_size_t)),
    "html": (Text, (c_void_p, c_size_t, c_uint32, c_void_p, c_size_t)),
    "html_with": (Text, (c_void_p, c_size_t, c_uint32, c_void_p, c_void_p, c_size_t)),
    "html_unsafe": (Text, (c_void_p, c_size_t, c_uint32, c_void_p, c_size_t)),
    "events": (Events, (c_void_p, c_size_t, c_uint32, c_void_p, c_size_t, c_void_p, c_size_t)),
    "scan_link_dest": (Part, (c_void_p, c_size_t, c_size_t, c_size_t)),
    "scan_link_title": (Part, (c_void_p, c_size_t, c_size_t)),
    "scan_autolink": (Part, (c_void_p, c_size_t, c_size_t)),
    "scan_email_autolink": (Part, (c_void_p, c_size_t, c_size_t)),
    "scan_code_span": (Part, (c_void_p, c_size_t, c_size_t)),
    "scan_wikilink_pipe": (Part, (c_void_p, c_size_t, c_size_t, c_size_t)),
    "scan_delimiter_run": (DelimiterRun, (c_void_p, c_size_t, c_size_t)),
    "check_skips": (c_uint32, (c_void_p, c_size_t, c_void_p, c_size_t)),
    "starts_html_block_type_6": (c_bool, (c_void_p, c_size_t)),
    "scan_html_type_7": (c_size_t, (c_void_p, c_size_t)),
    "scan_html_block_start": (c_uint32, (c_void_p, c_size_t)),
    "ends_html_block": (c_uint32, (c_void_p, c_size_t, c_uint32)),
    "scan_html_tag": (c_size_t, (c_void_p, c_size_t)),
    "scan_html_tag_over_lines": (Tag, (c_void_p, c_size_t, c_size_t, c_void_p, c_size_t, c_void_p, c_size_t)),
    "scan_inline_html": (End, (c_void_p, c_size_t, c_size_t, c_void_p)),
    "run_inline_html": (HtmlRun, (c_void_p, c_size_t, c_void_p, c_size_t, c_void_p, c_size_t)),
    "scan_entity": (Text, (c_void_p, c_size_t, c_void_p, c_size_t)),
    "unescape": (Text, (c_void_p, c_size_t, c_bool, c_void_p, c_size_t)),
    "scan_link_label": (Label, (c_void_p, c_size_t, c_size_t, c_bool, c_void_p, c_size_t, c_void_p, c_size_t)),
    "labels_match": (c_uint32, (c_void_p, c_size_t, c_void_p, c_size_t)),
    "label_key": (Text, (c_void_p, c_size_t, c_void_p, c_size_t)),
}

# Those that read a whole page.
PAGE_FUNCTIONS = (
    "scan_blocks",
    "scan_lists",
    "scan_inlines",
    "html",
    "html_with",
    "html_unsafe",
    "events",
)
