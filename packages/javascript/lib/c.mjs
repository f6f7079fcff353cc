// The structs, functions and numbers of fillaqut.h, as packages/c/bindings has written them.

export const VERSION = "0.2.0";

export const OK = 0;
export const NOTHING = 1;
export const NOT_UTF8 = 2;
export const PAST_END = 3;
export const BAD_SKIPS = 4;
export const TOO_LARGE = 5;
export const EMPTY = 6;
export const TOO_SHORT = 7;
export const NO_MEMORY = 8;
export const NO_OPENER = 9;
export const NOT_RISING = 10;
export const INSIDE_FIND = 11;
export const SPACE_PENDING = 12;
export const BAD_KIND = 13;
export const BAD_STATE = 14;

export const TABLES = 2;
export const FOOTNOTES = 4;
export const STRIKETHROUGH = 8;
export const TASKS = 16;
export const DEFINITION_LISTS = 4096;
export const WIKILINKS = 32768;

export const ALERT_NOTE = 1;
export const ALERT_TIP = 2;
export const ALERT_IMPORTANT = 3;
export const ALERT_WARNING = 4;
export const ALERT_CAUTION = 5;

export const SPACE = 0;
export const UPTO = 1;
export const EOL = 2;
export const QUOTE = 3;
export const LIST = 4;
export const DEFINITION = 5;

export const ALIGN_NONE = 0;
export const ALIGN_LEFT = 1;
export const ALIGN_CENTER = 2;
export const ALIGN_RIGHT = 3;

export const BLOCK_END = 0;
export const BLOCK_QUOTE = 1;
export const BLOCK_ITEM = 2;
export const BLOCK_BLANK = 3;
export const BLOCK_BREAK = 4;
export const BLOCK_HEADING = 5;
export const BLOCK_SETEXT = 6;
export const BLOCK_INDENTED = 7;
export const BLOCK_FENCED = 8;
export const BLOCK_HTML = 9;
export const BLOCK_TABLE = 10;
export const BLOCK_DEFINITION = 11;
export const BLOCK_PARAGRAPH = 12;
export const BLOCK_FOOTNOTE = 13;
export const BLOCK_TERM_DEFINITION = 14;

export const INLINE_TEXT = 0;
export const INLINE_ESCAPE = 1;
export const INLINE_REFERENCE = 2;
export const INLINE_CODE = 3;
export const INLINE_URI = 4;
export const INLINE_EMAIL = 5;
export const INLINE_HTML = 6;
export const INLINE_SOFT_BREAK = 7;
export const INLINE_HARD_BREAK = 8;
export const INLINE_EMPHASIS = 9;
export const INLINE_EMPHASIS_END = 10;
export const INLINE_STRONG = 11;
export const INLINE_STRONG_END = 12;
export const INLINE_LINK = 13;
export const INLINE_IMAGE = 14;
export const INLINE_LINK_END = 15;
export const INLINE_STRIKETHROUGH = 16;
export const INLINE_STRIKETHROUGH_END = 17;

export const TARGET_INLINE = 1;
export const TARGET_FULL = 2;
export const TARGET_COLLAPSED = 3;
export const TARGET_SHORTCUT = 4;
export const TARGET_WIKI = 5;

export const RAW_HTML_ESCAPED = 0;
export const RAW_HTML_OMITTED = 1;

export const REL_NOFOLLOW = 0;
export const REL_NONE = 1;

export const EVENT_START = 0;
export const EVENT_END = 1;
export const EVENT_TEXT = 2;
export const EVENT_CODE = 3;
export const EVENT_INLINE_MATH = 4;
export const EVENT_DISPLAY_MATH = 5;
export const EVENT_HTML = 6;
export const EVENT_INLINE_HTML = 7;
export const EVENT_FOOTNOTE_REFERENCE = 8;
export const EVENT_SOFT_BREAK = 9;
export const EVENT_HARD_BREAK = 10;
export const EVENT_RULE = 11;
export const EVENT_TASK = 12;

export const ELEMENT_PARAGRAPH = 1;
export const ELEMENT_HEADING = 2;
export const ELEMENT_QUOTE = 3;
export const ELEMENT_CODE_BLOCK = 4;
export const ELEMENT_HTML_BLOCK = 5;
export const ELEMENT_LIST = 6;
export const ELEMENT_ITEM = 7;
export const ELEMENT_FOOTNOTE = 8;
export const ELEMENT_DEFINITION_LIST = 9;
export const ELEMENT_TERM = 10;
export const ELEMENT_DEFINITION = 11;
export const ELEMENT_TABLE = 12;
export const ELEMENT_TABLE_HEAD = 13;
export const ELEMENT_TABLE_ROW = 14;
export const ELEMENT_TABLE_CELL = 15;
export const ELEMENT_EMPHASIS = 16;
export const ELEMENT_STRONG = 17;
export const ELEMENT_STRIKETHROUGH = 18;
export const ELEMENT_SUPERSCRIPT = 19;
export const ELEMENT_SUBSCRIPT = 20;
export const ELEMENT_LINK = 21;
export const ELEMENT_IMAGE = 22;
export const ELEMENT_METADATA = 23;

export const LINK_INLINE = 1;
export const LINK_REFERENCE = 2;
export const LINK_REFERENCE_UNKNOWN = 3;
export const LINK_COLLAPSED = 4;
export const LINK_COLLAPSED_UNKNOWN = 5;
export const LINK_SHORTCUT = 6;
export const LINK_SHORTCUT_UNKNOWN = 7;
export const LINK_AUTOLINK = 8;
export const LINK_EMAIL = 9;
export const LINK_WIKI = 10;
export const LINK_WIKI_PIPED = 11;

export const HTML_RAW_TEXT = 1;
export const HTML_COMMENT = 2;
export const HTML_PROCESSING = 3;
export const HTML_DECLARATION = 4;
export const HTML_CDATA = 5;
export const HTML_BLOCK_NAME = 6;
export const HTML_TAG_ALONE = 7;

/**
 * Of each struct the size, of each field the name, the place and the type, and what reads it at an address.
 * @type {Record<string, { size: number, fields: [string, number, string][], read: (from: any, at: number) => any }>}
 */
export const STRUCTS = {
    text: {
        size: 24,
        fields: [["status", 0, "uint32_t"], ["taken", 8, "size_t"], ["length", 16, "size_t"]],
        read: (from, at) => ({
            status: from.uint32(at),
            taken: from.size(at + 8),
            length: from.size(at + 16),
        }),
    },
    listItem: {
        size: 32,
        fields: [["length", 0, "size_t"], ["start", 8, "size_t"], ["indent", 16, "size_t"], ["delimiter", 24, "uint8_t"]],
        read: (from, at) => ({
            length: from.size(at),
            start: from.size(at + 8),
            indent: from.size(at + 16),
            delimiter: from.uint8(at + 24),
        }),
    },
    indent: {
        size: 24,
        fields: [["status", 0, "uint32_t"], ["place", 8, "size_t"], ["columns", 16, "size_t"]],
        read: (from, at) => ({
            status: from.uint32(at),
            place: from.size(at + 8),
            columns: from.size(at + 16),
        }),
    },
    lineStart: {
        size: 40,
        fields: [["place", 0, "size_t"], ["pending", 8, "size_t"], ["phase", 16, "size_t"], ["noneBefore", 24, "size_t"], ["behindBreak", 32, "size_t"]],
        read: (from, at) => ({
            place: from.size(at),
            pending: from.size(at + 8),
            phase: from.size(at + 16),
            noneBefore: from.size(at + 24),
            behindBreak: from.size(at + 32),
        }),
    },
    columns: {
        size: 16,
        fields: [["status", 0, "uint32_t"], ["columns", 8, "size_t"]],
        read: (from, at) => ({
            status: from.uint32(at),
            columns: from.size(at + 8),
        }),
    },
    lineItem: {
        size: 24,
        fields: [["status", 0, "uint32_t"], ["delimiter", 4, "uint8_t"], ["start", 8, "uint64_t"], ["indent", 16, "size_t"]],
        read: (from, at) => ({
            status: from.uint32(at),
            delimiter: from.uint8(at + 4),
            start: from.size(at + 8),
            indent: from.size(at + 16),
        }),
    },
    task: {
        size: 8,
        fields: [["status", 0, "uint32_t"], ["checked", 4, "bool"]],
        read: (from, at) => ({
            status: from.uint32(at),
            checked: from.bool(at + 4),
        }),
    },
    alert: {
        size: 8,
        fields: [["status", 0, "uint32_t"], ["kind", 4, "uint32_t"]],
        read: (from, at) => ({
            status: from.uint32(at),
            kind: from.uint32(at + 4),
        }),
    },
    lineCall: {
        size: 16,
        fields: [["kind", 0, "uint32_t"], ["number", 8, "size_t"]],
        read: (from, at) => ({
            kind: from.uint32(at),
            number: from.size(at + 8),
        }),
    },
    lineAnswer: {
        size: 24,
        fields: [["found", 0, "bool"], ["delimiter", 1, "uint8_t"], ["start", 8, "uint64_t"], ["number", 16, "size_t"]],
        read: (from, at) => ({
            found: from.bool(at),
            delimiter: from.uint8(at + 1),
            start: from.size(at + 8),
            number: from.size(at + 16),
        }),
    },
    lineRun: {
        size: 16,
        fields: [["status", 0, "uint32_t"], ["count", 8, "size_t"]],
        read: (from, at) => ({
            status: from.uint32(at),
            count: from.size(at + 8),
        }),
    },
    break: {
        size: 16,
        fields: [["length", 0, "size_t"], ["noneBefore", 8, "size_t"]],
        read: (from, at) => ({
            length: from.size(at),
            noneBefore: from.size(at + 8),
        }),
    },
    underline: {
        size: 16,
        fields: [["length", 0, "size_t"], ["level", 8, "uint32_t"]],
        read: (from, at) => ({
            length: from.size(at),
            level: from.uint32(at + 8),
        }),
    },
    fence: {
        size: 16,
        fields: [["length", 0, "size_t"], ["byte", 8, "uint8_t"]],
        read: (from, at) => ({
            length: from.size(at),
            byte: from.uint8(at + 8),
        }),
    },
    referenceDefinition: {
        size: 64,
        fields: [["status", 0, "uint32_t"], ["end", 8, "size_t"], ["labelStart", 16, "size_t"], ["labelLength", 24, "size_t"], ["destinationStart", 32, "size_t"], ["destinationLength", 40, "size_t"], ["titleStart", 48, "size_t"], ["titleLength", 56, "size_t"]],
        read: (from, at) => ({
            status: from.uint32(at),
            end: from.size(at + 8),
            labelStart: from.size(at + 16),
            labelLength: from.size(at + 24),
            destinationStart: from.size(at + 32),
            destinationLength: from.size(at + 40),
            titleStart: from.size(at + 48),
            titleLength: from.size(at + 56),
        }),
    },
    block: {
        size: 72,
        fields: [["kind", 0, "uint32_t"], ["number", 4, "uint32_t"], ["byte", 8, "uint8_t"], ["width", 9, "uint8_t"], ["count", 16, "size_t"], ["indent", 24, "size_t"], ["line", 32, "size_t"], ["lines", 40, "size_t"], ["start", 48, "size_t"], ["bytes", 56, "size_t"], ["place", 64, "size_t"]],
        read: (from, at) => ({
            kind: from.uint32(at),
            number: from.uint32(at + 4),
            byte: from.uint8(at + 8),
            width: from.uint8(at + 9),
            count: from.size(at + 16),
            indent: from.size(at + 24),
            line: from.size(at + 32),
            lines: from.size(at + 40),
            start: from.size(at + 48),
            bytes: from.size(at + 56),
            place: from.size(at + 64),
        }),
    },
    blocks: {
        size: 16,
        fields: [["status", 0, "uint32_t"], ["count", 8, "size_t"]],
        read: (from, at) => ({
            status: from.uint32(at),
            count: from.size(at + 8),
        }),
    },
    openBlocks: {
        size: 16,
        fields: [["depth", 0, "size_t"], ["extensions", 8, "uint32_t"], ["state", 12, "uint32_t"]],
        read: (from, at) => ({
            depth: from.size(at),
            extensions: from.uint32(at + 8),
            state: from.uint32(at + 12),
        }),
    },
    lineBlock: {
        size: 24,
        fields: [["status", 0, "uint32_t"], ["kept", 8, "size_t"], ["depth", 16, "size_t"]],
        read: (from, at) => ({
            status: from.uint32(at),
            kept: from.size(at + 8),
            depth: from.size(at + 16),
        }),
    },
    list: {
        size: 32,
        fields: [["delimiter", 0, "uint8_t"], ["isLoose", 1, "bool"], ["start", 4, "uint32_t"], ["depth", 8, "size_t"], ["line", 16, "size_t"], ["end", 24, "size_t"]],
        read: (from, at) => ({
            delimiter: from.uint8(at),
            isLoose: from.bool(at + 1),
            start: from.uint32(at + 4),
            depth: from.size(at + 8),
            line: from.size(at + 16),
            end: from.size(at + 24),
        }),
    },
    view: {
        size: 16,
        fields: [["text", 0, "size_t"], ["length", 8, "size_t"]],
        read: (from, at) => ({
            text: from.size(at),
            length: from.size(at + 8),
        }),
    },
    inline: {
        size: 88,
        fields: [["kind", 0, "uint32_t"], ["target", 4, "uint32_t"], ["start", 8, "size_t"], ["length", 16, "size_t"], ["count", 24, "size_t"], ["end", 32, "size_t"], ["destinationStart", 40, "size_t"], ["destinationLength", 48, "size_t"], ["titleStart", 56, "size_t"], ["titleLength", 64, "size_t"], ["labelStart", 72, "size_t"], ["labelLength", 80, "size_t"]],
        read: (from, at) => ({
            kind: from.uint32(at),
            target: from.uint32(at + 4),
            start: from.size(at + 8),
            length: from.size(at + 16),
            count: from.size(at + 24),
            end: from.size(at + 32),
            destinationStart: from.size(at + 40),
            destinationLength: from.size(at + 48),
            titleStart: from.size(at + 56),
            titleLength: from.size(at + 64),
            labelStart: from.size(at + 72),
            labelLength: from.size(at + 80),
        }),
    },
    inlines: {
        size: 16,
        fields: [["status", 0, "uint32_t"], ["count", 8, "size_t"]],
        read: (from, at) => ({
            status: from.uint32(at),
            count: from.size(at + 8),
        }),
    },
    htmlSetting: {
        size: 64,
        fields: [["schemes", 0, "size_t"], ["schemeCount", 8, "size_t"], ["rawHtml", 16, "uint32_t"], ["rel", 20, "uint32_t"], ["imagesAsLinks", 24, "uint32_t"], ["strict", 28, "uint32_t"]],
        read: (from, at) => ({
            schemes: from.size(at),
            schemeCount: from.size(at + 8),
            rawHtml: from.uint32(at + 16),
            rel: from.uint32(at + 20),
            imagesAsLinks: from.uint32(at + 24),
            strict: from.uint32(at + 28),
        }),
    },
    event: {
        size: 88,
        fields: [["kind", 0, "uint32_t"], ["element", 4, "uint32_t"], ["detail", 8, "uint32_t"], ["number", 16, "uint64_t"], ["start", 24, "size_t"], ["end", 32, "size_t"], ["textStart", 40, "size_t"], ["textLength", 48, "size_t"], ["titleStart", 56, "size_t"], ["titleLength", 64, "size_t"], ["labelStart", 72, "size_t"], ["labelLength", 80, "size_t"]],
        read: (from, at) => ({
            kind: from.uint32(at),
            element: from.uint32(at + 4),
            detail: from.uint32(at + 8),
            number: from.size(at + 16),
            start: from.size(at + 24),
            end: from.size(at + 32),
            textStart: from.size(at + 40),
            textLength: from.size(at + 48),
            titleStart: from.size(at + 56),
            titleLength: from.size(at + 64),
            labelStart: from.size(at + 72),
            labelLength: from.size(at + 80),
        }),
    },
    events: {
        size: 24,
        fields: [["status", 0, "uint32_t"], ["count", 8, "size_t"], ["length", 16, "size_t"]],
        read: (from, at) => ({
            status: from.uint32(at),
            count: from.size(at + 8),
            length: from.size(at + 16),
        }),
    },
    part: {
        size: 32,
        fields: [["status", 0, "uint32_t"], ["end", 8, "size_t"], ["start", 16, "size_t"], ["length", 24, "size_t"]],
        read: (from, at) => ({
            status: from.uint32(at),
            end: from.size(at + 8),
            start: from.size(at + 16),
            length: from.size(at + 24),
        }),
    },
    delimiterRun: {
        size: 16,
        fields: [["status", 0, "uint32_t"], ["byte", 4, "uint8_t"], ["canOpen", 5, "bool"], ["canClose", 6, "bool"], ["count", 8, "size_t"]],
        read: (from, at) => ({
            status: from.uint32(at),
            byte: from.uint8(at + 4),
            canOpen: from.bool(at + 5),
            canClose: from.bool(at + 6),
            count: from.size(at + 8),
        }),
    },
    skip: {
        size: 16,
        fields: [["place", 0, "size_t"], ["length", 8, "size_t"]],
        read: (from, at) => ({
            place: from.size(at),
            length: from.size(at + 8),
        }),
    },
    tag: {
        size: 24,
        fields: [["status", 0, "uint32_t"], ["end", 8, "size_t"], ["length", 16, "size_t"]],
        read: (from, at) => ({
            status: from.uint32(at),
            end: from.size(at + 8),
            length: from.size(at + 16),
        }),
    },
    htmlGuard: {
        size: 32,
        fields: [["comment", 0, "size_t"], ["cdata", 8, "size_t"], ["declaration", 16, "size_t"], ["processing", 24, "size_t"]],
        read: (from, at) => ({
            comment: from.size(at),
            cdata: from.size(at + 8),
            declaration: from.size(at + 16),
            processing: from.size(at + 24),
        }),
    },
    end: {
        size: 24,
        fields: [["status", 0, "uint32_t"], ["end", 8, "size_t"], ["passed", 16, "size_t"]],
        read: (from, at) => ({
            status: from.uint32(at),
            end: from.size(at + 8),
            passed: from.size(at + 16),
        }),
    },
    htmlRun: {
        size: 16,
        fields: [["status", 0, "uint32_t"], ["count", 8, "size_t"]],
        read: (from, at) => ({
            status: from.uint32(at),
            count: from.size(at + 8),
        }),
    },
    label: {
        size: 32,
        fields: [["status", 0, "uint32_t"], ["end", 8, "size_t"], ["length", 16, "size_t"], ["start", 24, "size_t"]],
        read: (from, at) => ({
            status: from.uint32(at),
            end: from.size(at + 8),
            length: from.size(at + 16),
            start: from.size(at + 24),
        }),
    },
};

/**
 * Of each function the name in C, what it answers, and what it takes.
 * @type {Record<string, [string, string, string[]]>}
 */
export const FUNCTIONS = {
    isWhitespace: ["mds_is_whitespace", "bool", ["uint8_t"]],
    isWhitespaceInLine: ["mds_is_whitespace_in_line", "bool", ["uint8_t"]],
    isPunctuation: ["mds_is_punctuation", "bool", ["uint8_t"]],
    isUnicodeWhitespace: ["mds_is_unicode_whitespace", "bool", ["uint32_t"]],
    isUnicodePunctuation: ["mds_is_unicode_punctuation", "bool", ["uint32_t"]],
    isUtf8: ["mds_is_utf8", "bool", ["pointer", "size_t"]],
    scanCh: ["mds_scan_ch", "size_t", ["pointer", "size_t", "uint8_t"]],
    scanChRepeat: ["mds_scan_ch_repeat", "size_t", ["pointer", "size_t", "uint8_t"]],
    scanWhile: ["mds_scan_while", "size_t", ["pointer", "size_t", "pointer", "size_t"]],
    scanRevWhile: ["mds_scan_rev_while", "size_t", ["pointer", "size_t", "pointer", "size_t"]],
    scanWhitespaceInLine: ["mds_scan_whitespace_in_line", "size_t", ["pointer", "size_t"]],
    scanEol: ["mds_scan_eol", "size_t", ["pointer", "size_t"]],
    scanLine: ["mds_scan_line", "size_t", ["pointer", "size_t"]],
    scanNextline: ["mds_scan_nextline", "size_t", ["pointer", "size_t"]],
    scanBlankLine: ["mds_scan_blank_line", "size_t", ["pointer", "size_t"]],
    scanBlockquoteStart: ["mds_scan_blockquote_start", "size_t", ["pointer", "size_t"]],
    scanListitem: ["mds_scan_listitem", "listItem", ["pointer", "size_t"]],
    calcIndent: ["mds_calc_indent", "indent", ["pointer", "size_t", "size_t"]],
    lineSpace: ["mds_line_space", "uint32_t", ["pointer", "size_t", "pointer", "size_t"]],
    lineSpaceUpTo: ["mds_line_space_up_to", "columns", ["pointer", "size_t", "pointer", "size_t"]],
    lineAllSpace: ["mds_line_all_space", "uint32_t", ["pointer", "size_t", "pointer"]],
    lineIsAtEnd: ["mds_line_is_at_end", "uint32_t", ["pointer", "size_t", "pointer"]],
    lineQuote: ["mds_line_quote", "uint32_t", ["pointer", "size_t", "pointer"]],
    lineList: ["mds_line_list", "lineItem", ["pointer", "size_t", "pointer", "size_t"]],
    lineDefinition: ["mds_line_definition", "columns", ["pointer", "size_t", "pointer", "size_t"]],
    lineTask: ["mds_line_task", "task", ["pointer", "size_t", "pointer"]],
    lineAlert: ["mds_line_alert", "alert", ["pointer", "size_t", "pointer"]],
    runLine: ["mds_run_line", "lineRun", ["pointer", "size_t", "pointer", "pointer", "size_t", "pointer", "size_t"]],
    lineRest: ["mds_line_rest", "text", ["pointer", "size_t", "pointer", "pointer", "size_t"]],
    scanHrule: ["mds_scan_hrule", "break", ["pointer", "size_t"]],
    scanAtxHeading: ["mds_scan_atx_heading", "uint32_t", ["pointer", "size_t"]],
    scanSetextHeading: ["mds_scan_setext_heading", "underline", ["pointer", "size_t"]],
    scanCodeFence: ["mds_scan_code_fence", "fence", ["pointer", "size_t"]],
    scanClosingCodeFence: ["mds_scan_closing_code_fence", "size_t", ["pointer", "size_t", "uint8_t", "size_t"]],
    scanMetadataBlock: ["mds_scan_metadata_block", "fence", ["pointer", "size_t", "bool", "bool"]],
    scanClosingMetadataBlock: ["mds_scan_closing_metadata_block", "size_t", ["pointer", "size_t", "uint8_t"]],
    interruptsParagraph: ["mds_interrupts_paragraph", "bool", ["pointer", "size_t"]],
    scanReferenceDefinition: ["mds_scan_reference_definition", "referenceDefinition", ["pointer", "size_t", "size_t", "size_t"]],
    scanTableHead: ["mds_scan_table_head", "text", ["pointer", "size_t", "pointer", "size_t"]],
    scanBlocks: ["mds_scan_blocks", "blocks", ["pointer", "size_t", "uint32_t", "pointer", "size_t"]],
    blockContent: ["mds_block_content", "text", ["pointer", "size_t", "pointer", "pointer", "size_t", "size_t", "pointer", "size_t"]],
    blockLine: ["mds_block_line", "lineBlock", ["pointer", "size_t", "bool", "pointer", "size_t", "pointer", "pointer"]],
    scanLists: ["mds_scan_lists", "blocks", ["pointer", "size_t", "uint32_t", "pointer", "size_t"]],
    scanInlines: ["mds_scan_inlines", "inlines", ["pointer", "size_t", "pointer", "size_t", "uint32_t", "pointer", "size_t"]],
    html: ["mds_html", "text", ["pointer", "size_t", "uint32_t", "pointer", "size_t"]],
    htmlWith: ["mds_html_with", "text", ["pointer", "size_t", "uint32_t", "pointer", "pointer", "size_t"]],
    htmlUnsafe: ["mds_html_unsafe", "text", ["pointer", "size_t", "uint32_t", "pointer", "size_t"]],
    events: ["mds_events", "events", ["pointer", "size_t", "uint32_t", "pointer", "size_t", "pointer", "size_t"]],
    scanLinkDest: ["mds_scan_link_dest", "part", ["pointer", "size_t", "size_t", "size_t"]],
    scanLinkTitle: ["mds_scan_link_title", "part", ["pointer", "size_t", "size_t"]],
    scanAutolink: ["mds_scan_autolink", "part", ["pointer", "size_t", "size_t"]],
    scanEmailAutolink: ["mds_scan_email_autolink", "part", ["pointer", "size_t", "size_t"]],
    scanCodeSpan: ["mds_scan_code_span", "part", ["pointer", "size_t", "size_t"]],
    scanWikilinkPipe: ["mds_scan_wikilink_pipe", "part", ["pointer", "size_t", "size_t", "size_t"]],
    scanDelimiterRun: ["mds_scan_delimiter_run", "delimiterRun", ["pointer", "size_t", "size_t"]],
    checkSkips: ["mds_check_skips", "uint32_t", ["pointer", "size_t", "pointer", "size_t"]],
    startsHtmlBlockType6: ["mds_starts_html_block_type_6", "bool", ["pointer", "size_t"]],
    scanHtmlType7: ["mds_scan_html_type_7", "size_t", ["pointer", "size_t"]],
    scanHtmlBlockStart: ["mds_scan_html_block_start", "uint32_t", ["pointer", "size_t"]],
    endsHtmlBlock: ["mds_ends_html_block", "uint32_t", ["pointer", "size_t", "uint32_t"]],
    scanHtmlTag: ["mds_scan_html_tag", "size_t", ["pointer", "size_t"]],
    scanHtmlTagOverLines: ["mds_scan_html_tag_over_lines", "tag", ["pointer", "size_t", "size_t", "pointer", "size_t", "pointer", "size_t"]],
    scanInlineHtml: ["mds_scan_inline_html", "end", ["pointer", "size_t", "size_t", "pointer"]],
    runInlineHtml: ["mds_run_inline_html", "htmlRun", ["pointer", "size_t", "pointer", "size_t", "pointer", "size_t"]],
    scanEntity: ["mds_scan_entity", "text", ["pointer", "size_t", "pointer", "size_t"]],
    unescape: ["mds_unescape", "text", ["pointer", "size_t", "bool", "pointer", "size_t"]],
    scanLinkLabel: ["mds_scan_link_label", "label", ["pointer", "size_t", "size_t", "bool", "pointer", "size_t", "pointer", "size_t"]],
    labelsMatch: ["mds_labels_match", "uint32_t", ["pointer", "size_t", "pointer", "size_t"]],
    labelKey: ["mds_label_key", "text", ["pointer", "size_t", "pointer", "size_t"]],
};
