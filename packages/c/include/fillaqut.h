/* A Markdown parser as C functions: the HTML, the events, the blocks and the inlines of a page, and the scanners below them.
 *
 * They stand over the libraries `markdown_html`, `markdown_events`, `markdown_blocks`, `markdown_inlines` and
 * `markdown_scanners_tree`, and each is proved to answer what their definitions say, after CommonMark 0.31.2
 * (https://spec.commonmark.org/0.31.2/), whose sections stand in brackets below.
 *
 * mds_html, mds_html_with and mds_html_unsafe write the HTML of a page, and mds_events its events. mds_scan_blocks returns the
 * blocks of a page, mds_scan_inlines the inlines of the text of a block. mds_block_line reads a page that comes piece by piece. The
 * others are scanners: each reads from the front of the bytes that it is given, or from an offset in them, and says what begins
 * there. None looks for the next construct, so a caller goes through its document and asks.
 *
 * Bytes and texts. A pointer and a length go together; nothing has to end in a zero byte, and zero bytes are read as
 * any other. What is read may be of any type of bytes, as `char` or `uint8_t`. The pointer may be null where the length
 * is 0, and nowhere else. What is given is read during the call alone, and nothing is written but in a buffer, a line
 * start, a guard, or what mds_block_line is given to write in.
 * What is named `bytes` may be any bytes; what is named `text`, `one` or `other` must be UTF-8. Each call looks through
 * all of it, and refuses it where it is not. What is named `page` may be any bytes too, and is read as text.
 *
 * Duties. No buffer may overlap another buffer or anything else that the call is given. A length or capacity is that of
 * memory which is there, and its size in bytes is at most PTRDIFF_MAX. An array is aligned for its type. A pointer to one
 * struct, as a `struct mds_line_start` or a `struct mds_html_guard`, is never null: it has no length beside it, no call tests
 * it, and with a null one the program crashes.
 *
 * Units. Lengths, capacities and offsets are in bytes, those of an array of another type in its elements. Offsets count
 * from 0. Columns and indents are in columns of a line whose tabs go to stops of four (2.2).
 *
 * Answers. A length or an offset that there may be none of is `MDS_NONE` where there is none. Calls that can refuse what
 * they are given answer a status of `enum mds_status`, most as the field `status` of a struct: `MDS_OK` where there is
 * an answer, `MDS_NOTHING` where nothing of the kind stands there, and else why they refused. The other fields mean
 * something where the comment of the struct says so, and are 0 otherwise.
 *
 * Extensions. What is read beside CommonMark is what the parameter `extensions` asks for: the sum of bits of `enum mds_extension`, and 0
 * for CommonMark alone. One that a call has no use for changes nothing there, as tables in the text of a block. Each call refuses any
 * other bit, MDS_BAD_KIND; so do those that make events and HTML with an extension that these are not built of yet.
 *
 * Buffers. Texts that are made go into the caller's buffer. Each call says how much room is enough, whatever it is
 * given: with so much one call does. (Only of HTML no such bound is known.) Where a buffer is too short it is left as it was, and `length` says how many bytes
 * are needed; so a call with no buffer (null and 0) asks for the length.
 *
 * Memory and threads. No call keeps memory or a pointer, or has state, so calls may run in any threads at once. Those
 * that ask the C library for memory within the call say so, free it before they return, and answer `MDS_NO_MEMORY`
 * where they can't do without what was refused. They must not be called in a signal handler, or in the forked child of
 * a process with threads; and `malloc`, `realloc` and `free` must be of one allocator, which aligns a block to each
 * power of two up to 16 that divides its size.
 *
 * Cost. Each call takes time in proportion to all that it is given, at most. Of a text it reads all, since it looks
 * whether it is UTF-8; of bytes no more than it has to, most often up to the end of the line. Only a call that looks
 * for what closes or ends something goes through all of them where nothing does. mds_scan_inlines searches a tree of the labels
 * that it is given, whose depth is the logarithm of their number. HTML takes time for its own length too: an address is written
 * as often as its definition is referred to.
 *
 * Examples. The comment of each function of the library ends with lines of C. Each that has no semicolon at its end is
 * true.
 *
 * Machines. The archive is for x86-64 processors of level 2 (x86-64-v2) and above. One for each x86-64 is made by
 * `rt lib --cpu=x86-64` in the crate's folder: it has 3 KB more, and its outline of 1.8 MB of Markdown takes 2% fewer
 * instructions, that of lines of 200 bytes 4% more.
 */
#ifndef FILLAQUT_H
#define FILLAQUT_H

#include <stdbool.h>
#include <stddef.h>
#include <stdint.h>

#if SIZE_MAX != UINT64_MAX
#error "fillaqut.h is for 64-bit machines"
#endif

#ifdef __cplusplus
extern "C" {
#endif

/* The version of this header, 0.2.0. */
#define MDS_VERSION_MAJOR 0
#define MDS_VERSION_MINOR 2
#define MDS_VERSION_PATCH 0

/* The same as one number, 0xMMmmpp; so that a later version has a larger one. */
#define MDS_VERSION ((MDS_VERSION_MAJOR << 16) | (MDS_VERSION_MINOR << 8) | MDS_VERSION_PATCH)

/* The version of the library that is linked or loaded, as that number. A program runs with the version whose header it
 * was compiled with, and with each later one of the same first number.
 *
 *     mds_version() >= MDS_VERSION && mds_version() >> 16 == MDS_VERSION_MAJOR
 */
uint32_t mds_version(void);

/* In place of a length or an offset, where nothing is found. */
#define MDS_NONE SIZE_MAX

/* What a call comes to. */
enum mds_status {
    MDS_OK = 0,             /* an answer */
    MDS_NOTHING = 1,        /* nothing of the kind stands there */
    MDS_NOT_UTF8 = 2,       /* the text is not UTF-8 */
    MDS_PAST_END = 3,       /* the offset is past the end of the bytes */
    MDS_BAD_SKIPS = 4,      /* the table of what is left out does not match the text */
    MDS_TOO_LARGE = 5,      /* a limit or an indent is so large that columns can't be added to it */
    MDS_EMPTY = 6,          /* there are no bytes */
    MDS_TOO_SHORT = 7,      /* the buffer is too short */
    MDS_NO_MEMORY = 8,      /* memory was refused */
    MDS_NO_OPENER = 9,      /* no `<!` or `<?` ends at the offset */
    MDS_NOT_RISING = 10,    /* the offset is not above the one before it */
    MDS_INSIDE_FIND = 11,   /* the offset is inside what was found before it */
    MDS_SPACE_PENDING = 12, /* columns of a tab are pending, and the call is not one that takes space */
    MDS_BAD_KIND = 13,      /* a call or a block has no known kind, or an extension or a setting is not known, or not built */
    MDS_BAD_STATE = 14      /* a line start has numbers that none has on these bytes, or what is said to be open is no container */
};

/* The name of a status, as "MDS_OK"; "unknown" of a number that is not one. */
static inline const char *mds_status_name(uint32_t status) {
    switch (status) {
    case MDS_OK: return "MDS_OK";
    case MDS_NOTHING: return "MDS_NOTHING";
    case MDS_NOT_UTF8: return "MDS_NOT_UTF8";
    case MDS_PAST_END: return "MDS_PAST_END";
    case MDS_BAD_SKIPS: return "MDS_BAD_SKIPS";
    case MDS_TOO_LARGE: return "MDS_TOO_LARGE";
    case MDS_EMPTY: return "MDS_EMPTY";
    case MDS_TOO_SHORT: return "MDS_TOO_SHORT";
    case MDS_NO_MEMORY: return "MDS_NO_MEMORY";
    case MDS_NO_OPENER: return "MDS_NO_OPENER";
    case MDS_NOT_RISING: return "MDS_NOT_RISING";
    case MDS_INSIDE_FIND: return "MDS_INSIDE_FIND";
    case MDS_SPACE_PENDING: return "MDS_SPACE_PENDING";
    case MDS_BAD_KIND: return "MDS_BAD_KIND";
    case MDS_BAD_STATE: return "MDS_BAD_STATE";
    default: return "unknown";
    }
}

/* packages/extensions */
/* What a page or a text is read with beside CommonMark. Each is a bit, that of pulldown-cmark's `Options`. Events and HTML are not built
 * of MDS_FOOTNOTES and MDS_DEFINITION_LISTS yet. */
enum mds_extension {
    MDS_TABLES = 2,              /* A header row, a delimiter row under it, and the rows after these are a table. (GitHub Flavored Markdown 0.29, 4.10) */
    MDS_FOOTNOTES = 4,           /* `[^label]:` begins a footnote definition, which goes on with blank lines and lines indented by four columns. (GitHub) */
    MDS_STRIKETHROUGH = 8,       /* Text between `~` and `~`, or `~~` and `~~`, is struck through. (GitHub Flavored Markdown 0.29, 6.5) */
    MDS_TASKS = 16,              /* A list item that begins with `[ ]` or `[x]` is a task. (GitHub Flavored Markdown 0.29, 5.3) */
    MDS_DEFINITION_LISTS = 4096, /* `:` begins a definition of the paragraph before it, at once or after one blank line. (PHP Markdown Extra) */
    MDS_WIKILINKS = 32768        /* `[[target]]` and `[[target|text]]` are links, and after `!` images. (Obsidian) */
};
/* end */

/* A text for the caller's buffer, where the status is MDS_OK, and at its front; where it is MDS_TOO_SHORT the buffer is
 * as it was, and `taken` and `length` are set all the same. */
struct mds_text {
    uint32_t status;
    size_t taken;  /* bytes of the input that it stands for */
    size_t length; /* bytes that it has or needs in the buffer */
};

/* ---- Bytes and lines ---- */

/* Space, tab, LF, VT, FF or CR. (2.1)
 *
 *     mds_is_whitespace('\n')
 */
bool mds_is_whitespace(uint8_t byte);

/* Space, tab, VT or FF: white space that ends no line. (2.1)
 *
 *     mds_is_whitespace_in_line('\t') && !mds_is_whitespace_in_line('\n')
 */
bool mds_is_whitespace_in_line(uint8_t byte);

/* An ASCII punctuation character. (2.1)
 *
 *     mds_is_punctuation('!')
 */
bool mds_is_punctuation(uint8_t byte);

/* A Unicode white space character, by its number: a tab, LF, FF or CR, or one of category Zs. Of a number that no
 * character has it is false. (2.1)
 *
 *     mds_is_unicode_whitespace(0xA0) && !mds_is_unicode_whitespace('\v')
 */
bool mds_is_unicode_whitespace(uint32_t character);

/* A Unicode punctuation character, by its number: one of category P or S. (2.1)
 *
 *     mds_is_unicode_punctuation(0x20AC) && !mds_is_unicode_punctuation('a')
 */
bool mds_is_unicode_punctuation(uint32_t character);

/* Whether the bytes are UTF-8.
 *
 *     mds_is_utf8("\xc3\xa4", 2) && !mds_is_utf8("\xc3", 1)
 */
bool mds_is_utf8(const void *bytes, size_t length);

/* 1 where the first byte is this one, else 0.
 *
 *     mds_scan_ch("#a", 2, '#') == 1
 */
size_t mds_scan_ch(const void *bytes, size_t length, uint8_t byte);

/* How many of this byte stand at the front.
 *
 *     mds_scan_ch_repeat("##a", 3, '#') == 2
 */
size_t mds_scan_ch_repeat(const void *bytes, size_t length, uint8_t byte);

/* How many bytes from the front are among the accepted ones. Each is looked for among all of these.
 *
 *     mds_scan_while("abca", 4, "ba", 2) == 2
 */
size_t mds_scan_while(const void *bytes, size_t length, const void *accepted, size_t count);

/* The same from the back.
 *
 *     mds_scan_rev_while("a \t", 3, " \t", 2) == 2
 */
size_t mds_scan_rev_while(const void *bytes, size_t length, const void *accepted, size_t count);

/* How many bytes of white space that ends no line stand at the front.
 *
 *     mds_scan_whitespace_in_line(" \t\n", 3) == 2
 */
size_t mds_scan_whitespace_in_line(const void *bytes, size_t length);

/* The length of the line ending at the front: 1 for LF or CR, 2 for CR LF, 0 at the end of the bytes; else MDS_NONE.
 * (2.1)
 *
 *     mds_scan_eol("\r\na", 3) == 2
 *     mds_scan_eol("a", 1) == MDS_NONE
 */
size_t mds_scan_eol(const void *bytes, size_t length);

/* The length of the line at the front with its ending, LF, CR LF or CR; all bytes where there is none. It is 0 only
 * of no bytes. (2.1)
 *
 *     mds_scan_line("a\rb\n", 4) == 2
 */
size_t mds_scan_line(const void *bytes, size_t length);

/* The offset after the first LF, or the length where there is none. It knows LF alone: where lines may end in CR, ask
 * mds_scan_line.
 *
 *     mds_scan_nextline("a\rb\nc", 5) == 4
 */
size_t mds_scan_nextline(const void *bytes, size_t length);

/* The length of the blank line at the front with its ending, or MDS_NONE where the line is not blank. Of no bytes it
 * is 0. (4.9)
 *
 *     mds_scan_blank_line(" \t\na", 4) == 3
 */
size_t mds_scan_blank_line(const void *bytes, size_t length);

/* The length of the block quote marker at the front, `>` and at most one space: 1 or 2, or MDS_NONE. (5.1)
 *
 *     mds_scan_blockquote_start("> a", 3) == 2
 */
size_t mds_scan_blockquote_start(const void *bytes, size_t length);

/* A list item. Where there is none `length` is MDS_NONE. */
struct mds_list_item {
    size_t length;     /* bytes of the marker and of the white space after it that belongs to it */
    size_t start;      /* the number of an ordered item, else 0 */
    size_t indent;     /* columns of the marker and that space, at least one of it; tabs count from the marker's end */
    uint8_t delimiter; /* `-`, `+` or `*`; `.` or `)` of an ordered item */
};

/* The list item that begins at the front. (5.2) Tab stops count from the marker's end. Two kinds are items here that
 * are not items to MDS_LIST below: a thematic break such as `- - -`, and a marker before a blank rest that begins with a
 * vertical tab or a form feed. A parser that ends a paragraph by this call and begins the item by MDS_LIST loses the
 * second kind, so it asks MDS_LIST both times.
 *
 *     struct mds_list_item item = mds_scan_listitem("10) a", 5);
 *     item.length == 4 && item.start == 10 && item.indent == 4 && item.delimiter == ')'
 */
struct mds_list_item mds_scan_listitem(const void *bytes, size_t length);

/* An indent, where the status is MDS_OK; else it is MDS_TOO_LARGE. */
struct mds_indent {
    uint32_t status;
    size_t place;   /* of the last byte that was looked at; 0 of no bytes */
    size_t columns; /* of the spaces and tabs that were counted */
};

/* The columns of the spaces and tabs at the front. A space that fills `max` columns is counted and ends the scan; a tab
 * that would go past `max` ends it uncounted, as each other byte does. So spaces are counted on where `max` is 0, and
 * after a tab that fills it. `max` is SIZE_MAX / 4 at most. (2.2)
 *
 *     struct mds_indent indent = mds_calc_indent("  a", 3, 4);
 *     indent.place == 2 && indent.columns == 2
 */
struct mds_indent mds_calc_indent(const void *bytes, size_t length, size_t max);

/* ---- Line starts ---- */

/* A position in a line that is read column by column. It is the caller's: all 0 at the front of a line, `{0}`, and then
 * moved by the calls below. The pointer to it is not null. It belongs to the bytes of one line, from the line's front
 * on; they may go on after it, up to the end of the text, and are passed whole to each call, from their front. A copy of
 * the struct goes on by itself.
 *
 * `none_before` and `behind_break` are what is known of the thematic breaks in the line, of which a bullet may be the
 * first byte. Keep them, or the bytes after each bullet are read once more.
 *
 * Whatever the numbers are the calls are safe, and read none but the bytes that are passed. They answer MDS_BAD_STATE
 * where `place` is above the length, or `pending` or `phase` is above 3; then the struct is left as it was. Else a
 * call leaves an offset that is not before the old one, and numbers that are not refused. Numbers that no call has left
 * there have an answer too, as from that offset; only that of mds_line_list, or of MDS_LIST and what comes after it in a
 * run, may then be a wrong one, where `none_before` and `behind_break` are not true of the line. */
struct mds_line_start {
    size_t place;        /* how many bytes have been passed */
    size_t pending;      /* columns of the last tab that have not been taken: 3 at most */
    size_t phase;        /* the column of the offset modulo four, or 0 to 3 */
    size_t none_before;  /* no thematic break begins at an offset from the present one up to this one */
    size_t behind_break; /* a thematic break begins just before this offset, where it is not 0 */
};

/* Columns, where the status is MDS_OK. */
struct mds_columns {
    uint32_t status;
    size_t columns;
};

/* Takes `count` columns of space, or fewer where there are fewer: pending ones first, then those of spaces and tabs.
 * MDS_OK where there were as many, MDS_NOTHING where there were fewer, or MDS_BAD_STATE. It reads what it takes.
 * (2.2)
 *
 *     struct mds_line_start start = {0};
 *     mds_line_space("  a", 3, &start, 3) == MDS_NOTHING && start.place == 2
 */
uint32_t mds_line_space(const void *bytes, size_t length, struct mds_line_start *start, size_t count);

/* The same, and how many it took, 0 too: MDS_OK or MDS_BAD_STATE.
 *
 *     struct mds_line_start start = {0};
 *     mds_line_space_up_to("\ta", 2, &start, 1).columns == 1 && start.place == 1 && start.pending == 3
 */
struct mds_columns mds_line_space_up_to(const void *bytes, size_t length, struct mds_line_start *start, size_t count);

/* Drops pending columns, and passes all spaces and tabs, each as one column, so that columns are not those of the line
 * from then on: MDS_OK or MDS_BAD_STATE.
 *
 *     struct mds_line_start start = {0};
 *     mds_line_all_space(" \t a", 4, &start) == MDS_OK && start.place == 3
 */
uint32_t mds_line_all_space(const void *bytes, size_t length, struct mds_line_start *start);

/* Whether LF, CR or the end of the bytes stands at the offset; pending columns are looked past. MDS_OK, MDS_NOTHING or
 * MDS_BAD_STATE. It reads one byte.
 *
 *     struct mds_line_start start = {0};
 *     mds_line_is_at_end("\r", 1, &start) == MDS_OK
 */
uint32_t mds_line_is_at_end(const void *bytes, size_t length, const struct mds_line_start *start);

/* Passes a block quote marker, `>` and at most one column of space; pending columns are looked past, and one of them
 * is that space. So take up to four columns first, by mds_line_space_up_to: where there are four, no block quote begins
 * there, though this call would find the `>` after them. MDS_OK, MDS_NOTHING or MDS_BAD_STATE. It reads two bytes. (5.1)
 *
 *     struct mds_line_start start = {0};
 *     mds_line_space_up_to(" > a", 4, &start, 4).columns == 1
 *     mds_line_quote(" > a", 4, &start) == MDS_OK && start.place == 3
 */
uint32_t mds_line_quote(const void *bytes, size_t length, struct mds_line_start *start);

/* A list item's marker, where the status is MDS_OK. */
struct mds_line_item {
    uint32_t status;
    uint8_t delimiter; /* `-`, `+` or `*`; `.` or `)` of an ordered item */
    uint64_t start;    /* the number of an ordered item, else 0 */
    size_t indent;     /* columns of what the item holds: `indent`, the marker and the space that belongs to it */
};

/* Passes a list item's marker and the columns that belong to it, at an indent of `indent` columns, SIZE_MAX - 16 at
 * most. MDS_OK; MDS_NOTHING where there is none, or where a thematic break begins, and the offset stays;
 * MDS_TOO_LARGE; MDS_BAD_STATE. Pending columns are looked past, so take up to four columns first: where there are
 * four, no item begins there, as no block quote does. mds_scan_listitem finds two kinds more. It reads the marker,
 * the space after it and a blank rest of the line; and of a bullet the line's bytes up to the first that stands in
 * no thematic break, once as long as the numbers are kept. (5.2)
 *
 *     struct mds_line_start start = {0};
 *     struct mds_line_item item = mds_line_list("10) a", 5, &start, 0);
 *     item.status == MDS_OK && item.delimiter == ')' && item.start == 10 && item.indent == 4 && start.place == 4
 */
struct mds_line_item mds_line_list(const void *bytes, size_t length, struct mds_line_start *start, size_t indent);

/* Passes a definition's marker, `:` and the columns that belong to it, at an indent of `indent` columns, SIZE_MAX - 16
 * at most; the columns are the indent of what the definition holds. MDS_OK, MDS_NOTHING where there is none and the
 * offset stays, MDS_TOO_LARGE, MDS_BAD_STATE. It reads six bytes. (An extension of pulldown-cmark)
 *
 *     struct mds_line_start start = {0};
 *     mds_line_definition(": a", 3, &start, 0).columns == 2
 */
struct mds_columns mds_line_definition(const void *bytes, size_t length, struct mds_line_start *start, size_t indent);

/* The box of a task, where the status is MDS_OK. */
struct mds_task {
    uint32_t status;
    bool checked;
};

/* Passes up to three columns of space and a task list item's box, `[ ]`, `[x]` or `[X]`, after which white space
 * stands and is not taken. MDS_OK; MDS_NOTHING where there is none, and the offset stays; MDS_BAD_STATE. It reads seven
 * bytes. (GitHub Flavored Markdown 0.29, 5.3)
 *
 *     struct mds_line_start start = {0};
 *     mds_line_task("[x] a", 5, &start).checked && start.place == 3
 */
struct mds_task mds_line_task(const void *bytes, size_t length, struct mds_line_start *start);

/* The kinds of alerts. */
enum mds_alert_kind {
    MDS_ALERT_NOTE = 1,
    MDS_ALERT_TIP = 2,
    MDS_ALERT_IMPORTANT = 3,
    MDS_ALERT_WARNING = 4,
    MDS_ALERT_CAUTION = 5
};

/* An alert, where the status is MDS_OK. */
struct mds_alert {
    uint32_t status;
    uint32_t kind; /* of enum mds_alert_kind */
};

/* Passes the line of an alert, `[!NOTE]` or another of the names in any case, with the blank rest of its line and the
 * line ending. MDS_OK; MDS_NOTHING where there is none, and the offset stays; MDS_BAD_STATE. It reads those bytes. (An
 * extension of GitHub)
 *
 *     struct mds_line_start start = {0};
 *     mds_line_alert("[!tip]\n", 7, &start).kind == MDS_ALERT_TIP
 */
struct mds_alert mds_line_alert(const void *bytes, size_t length, struct mds_line_start *start);

/* ---- Runs of calls on a line start ---- */

/* What a call of a run reads at the offset that the calls before it have reached, column by column. */
enum mds_line_call_kind {
    MDS_SPACE = 0,     /* `number` columns of space, or fewer where there are fewer: found where there were as many */
    MDS_UPTO = 1,      /* at most `number` columns of space: how many */
    MDS_EOL = 2,       /* whether the line ends there; takes nothing */
    MDS_QUOTE = 3,     /* a block quote marker with at most one column of space (5.1) */
    MDS_LIST = 4,      /* a list item's marker with the columns that belong to it, `number` being its indent (5.2);
                        * mds_scan_listitem finds two kinds more */
    MDS_DEFINITION = 5 /* the marker `:` of a definition, `number` being its indent; an extension of pulldown-cmark */
};

struct mds_line_call {
    uint32_t kind; /* of enum mds_line_call_kind */
    size_t number; /* columns of space, or an indent of SIZE_MAX - 16 at most; of no other call */
};

struct mds_line_answer {
    bool found;        /* of MDS_UPTO always */
    uint8_t delimiter; /* of a list item: `-`, `+`, `*`, `.` or `)` */
    uint64_t start;    /* of an ordered list item: its number */
    size_t number;     /* columns taken by MDS_UPTO; the indent of what an item or a definition holds */
};

/* What a run came to. `count` is how many calls were made before it stopped, or 0 where none was. */
struct mds_line_run {
    uint32_t status;
    size_t count;
};

/* Makes the calls in turn from the line start on, as on the line with its tabs written out to stops of four, and leaves
 * it where the run stopped; so the next run goes on from there. It stops before the first call that is refused:
 * MDS_SPACE_PENDING where columns are pending and the call takes no space, MDS_TOO_LARGE where an indent is too large;
 * else the status is MDS_OK. In all these cases the answers of the calls before stand at the front of `answers`. No call
 * is made, and nothing is written, where the numbers of the line start are refused, MDS_BAD_STATE, where some call has
 * no known kind, MDS_BAD_KIND, and where `answers` has no room for as many answers as there are calls, MDS_TOO_SHORT.
 * Each call reads what the one of its name above reads. (2.2)
 *
 *     struct mds_line_start start = {0};
 *     struct mds_line_call calls[] = {{MDS_QUOTE, 0}, {MDS_UPTO, 1}};
 *     struct mds_line_answer answers[2];
 *     mds_run_line(">\t- x", 5, &start, calls, 2, answers, 2).count == 2
 *     answers[0].found && answers[1].number == 1 && start.place == 2
 */
struct mds_line_run mds_run_line(
    const void *bytes, size_t length, struct mds_line_start *start, const struct mds_line_call *calls, size_t call_count,
    struct mds_line_answer *answers, size_t capacity);

/* What is left of the bytes from the line start on: pending columns as spaces, then the bytes from its offset on, of which
 * the tabs before the first line ending are written out as spaces. So for the rest of a line give its bytes alone.
 * `taken` is how many bytes stand from the offset on; four bytes for each of these, and one for each pending column, are
 * room enough. It goes through them twice. MDS_OK, MDS_TOO_SHORT or MDS_BAD_STATE. (2.2)
 *
 *     struct mds_line_start start = {0};
 *     uint8_t buffer[12];
 *     mds_line_rest("a\tb", 3, &start, buffer, 12).length == 5 && memcmp(buffer, "a   b", 5) == 0
 */
struct mds_text mds_line_rest(
    const void *bytes, size_t length, const struct mds_line_start *start, uint8_t *buffer, size_t capacity);

/* ---- Blocks ---- */

/* A thematic break. Where there is none `length` is MDS_NONE. */
struct mds_break {
    size_t length;      /* bytes of its line, with the ending */
    size_t none_before; /* of none: no thematic break begins at an offset before this one; 0 of a break */
};

/* The thematic break at the front. Of a line such as `* * * a` each bullet could begin one, and none does: who keeps
 * `none_before` need not ask again below it, and so reads a line of bullets once. (4.1)
 *
 *     mds_scan_hrule("* * *\n", 6).length == 6
 *     mds_scan_hrule("* * a", 5).none_before == 4
 */
struct mds_break mds_scan_hrule(const void *bytes, size_t length);

/* The level, 1 to 6, of the ATX heading at the front, which has as many `#`; 0 where there is none. (4.2)
 *
 *     mds_scan_atx_heading("## a", 4) == 2
 */
uint32_t mds_scan_atx_heading(const void *bytes, size_t length);

/* A setext heading's underline. Where there is none `length` is MDS_NONE. */
struct mds_underline {
    size_t length;  /* bytes of its line, with the ending */
    uint32_t level; /* 1 of `=`, 2 of `-` */
};

/* The setext heading underline at the front. (4.3)
 *
 *     struct mds_underline line = mds_scan_setext_heading("---\na", 5);
 *     line.length == 4 && line.level == 2
 */
struct mds_underline mds_scan_setext_heading(const void *bytes, size_t length);

/* A fence, of code or of metadata. Where there is none `length` is MDS_NONE. */
struct mds_fence {
    size_t length; /* how many of the fence's bytes stand there */
    uint8_t byte;  /* a backtick or `~` of code; `-` or `+` of metadata */
};

/* The opening code fence at the front; its info string is not taken. (4.5)
 *
 *     struct mds_fence fence = mds_scan_code_fence("~~~~ c", 6);
 *     fence.length == 4 && fence.byte == '~'
 */
struct mds_fence mds_scan_code_fence(const void *bytes, size_t length);

/* The length of the closing code fence at the front, with the spaces and tabs after it and without its line ending, of
 * a fence that was opened by `count` of the byte `fence`; or MDS_NONE. Of no bytes it is 0: the end closes a fence too.
 * (4.5)
 *
 *     mds_scan_closing_code_fence("```` \n", 6, '`', 3) == 5
 */
size_t mds_scan_closing_code_fence(const void *bytes, size_t length, uint8_t fence, size_t count);

/* The opening line of a metadata block, of `---` where `yaml` is true and of `+++` where `pluses` is. Its next line is
 * neither blank nor closes it, and a later one does; they end at LF. (An extension of pulldown-cmark)
 *
 *     mds_scan_metadata_block("---\na: b\n---\n", 13, true, false).length == 3
 */
struct mds_fence mds_scan_metadata_block(const void *bytes, size_t length, bool yaml, bool pluses);

/* The length of the line at the front that closes a metadata block opened by the byte `fence`, without its line
 * ending, or MDS_NONE.
 *
 *     mds_scan_closing_metadata_block("...\n", 4, '-') == 3
 */
size_t mds_scan_closing_metadata_block(const void *bytes, size_t length, uint8_t fence);

/* Whether the line at the front can interrupt a paragraph, after at most three columns of indent: a thematic break, an
 * ATX heading, an opening code fence, a block quote marker, a list item that is not blank and has a bullet or the number
 * 1, or an HTML block whose kind is not MDS_HTML_TAG_ALONE. Blank lines and setext heading underlines end a paragraph
 * too, and interrupt none. (4.8, and 4.1, 4.2, 4.5, 4.6, 5.1, 5.2)
 *
 *     mds_interrupts_paragraph("- a", 3) && !mds_interrupts_paragraph("2. a", 4)
 */
bool mds_interrupts_paragraph(const void *bytes, size_t length);

/* A link reference definition, where the status is MDS_OK: the offsets of its parts, as they are written there, and how many
 * bytes they have. It is MDS_NOTHING where there is none, and MDS_PAST_END where the offset is past the end of the bytes.
 */
struct mds_reference_definition {
    uint32_t status;
    size_t end;                                   /* the offset after its last line */
    size_t label_start, label_length;             /* what stands between the brackets of its label */
    size_t destination_start, destination_length; /* its destination, without angle brackets */
    size_t title_start, title_length;             /* its title, without the bytes around it; MDS_NONE and 0 of none */
};

/* The link reference definition that begins at the offset `start`. The bytes are the content of a paragraph: its lines
 * without the markers of containers and without indent. Of more definitions each begins where the one before it ends.
 * What something follows in its line is not a title: where it began in a line of its own, the definition ends before
 * that. Parentheses in the destination may stand in each other `max_next` + 1 deep. mds_scan_link_label reads the label
 * at `label_start`. No byte after the one that decides is read; where they are UTF-8 and the offset is between two
 * characters, so are both ends of each part. (4.7)
 *
 *     struct mds_reference_definition found = mds_scan_reference_definition("[a]: <b> 'c'\n", 13, 0, 31);
 *     found.status == MDS_OK && found.end == 13 && found.label_start == 1 && found.label_length == 1
 *     found.destination_start == 6 && found.destination_length == 1
 *     found.title_start == 10 && found.title_length == 1
 */
struct mds_reference_definition mds_scan_reference_definition(
    const void *bytes, size_t length, size_t start, size_t max_next);

/* How a column of a table is aligned. */
enum mds_alignment { MDS_ALIGN_NONE = 0, MDS_ALIGN_LEFT = 1, MDS_ALIGN_CENTER = 2, MDS_ALIGN_RIGHT = 3 };

/* The delimiter row of a table at the front: `taken` is its length with the line ending, `length` how many columns it
 * has, whose alignments, each a number of enum mds_alignment, stand at the front of the buffer; `length` bytes are
 * enough for them. MDS_NOTHING where there is none. Memory is asked for where there is one, or where the line has
 * nothing but bytes of one, a pipe among them, and its first cell is one: MDS_NO_MEMORY. (GitHub Flavored Markdown
 * 0.29, 4.10)
 *
 *     uint8_t alignments[2];
 *     mds_scan_table_head("|-|:-:|\n", 8, alignments, 2).length == 2
 *     alignments[0] == MDS_ALIGN_NONE && alignments[1] == MDS_ALIGN_CENTER
 */
struct mds_text mds_scan_table_head(const void *bytes, size_t length, uint8_t *alignments, size_t capacity);

/* ---- Pages ---- */

/* What stands in a page: containers, which begin and end, and leaf blocks in them. Blank lines, which are no block, stand
 * in a row as one. */
enum mds_block_kind {
    MDS_BLOCK_END = 0,         /* the innermost container that has begun ends */
    MDS_BLOCK_QUOTE = 1,       /* a block quote begins (5.1) */
    MDS_BLOCK_ITEM = 2,        /* a list item begins (5.2) */
    MDS_BLOCK_BLANK = 3,       /* blank lines (4.9) */
    MDS_BLOCK_BREAK = 4,       /* a thematic break (4.1) */
    MDS_BLOCK_HEADING = 5,     /* an ATX heading (4.2) */
    MDS_BLOCK_SETEXT = 6,      /* a setext heading (4.3) */
    MDS_BLOCK_INDENTED = 7,    /* indented code (4.4) */
    MDS_BLOCK_FENCED = 8,      /* fenced code (4.5) */
    MDS_BLOCK_HTML = 9,        /* an HTML block (4.6) */
    MDS_BLOCK_TABLE = 10,      /* a table, with MDS_TABLES (GitHub Flavored Markdown 0.29, 4.10) */
    MDS_BLOCK_DEFINITION = 11, /* a link reference definition (4.7) */
    MDS_BLOCK_PARAGRAPH = 12,  /* a paragraph (4.8) */
    MDS_BLOCK_FOOTNOTE = 13,   /* a footnote definition begins, a container, with MDS_FOOTNOTES */
    MDS_BLOCK_TERM_DEFINITION = 14 /* a definition of the term before it begins, a container, with MDS_DEFINITION_LISTS */
};

/* A container that begins, the end of one, or a leaf block. */
struct mds_block {
    uint32_t kind;       /* of enum mds_block_kind */
    uint32_t number;     /* the level of a heading; the start of a list item; of HTML its kind, of enum mds_html_kind */
    uint8_t byte;        /* of a list item its bullet or delimiter; of fenced code the byte of its fence */
    uint8_t width;       /* of a list item or a definition of a term how many columns its later lines are indented by */
    size_t count;        /* of fenced code how many bytes its fence has; of a table how many columns it has; see mds_block_line */
    size_t indent;       /* of a leaf block the columns of space in its first line after its containers, at most four */
    size_t line, lines;  /* of a leaf block how many lines of the page stand before it, and how many it has */
    size_t start, bytes; /* of a leaf block the offset of its first line, and how many bytes its lines have */
    size_t place;        /* of a container that begins the offset of its marker; of a leaf block that of what stands in
                          * its first line after its containers and `indent` */
};

/* How many blocks there are, and whether they are written. */
struct mds_blocks {
    uint32_t status;
    size_t count; /* how many they are, where the status is MDS_OK or MDS_TOO_SHORT */
};

/* All blocks of a page, in order. A container stands before the leaf blocks in it, and its end after them; they nest, and
 * each that begins ends. The lines of the leaf blocks, joined, are the page, but for a byte order mark, U+FEFF, that it
 * begins with, which no block has. Of a paragraph that begins with link reference definitions each of these is a leaf block,
 * and what is left of it the last. Most pages have fewer blocks than lines. Where the buffer is too short it is left as it
 * was, and `count` says how many blocks it needs room for. MDS_BAD_KIND where a bit of `extensions` is not known. Memory is asked
 * for, for the blocks and while the page is read: MDS_NO_MEMORY. (3, 4, 5)
 *
 *     struct mds_block blocks[4];
 *     mds_scan_blocks("# A\n\n> b\nc", 10, 0, blocks, 4).count == 5
 *     mds_scan_blocks("# A\n> b\nc", 9, 0, blocks, 4).status == MDS_OK
 *     blocks[0].kind == MDS_BLOCK_HEADING && blocks[0].number == 1 && blocks[0].lines == 1
 *     blocks[1].kind == MDS_BLOCK_QUOTE && blocks[1].place == 4
 *     blocks[2].kind == MDS_BLOCK_PARAGRAPH && blocks[2].line == 1 && blocks[2].lines == 2 && blocks[2].place == 6
 *     blocks[3].kind == MDS_BLOCK_END
 *     mds_scan_blocks("|a|\n|-|", 7, MDS_TABLES, blocks, 4).count == 1 && blocks[0].kind == MDS_BLOCK_TABLE
 *     mds_scan_blocks("|a|\n|-|", 7, 0, blocks, 4).count == 1 && blocks[0].kind == MDS_BLOCK_PARAGRAPH
 *     mds_scan_blocks("a", 1, 1, blocks, 4).status == MDS_BAD_KIND
 */
struct mds_blocks mds_scan_blocks(
    const void *bytes, size_t length, uint32_t extensions, struct mds_block *blocks, size_t capacity);

/* The content of a leaf block of mds_scan_blocks. Of a paragraph or a heading it is the text for inline scanners: what its
 * lines have after their containers, without the spaces and tabs before it, without the closing `#` of a heading and
 * the underline, and without white space at the end; the other line endings stay. Of a definition it is all of it. Of
 * code and HTML it is the lines after their containers, of code without its indent and its fences, each with a line feed
 * for its line ending; columns of a tab that is cut are spaces. A thematic break, blank lines and a table have none.
 *
 * `containers` are the containers that the block stands in, outermost first, each as the block with which it began: those
 * that have begun before it and not ended. Its first line goes on with `kept` of them, and begins the others: `kept` are
 * as many as had begun and not ended after the last leaf block, or the last end, before it.
 *
 * `taken` is how many bytes its lines have; most often so much room is enough. MDS_PAST_END where they don't stand in the
 * page, MDS_BAD_KIND where the numbers of `block` are those of no leaf block, or one of `containers` begins none. Memory
 * is asked for: MDS_NO_MEMORY. (2.2, 4.2 to 4.8)
 *
 *     struct mds_block blocks[3];
 *     uint8_t buffer[7];
 *     mds_scan_blocks("> a\n>\tb", 7, 0, blocks, 3).count == 3
 *     mds_block_content("> a\n>\tb", 7, &blocks[1], blocks, 1, 0, buffer, 7).length == 3
 *     memcmp(buffer, "a\nb", 3) == 0
 */
struct mds_text mds_block_content(
    const void *bytes, size_t length, const struct mds_block *block, const struct mds_block *containers,
    size_t container_count, size_t kept, uint8_t *buffer, size_t capacity);

/* How far a page is read, block by block, for mds_block_line. All is zero before the first block, but for the extensions. */
struct mds_open_blocks {
    size_t depth;        /* how many containers are open: so many at the front of the caller's array */
    uint32_t extensions; /* bits of enum mds_extension, the same for a whole page */
    uint32_t state;      /* what stands before the next block: 1 for a term, which a definition may follow, and 2 for a paragraph,
                          * which a table may end; both for a paragraph that is a term */
};

/* The containers of a block, where the status is MDS_OK or MDS_TOO_SHORT. */
struct mds_line_block {
    uint32_t status;
    size_t kept;  /* how many of those that were open its first line goes on with: the others end */
    size_t depth; /* how many are open then, and need room: those after `kept` begin */
};

/* The leaf block at the front of the bytes, which are the page after the block before, as far as it is read: for a page that
 * comes piece by piece, or is too long to keep. What a line is may be known by later ones alone. So as long as the input has not
 * ended, a block is returned once whole lines show where it ends, and a last line that is not whole is not looked at: MDS_NOTHING
 * says that more is needed, or, where the input has ended, that there are no bytes. The block has `block->bytes` bytes, after
 * which the next call reads; offsets in it are those in the bytes. Who asks again with each line reads a long block as often as
 * it has lines: ask again once there are twice as many bytes. The first call begins after a byte order mark, if the page has one.
 *
 * `containers` is an array of the caller's, of which `open->depth` at the front are open, outermost first. Where the status is
 * MDS_OK those that are open after the block are written there, and their number to `open->depth`. They are as mds_block_content
 * takes them, with `kept`; those that begin have the offset of their marker, and the others 0; and `count` is 1 of an item or a
 * definition of a term of which one line is read, that is blank after its marker. At the end of the page those that are open end.
 * With another status all is left as it was.
 *
 * All is as mds_scan_blocks has it of the whole page with these extensions, but that a paragraph which begins with link reference
 * definitions is one block: they stand at the front of its content, where mds_scan_reference_definition reads them.
 *
 * MDS_TOO_SHORT where the array has no room for `depth` containers. MDS_BAD_KIND where a bit of `open->extensions` is not known,
 * MDS_BAD_STATE where `open->depth` is above `capacity`, `open->state` above 3, or what is open there is no container. Memory is
 * asked for, for the containers and while the block is read: MDS_NO_MEMORY. (3, 4, 5)
 *
 *     struct mds_block containers[2], block;
 *     struct mds_open_blocks open = {0, 0, 0};
 *     mds_block_line("> a\nb", 5, false, containers, 2, &open, &block).status == MDS_NOTHING
 *     mds_block_line("> a\nb\n# c\n", 10, false, containers, 2, &open, &block).status == MDS_OK
 *     block.kind == MDS_BLOCK_PARAGRAPH && block.lines == 2 && block.bytes == 6 && block.place == 2
 *     open.depth == 1 && containers[0].kind == MDS_BLOCK_QUOTE
 *     mds_block_line("# c\n", 4, true, containers, 2, &open, &block).kept == 0
 *     block.kind == MDS_BLOCK_HEADING && open.depth == 0
 */
struct mds_line_block mds_block_line(
    const void *bytes, size_t length, bool has_ended, struct mds_block *containers, size_t capacity, struct mds_open_blocks *open,
    struct mds_block *block);

/* A list of a page: items that follow each other in one container, of one bullet or delimiter. */
struct mds_list {
    uint8_t delimiter; /* the bullet or the delimiter of its items */
    bool is_loose;     /* whether it is loose, and not tight */
    uint32_t start;    /* the number of its first item, and 0 after a bullet */
    size_t depth;      /* how many containers it stands in */
    size_t line, end;  /* how many lines of the page stand before its first, and before what follows its last */
};

/* All lists of a page, each where it ends: a list in an item stands before the list of that item. A list is loose where a
 * blank line stands between two of its items, or between two blocks directly in an item, and else tight. Where the buffer
 * is too short it is left as it was, and `count` says how many lists it needs room for. MDS_BAD_KIND where a bit of `extensions`
 * is not known. Memory is asked for, for the lists and while the page is read: MDS_NO_MEMORY. (5.3)
 *
 *     struct mds_list lists[2];
 *     mds_scan_lists("1. a\n2. b\n\n   c", 15, 0, lists, 2).count == 1
 *     lists[0].delimiter == '.' && lists[0].start == 1 && lists[0].is_loose && lists[0].end == 4
 */
struct mds_blocks mds_scan_lists(
    const void *bytes, size_t length, uint32_t extensions, struct mds_list *lists, size_t capacity);

/* ---- Inlines ---- */

/* What stands in the text of a block: inlines that hold no others, and where those begin and end that do. */
enum mds_inline_kind {
    MDS_INLINE_TEXT = 0,              /* text (6.9); delimiters in no emphasis and brackets of no link are text too */
    MDS_INLINE_ESCAPE = 1,            /* a backslash and the punctuation that it escapes (2.4) */
    MDS_INLINE_REFERENCE = 2,         /* a character reference (2.5) */
    MDS_INLINE_CODE = 3,              /* a code span (6.1) */
    MDS_INLINE_URI = 4,               /* an absolute URI in angle brackets (6.5) */
    MDS_INLINE_EMAIL = 5,             /* an email address in angle brackets (6.5) */
    MDS_INLINE_HTML = 6,              /* raw HTML (6.6) */
    MDS_INLINE_SOFT_BREAK = 7,        /* a soft line break, with the spaces around it (6.8) */
    MDS_INLINE_HARD_BREAK = 8,        /* a hard line break, with the spaces around it and the backslash that may make it (6.7) */
    MDS_INLINE_EMPHASIS = 9,          /* emphasis begins (6.2) */
    MDS_INLINE_EMPHASIS_END = 10,     /* the innermost emphasis that has begun ends */
    MDS_INLINE_STRONG = 11,           /* strong emphasis begins (6.2) */
    MDS_INLINE_STRONG_END = 12,       /* the innermost strong emphasis that has begun ends */
    MDS_INLINE_LINK = 13,             /* a link begins (6.3) */
    MDS_INLINE_IMAGE = 14,            /* an image begins (6.4) */
    MDS_INLINE_LINK_END = 15,         /* the innermost link or image that has begun ends */
    MDS_INLINE_STRIKETHROUGH = 16,    /* strikethrough begins, with MDS_STRIKETHROUGH */
    MDS_INLINE_STRIKETHROUGH_END = 17 /* the innermost strikethrough that has begun ends */
};

/* Where a link or an image leads, by what follows its text (6.3), or as a wikilink. */
enum mds_link_target {
    MDS_TARGET_INLINE = 1,    /* a destination and perhaps a title in parentheses */
    MDS_TARGET_FULL = 2,      /* a label */
    MDS_TARGET_COLLAPSED = 3, /* `[]`; its text is the label */
    MDS_TARGET_SHORTCUT = 4,  /* neither; its text is the label */
    MDS_TARGET_WIKI = 5       /* it is a wikilink, whose target stands before its text; one that has no text shows its target */
};

/* A text of the caller's. */
struct mds_view {
    const void *text;
    size_t length;
};

/* An inline that holds no others, or where one begins or ends that does. */
struct mds_inline {
    uint32_t kind;        /* of enum mds_inline_kind */
    uint32_t target;      /* of a link or an image that begins: of enum mds_link_target */
    size_t start, length; /* its offset, and how many bytes it has; of emphasis and strikethrough those of the delimiters that begin
                           * or end it, of a link or an image its left bracket, with the `!` of an image, or its right bracket
                           * and what follows there that belongs to it; of a wikilink that begins all before its text */
    size_t count;         /* of a code span how many backticks stand on each side of its content */
    size_t end;           /* of a link or an image that begins the offset after all of it */
    size_t destination_start, destination_length; /* of MDS_TARGET_INLINE its destination, without angle brackets; of
                                                   * MDS_TARGET_WIKI its target, whose bytes stand for themselves */
    size_t title_start, title_length;             /* of the former its title, without the bytes around it; MDS_NONE and 0 of none */
    size_t label_start, label_length;             /* of the other targets what stands between the brackets of the label */
};

/* How many inlines there are, and whether they are written. */
struct mds_inlines {
    uint32_t status;
    size_t count; /* how many they are, where the status is MDS_OK or MDS_TOO_SHORT */
};

/* All inlines of a text, the content of a paragraph or a heading as mds_block_content has it, in order. Their bytes, joined, are
 * the text, and they nest: each that begins ends. Text may stand in several, one after another. Destinations, titles and labels are
 * as they are written: mds_unescape decodes the first two, and mds_scan_link_label reads the label at `label_start`.
 *
 * `labels` are those that are defined, each as mds_scan_link_label writes it; null and 0 for no labels. What refers to a label that
 * matches none of them, as mds_labels_match has it, is text. Of `extensions` MDS_STRIKETHROUGH and MDS_WIKILINKS are read in a text, and
 * the others change nothing. MDS_BAD_KIND where a bit is not known.
 *
 * Where the buffer is too short it is left as it was, and `count` says how many inlines it needs room for: as many as the text has
 * bytes at most. MDS_NOT_UTF8 where the text or a label is not UTF-8. Memory is asked for, for the text, the labels and the
 * inlines: MDS_NO_MEMORY. (6)
 *
 *     struct mds_view labels[] = {{"b", 1}};
 *     struct mds_inline inlines[7];
 *     mds_scan_inlines("*a* [B]", 7, labels, 1, 0, inlines, 7).count == 7
 *     inlines[0].kind == MDS_INLINE_EMPHASIS && inlines[1].kind == MDS_INLINE_TEXT && inlines[1].start == 1
 *     inlines[4].kind == MDS_INLINE_LINK && inlines[4].target == MDS_TARGET_SHORTCUT && inlines[4].end == 7
 *     inlines[4].label_start == 5 && inlines[4].label_length == 1
 *     mds_scan_inlines("[a](/b)", 7, NULL, 0, 0, inlines, 7).count == 3
 *     inlines[0].destination_start == 4 && inlines[0].destination_length == 2 && inlines[0].title_start == MDS_NONE
 *     inlines[2].kind == MDS_INLINE_LINK_END && inlines[2].start == 2 && inlines[2].length == 5
 *     mds_scan_inlines("~~a~~", 5, NULL, 0, MDS_STRIKETHROUGH, inlines, 7).count == 3
 *     inlines[0].kind == MDS_INLINE_STRIKETHROUGH && inlines[0].length == 2 && inlines[2].start == 3
 *     mds_scan_inlines("[[a|b]]", 7, NULL, 0, MDS_WIKILINKS, inlines, 7).count == 3
 *     inlines[0].target == MDS_TARGET_WIKI && inlines[0].destination_start == 2 && inlines[0].destination_length == 1
 *     mds_scan_inlines("a", 1, NULL, 0, MDS_TABLES, inlines, 7).count == 1
 */
struct mds_inlines mds_scan_inlines(
    const void *text, size_t length, const struct mds_view *labels, size_t label_count, uint32_t extensions,
    struct mds_inline *inlines, size_t capacity);

/* ---- The HTML of a page ---- */

/* The HTML of a page, safe for pages by people who are not trusted: raw HTML is written as text; of links and images an address is
 * written where it is relative or has one of the schemes http, https, mailto and tel, without regard to case, and else an empty one; and
 * links say `rel="nofollow noopener"`. All else is written as in the examples of CommonMark and of GitHub Flavored Markdown.
 *
 * A page that is not UTF-8 is read with U+FFFD in the place of each part that is wrong, as the decoder of the Encoding standard reads it: the
 * longest part that begins a character, or else one byte. mds_html_with refuses it where that is asked for.
 *
 * `taken` is the length of the page. Its HTML has at most 657 bytes for each byte of the page, and 3,100,000. Twice the page and 64 bytes
 * are enough for most; where the status is MDS_TOO_SHORT, the same call with a buffer of `length` bytes makes all of it anew, and is
 * MDS_OK (examples/html.c).
 *
 * MDS_BAD_KIND where a bit of `extensions` is not known, or HTML is not built of it yet. Memory is asked for, for the blocks of the page,
 * the inlines of one block after another, the HTML, and the page where it is not UTF-8: MDS_NO_MEMORY. (3 to 6)
 *
 *     uint8_t html[72];
 *     mds_html("[a](javascript:b)", 17, 0, html, 72).length == 48
 *     memcmp(html, "<p><a href=\"\" rel=\"nofollow noopener\">a</a></p>\n", 48) == 0
 *     mds_html("<b>", 3, 0, html, 72).length == 10 && memcmp(html, "&lt;b&gt;\n", 10) == 0
 *     mds_html("a\xe2\x82", 3, 0, html, 72).length == 12 && memcmp(html, "<p>a\xef\xbf\xbd</p>\n", 12) == 0
 *     mds_html("|a|\n|-|", 7, MDS_TABLES, NULL, 0).status == MDS_TOO_SHORT
 *     mds_html("a", 1, MDS_FOOTNOTES, html, 72).status == MDS_BAD_KIND
 */
struct mds_text mds_html(const void *page, size_t length, uint32_t extensions, uint8_t *buffer, size_t capacity);

/* What is written of the HTML that stands in a page, in blocks of its own and in texts. (4.6, 6.6) */
enum mds_raw_html {
    MDS_RAW_HTML_ESCAPED = 0, /* its text, with references for what would be HTML */
    MDS_RAW_HTML_OMITTED = 1  /* nothing */
};

/* What links say of where they lead. */
enum mds_rel {
    MDS_REL_NOFOLLOW = 0, /* `rel="nofollow noopener"` */
    MDS_REL_NONE = 1      /* nothing */
};

/* What safe HTML is written with. All 0, `{0}`, is what mds_html writes with. A scheme is a text without a colon; one that no address
 * has, as an empty text, allows relative addresses alone. `reserved` is room for fields of later versions, so that the struct never
 * grows, and 0 there will mean what is done now: set the whole struct to 0 first, or name its fields where it is made, as below. */
struct mds_html_setting {
    const struct mds_view *schemes; /* those that addresses may have; null and 0 for http, https, mailto and tel */
    size_t scheme_count;
    uint32_t raw_html;        /* of enum mds_raw_html */
    uint32_t rel;             /* of enum mds_rel */
    uint32_t images_as_links; /* 1 where an image is written as a link to it, whose text is its description, and in a link as that text
                               * alone; else 0 */
    uint32_t strict;          /* 1 where a page that is not UTF-8 is refused; else 0 */
    uint32_t reserved[8];     /* 0 */
};

/* The same by a setting, to which the pointer is not null. The HTML is safe with each: raw HTML is never kept.
 *
 * MDS_BAD_KIND as of mds_html, and where a number of the setting has no meaning, or one of `reserved` is not 0. Else MDS_NOT_UTF8 where
 * the setting is strict and the page is not UTF-8, and `taken` is the offset of the first byte of it that is wrong; or where a scheme is
 * not UTF-8, and `taken` is MDS_NONE. Memory is asked for as by mds_html, and for the list of schemes: MDS_NO_MEMORY.
 *
 *     uint8_t html[72];
 *     struct mds_view schemes[] = {{"ftp", 3}};
 *     struct mds_html_setting setting = {.schemes = schemes, .scheme_count = 1, .rel = MDS_REL_NONE};
 *     mds_html_with("<ftp://a>", 9, 0, &setting, html, 72).length == 37
 *     memcmp(html, "<p><a href=\"ftp://a\">ftp://a</a></p>\n", 37) == 0
 *     mds_html_with("<https://a>", 11, 0, &setting, html, 72).length == 32
 *     setting = (struct mds_html_setting){.raw_html = MDS_RAW_HTML_OMITTED, .images_as_links = 1};
 *     mds_html_with("a<b>", 4, 0, &setting, html, 72).length == 9 && memcmp(html, "<p>a</p>\n", 9) == 0
 *     mds_html_with("![a](b)", 7, 0, &setting, html, 72).length == 49
 *     memcmp(html, "<p><a href=\"b\" rel=\"nofollow noopener\">a</a></p>\n", 49) == 0
 *     setting = (struct mds_html_setting){.strict = 1};
 *     struct mds_text found = mds_html_with("a\xe2\x82", 3, 0, &setting, html, 72);
 *     found.status == MDS_NOT_UTF8 && found.taken == 1
 *     setting.reserved[0] = 1;
 *     mds_html_with("a", 1, 0, &setting, html, 72).status == MDS_BAD_KIND
 */
struct mds_text mds_html_with(
    const void *page, size_t length, uint32_t extensions, const struct mds_html_setting *setting, uint8_t *buffer, size_t capacity);

/* The HTML of a page as the examples write it: raw HTML stands in it as it is, and links lead anywhere. It is for text of one's own, and
 * mds_html for text by others. A page that is not UTF-8, MDS_BAD_KIND and MDS_NO_MEMORY are as of mds_html.
 *
 *     uint8_t html[18];
 *     struct mds_text found = mds_html_unsafe("*a*", 3, 0, html, 18);
 *     found.status == MDS_OK && found.taken == 3 && found.length == 18 && memcmp(html, "<p><em>a</em></p>\n", 18) == 0
 *     mds_html_unsafe("<b>", 3, 0, html, 18).length == 4 && memcmp(html, "<b>\n", 4) == 0
 */
struct mds_text mds_html_unsafe(const void *page, size_t length, uint32_t extensions, uint8_t *buffer, size_t capacity);

/* ---- The events of a page ---- */

/* What an event is. Those of extensions that events are not built of yet have their numbers already. */
enum mds_event_kind {
    MDS_EVENT_START = 0,              /* an element begins */
    MDS_EVENT_END = 1,                /* the element ends that has begun last, of those that have not ended */
    MDS_EVENT_TEXT = 2,               /* text, its escapes and references resolved; of code and HTML blocks as it is */
    MDS_EVENT_CODE = 3,               /* a code span (6.1) */
    MDS_EVENT_INLINE_MATH = 4,        /* not yet */
    MDS_EVENT_DISPLAY_MATH = 5,       /* not yet */
    MDS_EVENT_HTML = 6,               /* a line of an HTML block (4.6) */
    MDS_EVENT_INLINE_HTML = 7,        /* raw HTML in a text (6.6) */
    MDS_EVENT_FOOTNOTE_REFERENCE = 8, /* not yet */
    MDS_EVENT_SOFT_BREAK = 9,         /* a line ending in a paragraph (6.8) */
    MDS_EVENT_HARD_BREAK = 10,        /* a line ending that is kept (6.7) */
    MDS_EVENT_RULE = 11,              /* a thematic break (4.1) */
    MDS_EVENT_TASK = 12               /* the box of a list item (GitHub Flavored Markdown 0.29, 5.3) */
};

/* What begins or ends. The same holds of their numbers. */
enum mds_element {
    MDS_ELEMENT_PARAGRAPH = 1,           /* (4.8) */
    MDS_ELEMENT_HEADING = 2,             /* `detail` is its level (4.2, 4.3) */
    MDS_ELEMENT_QUOTE = 3,               /* `detail` is 0, or the kind of an alert (5.1) */
    MDS_ELEMENT_CODE_BLOCK = 4,          /* `detail` of its start is 1 where it is fenced, whose info string is `text` (4.4, 4.5) */
    MDS_ELEMENT_HTML_BLOCK = 5,          /* (4.6) */
    MDS_ELEMENT_LIST = 6,                /* `detail` is 1 where it is ordered; of its start `number` is that of the first item (5.3) */
    MDS_ELEMENT_ITEM = 7,                /* (5.2) */
    MDS_ELEMENT_FOOTNOTE = 8,            /* not yet */
    MDS_ELEMENT_DEFINITION_LIST = 9,     /* not yet */
    MDS_ELEMENT_TERM = 10,               /* not yet */
    MDS_ELEMENT_DEFINITION = 11,         /* not yet */
    MDS_ELEMENT_TABLE = 12,              /* `text` of its start has a byte for each column, of enum mds_alignment (GFM, 4.10) */
    MDS_ELEMENT_TABLE_HEAD = 13,         /* its first row */
    MDS_ELEMENT_TABLE_ROW = 14,          /* each later row */
    MDS_ELEMENT_TABLE_CELL = 15,
    MDS_ELEMENT_EMPHASIS = 16,           /* (6.2) */
    MDS_ELEMENT_STRONG = 17,             /* (6.2) */
    MDS_ELEMENT_STRIKETHROUGH = 18,      /* (GitHub Flavored Markdown 0.29, 6.5) */
    MDS_ELEMENT_SUPERSCRIPT = 19,        /* not yet */
    MDS_ELEMENT_SUBSCRIPT = 20,          /* not yet */
    MDS_ELEMENT_LINK = 21,               /* `detail` of its start is of enum mds_link_kind, and it has all three texts (6.3, 6.5) */
    MDS_ELEMENT_IMAGE = 22,              /* the same (6.4) */
    MDS_ELEMENT_METADATA = 23            /* not yet */
};

/* How a link or an image is written. The unknown ones are those of callers who define labels of their own, as no C function does. */
enum mds_link_kind {
    MDS_LINK_INLINE = 1,            /* a destination and perhaps a title in parentheses (6.3) */
    MDS_LINK_REFERENCE = 2,         /* a label in brackets */
    MDS_LINK_REFERENCE_UNKNOWN = 3,
    MDS_LINK_COLLAPSED = 4,         /* `[]` */
    MDS_LINK_COLLAPSED_UNKNOWN = 5,
    MDS_LINK_SHORTCUT = 6,          /* neither */
    MDS_LINK_SHORTCUT_UNKNOWN = 7,
    MDS_LINK_AUTOLINK = 8,          /* an absolute URI in angle brackets (6.5) */
    MDS_LINK_EMAIL = 9,             /* an email address in angle brackets; its destination has no `mailto:` */
    MDS_LINK_WIKI = 10,             /* `[[target]]` */
    MDS_LINK_WIKI_PIPED = 11        /* `[[target|text]]` */
};

/* An event, and where its source stands: both events of an element have the range of the whole. Its texts stand in the buffer of
 * texts; one that it has not has the length 0. */
struct mds_event {
    uint32_t kind;    /* of enum mds_event_kind */
    uint32_t element; /* of a start or an end: of enum mds_element; else 0 */
    uint32_t detail;  /* of an element as enum mds_element says; of a task 1 where its box is checked; else 0 */
    uint64_t number;  /* of an ordered list that begins: the number of its first item; else 0 */
    size_t start, end;                /* its range in the page */
    size_t text_start, text_length;   /* a text, code or HTML; or what enum mds_element says; of a link or an image its destination */
    size_t title_start, title_length; /* the title of a link or an image that begins */
    size_t label_start, label_length; /* its label, as it is written, where it is a reference */
};

/* How many events there are, and whether they are written. */
struct mds_events {
    uint32_t status;
    size_t count;  /* how many they are, where the status is MDS_OK or MDS_TOO_SHORT */
    size_t length; /* how many bytes their texts have then; where it is MDS_NOT_UTF8, the offset of the first byte that is wrong */
};

/* All events of a page, in order, and their texts, one after another: where each element begins and ends, and what stands in it. Each
 * that begins ends, and they nest; so do their ranges, which cut no character. Destinations, titles and info strings have their
 * escapes and references resolved. mds_html makes its HTML of the events of the page with U+FFFD in the place of each U+0000 (2.3); here
 * the page is read as it is.
 *
 * Where one of the buffers is too short both are left as they were, MDS_TOO_SHORT, and the same call with buffers of `count` events
 * and `length` bytes makes them anew, and is MDS_OK. `count` is at most 13 for each byte of the page, and 200,000; no such number is known of
 * the length of texts. An event for each eight bytes of the text, and as many bytes as the text has, and 64 of each, are enough for most
 * pages. fillaqut_parser.h has a handle that keeps both buffers.
 *
 * MDS_BAD_KIND as of mds_html. A page that is not UTF-8 is refused, MDS_NOT_UTF8, and `length` is the offset of its first byte that is wrong:
 * the ranges of a text that is read in its place would not be those of the page. Memory is asked for as by mds_html, with the events and
 * their texts in place of the HTML: MDS_NO_MEMORY. Then the buffers are as they were too, and the same call may be made again. (3 to 6)
 *
 *     struct mds_event events[5];
 *     uint8_t texts[5];
 *     struct mds_events found = mds_events("*a*", 3, 0, events, 5, texts, 5);
 *     found.status == MDS_OK && found.count == 5 && found.length == 1
 *     events[1].kind == MDS_EVENT_START && events[1].element == MDS_ELEMENT_EMPHASIS && events[1].end == 3
 *     events[2].kind == MDS_EVENT_TEXT && events[2].start == 1 && events[2].end == 2
 *     events[2].text_length == 1 && texts[events[2].text_start] == 'a'
 *     mds_events("*a*", 3, 0, events, 4, texts, 5).status == MDS_TOO_SHORT
 *     mds_events("## [a](b 'c')", 13, 0, events, 5, texts, 5).count == 5
 *     events[0].element == MDS_ELEMENT_HEADING && events[0].detail == 2
 *     events[1].text_length == 1 && events[1].title_length == 1 && texts[events[1].title_start] == 'c'
 */
struct mds_events mds_events(
    const void *text, size_t length, uint32_t extensions, struct mds_event *events, size_t capacity, uint8_t *texts,
    size_t texts_capacity);

/* ---- Parts of inline text ---- */

/* A part of the bytes, where the status is MDS_OK. It is MDS_NOTHING where there is none, and MDS_PAST_END where the
 * offset is past the end of the bytes. The bytes need not be UTF-8, and are not tested: each of these calls reads from
 * its offset on, and no byte after the one that decides, but that mds_scan_code_span looks at many bytes at once. Where
 * they are UTF-8 and the offset is between two characters, so are all offsets that are answered. */
struct mds_part {
    uint32_t status;
    size_t end;    /* the offset after all that belongs to it */
    size_t start;  /* the offset of its own bytes */
    size_t length; /* how many they are */
};

/* The link destination that begins at the offset `start`, with or without angle brackets; they are not among its own
 * bytes. Parentheses may stand in each other `max_next` + 1 deep. An empty destination without brackets is one too.
 * (6.3)
 *
 *     struct mds_part part = mds_scan_link_dest("[a](<b c>)", 10, 4, 31);
 *     part.end == 9 && part.start == 5 && part.length == 3
 */
struct mds_part mds_scan_link_dest(const void *bytes, size_t length, size_t start, size_t max_next);

/* The link title that begins at the offset `start`, in straight double quotes, straight single quotes or parentheses,
 * which are not among its own bytes. It may go on over lines, of which none is blank; what stands at the front of a line
 * in a container is not left out. (6.3)
 *
 *     struct mds_part part = mds_scan_link_title("[a](/b 'c d')", 13, 7);
 *     part.end == 12 && part.start == 8 && part.length == 3
 */
struct mds_part mds_scan_link_title(const void *bytes, size_t length, size_t start);

/* The absolute URI of the autolink whose `<`, at which the call doesn't look, stands just before the offset `start`; the
 * end is after its `>`. (6.5)
 *
 *     struct mds_part part = mds_scan_autolink("<https://a.b>", 13, 1);
 *     part.end == 13 && part.start == 1 && part.length == 11
 */
struct mds_part mds_scan_autolink(const void *bytes, size_t length, size_t start);

/* The email address of the autolink whose `<`, at which the call doesn't look, stands just before the offset `start`; the
 * end is after its `>`. (6.5)
 *
 *     struct mds_part part = mds_scan_email_autolink("<a@b.c>", 7, 1);
 *     part.end == 7 && part.start == 1 && part.length == 5
 */
struct mds_part mds_scan_email_autolink(const void *bytes, size_t length, size_t start);

/* The code span that begins at the offset `start`, as if no backtick stood before that. Its own bytes are its content, as
 * it is written, between its backtick strings. Where no later string is as long as the one that begins there, it is
 * MDS_NOTHING, and all bytes are read for that. So a caller that meets many strings notes in one pass where the last one
 * of each length begins, and asks only where that is still to come (examples/outline.c): then none is read in vain, and
 * all of them cost as much as one pass. (6.1)
 *
 *     struct mds_part part = mds_scan_code_span("a ``b ` c`` d", 13, 2);
 *     part.end == 11 && part.start == 4 && part.length == 5
 */
struct mds_part mds_scan_code_span(const void *bytes, size_t length, size_t start);

/* What stands before the first pipe of the `count` bytes from the offset `start` on, or of as many as there are; the end
 * is after the pipe. It may read all of these bytes. (An extension of pulldown-cmark)
 *
 *     struct mds_part part = mds_scan_wikilink_pipe("[[a|b]]", 7, 2, 3);
 *     part.end == 4 && part.start == 2 && part.length == 1
 */
struct mds_part mds_scan_wikilink_pipe(const void *bytes, size_t length, size_t start, size_t count);

/* A run of one of the bytes `*` and `_`, where the status is MDS_OK. It is MDS_NOTHING where there is none, and
 * MDS_PAST_END where the offset is past the end of the bytes. */
struct mds_delimiter_run {
    uint32_t status;
    uint8_t byte;
    bool can_open, can_close; /* whether it can open emphasis, and close it (rules 1 to 8) */
    size_t count;             /* how many bytes it has */
};

/* The delimiter run that begins at `place`, the longest there. The caller asks where no unescaped byte of its kind stands
 * just before it. The text begins at the front of the bytes. Beside the run the call reads the character before it and
 * the one after it, four bytes on each side at most: they must be UTF-8, or it is MDS_NOT_UTF8. Bytes farther off may be
 * any, and are not read. (6.2)
 *
 *     struct mds_delimiter_run run = mds_scan_delimiter_run("a **b**", 7, 2);
 *     run.byte == '*' && run.count == 2 && run.can_open && !run.can_close
 *     run = mds_scan_delimiter_run("a_b", 3, 1);
 *     run.byte == '_' && run.count == 1 && !run.can_open && !run.can_close
 */
struct mds_delimiter_run mds_scan_delimiter_run(const void *bytes, size_t length, size_t place);

/* ---- Texts over lines ---- */

/* What is left out of a text: of a tag or a label that goes on over the lines of a container, the container's markers
 * and its indent, which are no part of it (5.1, 5.2). At `place`, that of the first byte of a line, after the line
 * ending, `length` bytes are left out. A table of skips is an array of them in order of their offsets, one for a whole
 * page. Each stands at an offset of its own, leaves out ASCII alone, and ends in the page, and where the next one begins
 * or before; a length may be 0. No table (null and 0) is for a text outside of containers.
 *
 * At a line that no skip names nothing is left out, and a skip that stands elsewhere than at the front of a line of
 * the tag or label says nothing. mds_scan_html_tag_over_lines and mds_scan_link_label take the page from its front, its
 * table, and an offset in the page. They search the table at each line that they come to, in as many steps as `skip_count`
 * has binary digits, and don't go through it. The page may also be given up to an offset, as the end of a paragraph, with
 * the table as it is. */
struct mds_skip {
    size_t place, length;
};

/* MDS_OK where the skips are a table of these bytes, and else MDS_BAD_SKIPS. Ask once for a page: it goes through the
 * whole table and all that it leaves out, and no other call does. What others answer over a table that is refused means
 * nothing; but they are safe and end, and what is said of `end`, of room and of what is written holds.
 *
 *     struct mds_skip skips[] = {{0, 2}, {4, 2}};
 *     mds_check_skips("> a\n> b", 7, skips, 2) == MDS_OK
 */
uint32_t mds_check_skips(const void *bytes, size_t length, const struct mds_skip *skips, size_t skip_count);

/* ---- HTML ---- */

/* Whether an HTML block that one of the names of start condition 6 opens begins here; the bytes are those after the
 * `<`. (4.6)
 *
 *     mds_starts_html_block_type_6("div>", 4)
 */
bool mds_starts_html_block_type_6(const void *bytes, size_t length);

/* The length of the open or closing tag at the front that stands alone in its line, whatever its name; or MDS_NONE.
 * (4.6, start condition 7)
 *
 *     mds_scan_html_type_7("<b> \n", 5) == 3
 */
size_t mds_scan_html_type_7(const void *bytes, size_t length);

/* The kinds of HTML blocks, by the numbers of their start and end conditions. (4.6) */
enum mds_html_kind {
    MDS_HTML_RAW_TEXT = 1,    /* `<pre`, `<script`, `<style` or `<textarea`, to a line with a closing tag of one of them */
    MDS_HTML_COMMENT = 2,     /* `<!--`, to a line with `-->` */
    MDS_HTML_PROCESSING = 3,  /* `<?`, to a line with `?>` */
    MDS_HTML_DECLARATION = 4, /* `<!` and a letter, to a line with `>` */
    MDS_HTML_CDATA = 5,       /* `<![CDATA[`, to a line with `]]>` */
    MDS_HTML_BLOCK_NAME = 6,  /* a tag with one of 62 names, to a blank line */
    MDS_HTML_TAG_ALONE = 7    /* another tag alone in its line, to a blank line; it can't interrupt a paragraph */
};

/* The kind of the HTML block that begins at the front, after the indent of its line: the lowest number of enum
 * mds_html_kind whose start condition is met, or 0. (4.6)
 *
 *     mds_scan_html_block_start("<!-- a", 6) == MDS_HTML_COMMENT
 *     mds_scan_html_block_start("<a> b", 5) == 0
 */
uint32_t mds_scan_html_block_start(const void *bytes, size_t length);

/* Whether the line at the front ends an HTML block of this kind: MDS_OK or MDS_NOTHING; MDS_BAD_KIND where the number
 * is not one of enum mds_html_kind. Of the kinds up to MDS_HTML_CDATA it is the block's last line, and may be its first
 * too; of the others it is a blank line, and no part of the block. (4.6)
 *
 *     mds_ends_html_block("a -->", 5, MDS_HTML_COMMENT) == MDS_OK
 *     mds_ends_html_block("a -->", 5, MDS_HTML_BLOCK_NAME) == MDS_NOTHING
 */
uint32_t mds_ends_html_block(const void *bytes, size_t length, uint32_t kind);

/* The length of the open or closing tag at the front, which holds no line ending; or MDS_NONE. (6.6)
 *
 *     mds_scan_html_tag("<b c='d'> e", 11) == 9
 */
size_t mds_scan_html_tag(const void *bytes, size_t length);

/* A tag, where the status is MDS_OK; where it is MDS_TOO_SHORT the buffer is as it was, and `end` and `length` are set
 * all the same. It is MDS_NOTHING where there is none, and MDS_PAST_END where the offset is past the end of the bytes. */
struct mds_tag {
    uint32_t status;
    size_t end;    /* the offset after it */
    size_t length; /* bytes that its text has or needs in the buffer; 0 where it stands in the bytes as it is */
};

/* The open or closing tag whose `<` stands at the offset `start`, over lines of which the skips are left out. A closing
 * tag holds at most one line ending. Where bytes inside it are left out its text, without them, is written, and memory is
 * asked for: MDS_NO_MEMORY. Else its text is what stands from `start` to `end`, and no memory is asked for. `end` is the
 * length of the bytes at most, and `length` is `end - start` at most, so a buffer as long as the bytes is always enough.
 * (6.6)
 *
 *     struct mds_skip skips[] = {{5, 2}};
 *     uint8_t buffer[11];
 *     struct mds_tag tag = mds_scan_html_tag_over_lines("<foo\n> bar>", 11, 0, skips, 1, buffer, 11);
 *     tag.end == 11 && tag.length == 9 && memcmp(buffer, "<foo\nbar>", 9) == 0
 */
struct mds_tag mds_scan_html_tag_over_lines(
    const void *bytes, size_t length, size_t start, const struct mds_skip *skips, size_t skip_count, uint8_t *buffer,
    size_t capacity);

/* What the scans of one text have searched in vain, so that none of them searches it again. All 0 at first; each call
 * changes it. Other numbers are safe, but what is there may then be missed. The pointer to it is not null. */
struct mds_html_guard {
    size_t comment, cdata, declaration, processing;
};

/* An end, where the status is MDS_OK. It is MDS_NOTHING where there is none, or MDS_NO_OPENER. */
struct mds_end {
    uint32_t status;
    size_t end;    /* the offset after the closer */
    size_t passed; /* how many bytes were passed over, whether or not there is one */
};

/* The end of the comment, CDATA section, declaration or processing instruction whose `<!` or `<?` ends at `place`,
 * under a guard. A guard that is all 0, or that calls with the same bytes at lower offsets have left, each at or after
 * the end that was found before it, misses nothing. k such calls for n bytes pass over 4n + 8k bytes at most, whatever
 * the bytes, and each n + 8 at most. MDS_NO_OPENER leaves the guard as it was. (6.6)
 *
 *     struct mds_html_guard guard = {0, 0, 0, 0};
 *     mds_scan_inline_html("a <!-- b --> c", 14, 4, &guard).end == 12
 */
struct mds_end mds_scan_inline_html(const void *bytes, size_t length, size_t place, struct mds_html_guard *guard);

/* What a run found. `count` is at how many offsets it scanned before it stopped, or 0 where memory was refused. */
struct mds_html_run {
    uint32_t status;
    size_t count;
};

/* The ends of what begins at each of the offsets in turn, as mds_scan_inline_html finds them, MDS_NONE where nothing
 * does or where it isn't closed. The scans at k offsets of a text of n bytes pass over 4n + 8k bytes at most, whatever
 * the text. The run stops before the first offset that is refused, for the first reason that holds: MDS_NO_OPENER,
 * MDS_NOT_RISING, or MDS_INSIDE_FIND where it is below the last end; else the status is MDS_OK. In all these cases
 * the ends stand at the front of `ends`; where it has no room for them, for which as many as there are offsets is
 * enough, nothing is written, and the status is MDS_TOO_SHORT. Memory is asked for where the first offset is not
 * refused, some for each offset: MDS_NO_MEMORY. (6.6)
 *
 *     size_t places[] = {2, 7, 10}, ends[3];
 *     mds_run_inline_html("<!a> <? <!-- b -->", 18, places, 3, ends, 3).count == 3
 *     ends[0] == 4 && ends[1] == MDS_NONE && ends[2] == 18
 */
struct mds_html_run mds_run_inline_html(
    const void *bytes, size_t length, const size_t *places, size_t place_count, size_t *ends, size_t capacity);

/* ---- Texts that are made ---- */

/* What the character reference at the front stands for: a decimal or hexadecimal one, or one of the 2,125 entities of
 * HTML whose names end in `;`, in the case in which HTML writes them. The first byte is taken for its `&`, whatever it
 * is. 6 bytes are room enough. Others are MDS_NOTHING. MDS_EMPTY where there are no bytes. (2.5)
 *
 *     uint8_t buffer[6];
 *     struct mds_text text = mds_scan_entity("&auml;b", 7, buffer, 6);
 *     text.taken == 6 && text.length == 2 && memcmp(buffer, "\xc3\xa4", 2) == 0
 */
struct mds_text mds_scan_entity(const void *bytes, size_t length, uint8_t *buffer, size_t capacity);

/* The text with its backslash escapes and the character references of mds_scan_entity resolved; CR are left out. In a
 * cell of a table (`in_table`) two backslashes and a pipe stand for the pipe, where the first of them is not itself
 * escaped: both `\\|` and `\|` give `|`, and `\\\|` gives `\|`. `length + length / 5` bytes are room enough, as
 * `&nGt;` stands for 6. MDS_NOT_UTF8. Memory is asked for where the text changes, as much as it then has:
 * MDS_NO_MEMORY. (2.4, 2.5)
 *
 *     uint8_t buffer[14];
 *     mds_unescape("a\\*b &amp; c", 12, false, buffer, 14).length == 7 && memcmp(buffer, "a*b & c", 7) == 0
 */
struct mds_text mds_unescape(const void *text, size_t length, bool in_table, uint8_t *buffer, size_t capacity);

/* A label's text for the caller's buffer, as of struct mds_text, with MDS_NOTHING and MDS_PAST_END as of a tag. Where
 * the text stands in the input as it is and the buffer has no room at all, as null and 0, nothing has to be written, and
 * the status is MDS_OK. */
struct mds_label {
    uint32_t status;
    size_t end;    /* the offset after the closing bracket */
    size_t length; /* bytes that it has or needs in the buffer */
    size_t start;  /* the offset in the input where its text stands as it is; MDS_NONE where it stands nowhere there */
};

/* The link label whose opening bracket, at which the call doesn't look, stands just before the offset `start`: its words,
 * joined by one space. Labels may go on over lines, of which the skips are left out. The label's own bytes must be UTF-8,
 * or it is not a label; those after it may be any. In a cell of a table (`in_table`) a pipe loses the backslash just before it.
 * `end` is the length of the bytes at most, and `length` is `end - start` at most, so a buffer as long as the bytes is
 * always enough. Memory is asked for where `start` is MDS_NONE: MDS_NO_MEMORY. It reads, beside what is left out, no byte
 * after the first bracket that no backslash escapes, and at most 1,001 that begin a character, as those from 0x80 to
 * 0xBF do not: a label's content has 999 at most. (6.3)
 *
 *     struct mds_label label = mds_scan_link_label("[a b]: /c", 9, 1, false, NULL, 0, NULL, 0);
 *     label.status == MDS_OK && label.end == 5 && label.start == 1 && label.length == 3
 */
struct mds_label mds_scan_link_label(
    const void *bytes, size_t length, size_t start, bool in_table, const struct mds_skip *skips, size_t skip_count,
    uint8_t *buffer, size_t capacity);

/* Whether two labels, as mds_scan_link_label writes them, match, so that the one refers to what the other defines:
 * MDS_OK or MDS_NOTHING. They do where their full case foldings are equal. MDS_NOT_UTF8. (6.3)
 *
 *     mds_labels_match("Foo", 3, "FOO", 3) == MDS_OK
 */
uint32_t mds_labels_match(const void *one, size_t one_length, const void *other, size_t other_length);

/* The key of a label, its full case folding: two labels match exactly where their keys are the same bytes, so a table
 * of definitions may be one of keys. `taken` is the label's length. A buffer of three times the label is always enough.
 * MDS_NOT_UTF8. Memory is asked for where a byte is no ASCII: MDS_NO_MEMORY. (6.3)
 *
 *     uint8_t key[9];
 *     mds_label_key("Foo", 3, key, 9).length == 3 && memcmp(key, "foo", 3) == 0
 */
struct mds_text mds_label_key(const void *text, size_t length, uint8_t *buffer, size_t capacity);

#ifdef __cplusplus
}
#endif

#endif
