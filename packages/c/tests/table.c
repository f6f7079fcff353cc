/* The rows of packages/rows.tsv, one call on one text each, with the text at both edges of its room; an empty text is also given as a
 * null pointer. */
#include "tables.h"

#include <stdio.h>
#include <string.h>

/* A call that makes a text. */
typedef struct mds_text making(const uint8_t *text, size_t length, uint8_t *buffer, size_t capacity);

/* The row with its text; of its other arguments up to two numbers or a second text; of an answer that is a text how many bytes are taken,
 * and the text. */
static struct {
    const struct row *of;
    const char *call, *answer;
    struct text text, other, made;
    size_t taken, numbers[2];
} row;

static bool is(const char *name) {
    return strcmp(row.call, name) == 0;
}

static void add_fence(struct mds_fence fence) {
    add("length", fence.length), add("byte", fence.byte);
}

static void add_part(struct mds_part part) {
    if (is_ok(row.of, part.status, part.end | part.start | part.length))
        add("end", part.end), add("start", part.start), add("length", part.length);
}

/* The calls whose answer is one number. */
static bool answers_number(const uint8_t *text, size_t length) {
    size_t one = row.numbers[0], two = row.numbers[1];
    const uint8_t *other = given(OTHER_BYTES, row.other.bytes, row.other.length);
    size_t found;
    if (is("is_utf8")) found = mds_is_utf8(text, length);
    else if (is("scan_ch")) found = mds_scan_ch(text, length, (uint8_t)one);
    else if (is("scan_ch_repeat")) found = mds_scan_ch_repeat(text, length, (uint8_t)one);
    else if (is("scan_while")) found = mds_scan_while(text, length, other, row.other.length);
    else if (is("scan_rev_while")) found = mds_scan_rev_while(text, length, other, row.other.length);
    else if (is("scan_whitespace_in_line")) found = mds_scan_whitespace_in_line(text, length);
    else if (is("scan_eol")) found = mds_scan_eol(text, length);
    else if (is("scan_line")) found = mds_scan_line(text, length);
    else if (is("scan_nextline")) found = mds_scan_nextline(text, length);
    else if (is("scan_blank_line")) found = mds_scan_blank_line(text, length);
    else if (is("scan_blockquote_start")) found = mds_scan_blockquote_start(text, length);
    else if (is("scan_atx_heading")) found = mds_scan_atx_heading(text, length);
    else if (is("scan_closing_code_fence")) found = mds_scan_closing_code_fence(text, length, (uint8_t)one, two);
    else if (is("scan_closing_metadata_block")) found = mds_scan_closing_metadata_block(text, length, (uint8_t)one);
    else if (is("interrupts_paragraph")) found = mds_interrupts_paragraph(text, length);
    else if (is("starts_html_block_type_6")) found = mds_starts_html_block_type_6(text, length);
    else if (is("scan_html_type_7")) found = mds_scan_html_type_7(text, length);
    else if (is("scan_html_block_start")) found = mds_scan_html_block_start(text, length);
    else if (is("scan_html_tag")) found = mds_scan_html_tag(text, length);
    else return false;
    return add("", found), true;
}

/* The calls whose answer is a part of the text. */
static bool answers_part(const uint8_t *text, size_t length) {
    size_t one = row.numbers[0], two = row.numbers[1];
    if (is("scan_link_dest")) add_part(mds_scan_link_dest(text, length, one, two));
    else if (is("scan_link_title")) add_part(mds_scan_link_title(text, length, one));
    else if (is("scan_autolink")) add_part(mds_scan_autolink(text, length, one));
    else if (is("scan_email_autolink")) add_part(mds_scan_email_autolink(text, length, one));
    else if (is("scan_code_span")) add_part(mds_scan_code_span(text, length, one));
    else if (is("scan_wikilink_pipe")) add_part(mds_scan_wikilink_pipe(text, length, one, two));
    else return false;
    return true;
}

static void add_definition(struct mds_reference_definition it) {
    size_t starts = it.label_start | it.destination_start | it.title_start;
    size_t lengths = it.label_length | it.destination_length | it.title_length;
    if (!is_ok(row.of, it.status, it.end | starts | lengths))
        return;
    add("end", it.end), add("label_start", it.label_start), add("label_length", it.label_length);
    add("destination_start", it.destination_start), add("destination_length", it.destination_length);
    add("title_start", it.title_start), add("title_length", it.title_length);
}

static void add_run(struct mds_delimiter_run run) {
    if (is_ok(row.of, run.status, run.byte | run.count | run.can_open | run.can_close))
        add("byte", run.byte), add("count", run.count), add("can_open", run.can_open), add("can_close", run.can_close);
}

static void add_item(struct mds_list_item item) {
    add("length", item.length), add("start", item.start), add("indent", item.indent), add("delimiter", item.delimiter);
}

static void add_indent(struct mds_indent indent) {
    if (is_ok(row.of, indent.status, indent.place | indent.columns))
        add("place", indent.place), add("columns", indent.columns);
}

static void add_break(struct mds_break found) {
    add("length", found.length), add("none_before", found.none_before);
}

/* The end under a guard that is all 0. */
static void add_end(const uint8_t *text, size_t length, size_t place) {
    struct mds_html_guard guard = {0, 0, 0, 0};
    struct mds_end found = mds_scan_inline_html(text, length, place, &guard);
    if (is_ok(row.of, found.status, found.end))
        add("end", found.end);
}

/* A call at the front of a line, and where the line start has come to; after a call that finds nothing it is at the front. */
static bool answers_front(const uint8_t *text, size_t length) {
    struct mds_line_start start = {0};
    if (!answers_line(row.of, row.call, text, length, &start, row.numbers[0]))
        return false;
    if (strncmp(row.answer, "MDS_", 4) != 0)
        add("place", start.place), add("pending", start.pending), add("phase", start.phase);
    else
        same(row.of->line, "the line start", start.place | start.pending | start.phase, 0);
    return true;
}

static void add_underline(struct mds_underline underline) {
    add("length", underline.length), add("level", underline.level);
}

/* All others. */
static bool answers_fields(const uint8_t *text, size_t length) {
    size_t one = row.numbers[0], two = row.numbers[1];
    const uint8_t *other = given(OTHER_BYTES, row.other.bytes, row.other.length);
    if (is("scan_code_fence")) add_fence(mds_scan_code_fence(text, length));
    else if (is("scan_metadata_block")) add_fence(mds_scan_metadata_block(text, length, one, two));
    else if (is("scan_hrule")) add_break(mds_scan_hrule(text, length));
    else if (is("scan_setext_heading")) add_underline(mds_scan_setext_heading(text, length));
    else if (is("scan_listitem")) add_item(mds_scan_listitem(text, length));
    else if (is("calc_indent")) add_indent(mds_calc_indent(text, length, one));
    else if (is("scan_reference_definition")) add_definition(mds_scan_reference_definition(text, length, one, two));
    else if (is("scan_delimiter_run")) add_run(mds_scan_delimiter_run(text, length, one));
    else if (is("scan_inline_html")) add_end(text, length, one);
    else if (is("ends_html_block")) add_status(mds_ends_html_block(text, length, (uint32_t)one));
    else if (is("labels_match")) add_status(mds_labels_match(text, length, other, row.other.length));
    else return false;
    return true;
}

static struct mds_text entity(const uint8_t *text, size_t length, uint8_t *buffer, size_t capacity) {
    return mds_scan_entity(text, length, buffer, capacity);
}

static struct mds_text table_head(const uint8_t *text, size_t length, uint8_t *buffer, size_t capacity) {
    return mds_scan_table_head(text, length, buffer, capacity);
}

static struct mds_text unescaped(const uint8_t *text, size_t length, uint8_t *buffer, size_t capacity) {
    return mds_unescape(text, length, row.numbers[0], buffer, capacity);
}

/* One that stands in the input needs no buffer, which skips.c checks; of a text the length is asked for so. */
static struct mds_text label(const uint8_t *text, size_t length, uint8_t *buffer, size_t capacity) {
    struct mds_label found = mds_scan_link_label(text, length, 0, row.numbers[0], NULL, 0, buffer, capacity);
    bool stands = capacity == 0 && found.status == MDS_OK && found.start != MDS_NONE;
    return (struct mds_text){stands && found.length ? MDS_TOO_SHORT : found.status, found.end, found.length};
}

static struct mds_text key(const uint8_t *text, size_t length, uint8_t *buffer, size_t capacity) {
    return mds_label_key(text, length, buffer, capacity);
}

static making *making_of(void) {
    return is("scan_entity") ? entity : is("scan_table_head") ? table_head : is("unescape") ? unescaped
        : is("scan_link_label") ? label : is("label_key") ? key : NULL;
}

/* The text is made in a buffer that has room for it, in one with more room, and in none that is shorter. */
static void check_making(making *call, const uint8_t *text) {
    for (size_t capacity = 0; capacity < row.made.length + 3; capacity++) {
        uint8_t *buffer = writable(BUFFER, capacity);
        struct mds_text found = call(text, row.text.length, buffer, capacity);
        size_t written = capacity < row.made.length ? 0 : row.made.length;
        same(row.of->line, "status", found.status, capacity < row.made.length ? MDS_TOO_SHORT : MDS_OK);
        same(row.of->line, "taken", found.taken, row.taken);
        same(row.of->line, "length", found.length, row.made.length);
        same(row.of->line, "the text is there", written == 0 || !memcmp(buffer, row.made.bytes, written), true);
        same(row.of->line, "the rest is left", is_left(BUFFER, written), true);
    }
    struct mds_text found = call(text, row.text.length, NULL, 0);
    same(row.of->line, "length without a buffer", found.length, row.made.length);
    same(row.of->line, "status without a buffer", found.status, row.made.length ? MDS_TOO_SHORT : MDS_OK);
}

/* A text that is refused leaves the buffer. */
static void check_refusal(making *call, const uint8_t *text) {
    struct mds_text found = call(text, row.text.length, writable(BUFFER, 9), 9);
    same(row.of->line, row.answer, strcmp(mds_status_name(found.status), row.answer), 0);
    same(row.of->line, "taken and length", found.taken | found.length, 0);
    same(row.of->line, "the buffer is left", is_left(BUFFER, 0), true);
}

static void check_answer(const uint8_t *text) {
    size_t length = row.text.length;
    begin_answer();
    if (!answers_number(text, length) && !answers_part(text, length) && !answers_front(text, length) && !answers_fields(text, length))
        stop_at_row("no such call");
    is_answer(row.of, row.answer);
}

static void check(const uint8_t *text) {
    making *call = making_of();
    if (!call)
        check_answer(text);
    else if (strncmp(row.answer, "MDS_", 4) == 0)
        check_refusal(call, text);
    else
        check_making(call, text);
}

/* An answer that is a text. */
static void read_made(void) {
    row.made.length = row.taken = 0;
    if (!making_of() || strncmp(row.answer, "MDS_", 4) == 0)
        return;
    row.taken = number_of(field_of(row.answer, "taken"));
    read_text(field_of(row.answer, "text"), 0, &row.made);
}

/* The other arguments: numbers, or the second text of the three calls that take one. */
static void read_arguments(const char *from) {
    row.other.length = row.numbers[0] = row.numbers[1] = 0;
    if (is("scan_while") || is("scan_rev_while") || is("labels_match")) {
        if (strcmp(from, "-"))
            read_text(from, 0, &row.other);
        return;
    }
    for (size_t i = 0; from && *from; i++, from = after(from, ' ')) {
        if (i == 2)
            stop_at_row("too many arguments");
        row.numbers[i] = number_of(from);
    }
}

static void check_row(const struct row *of) {
    row.of = of, row.call = of->columns[0], row.answer = of->columns[3];
    read_text(of->columns[1], 0, &row.text);
    read_arguments(of->columns[2]);
    read_made();
    check(given(BYTES, row.text.bytes, row.text.length));
    if (row.text.length == 0)
        check(NULL);
}

int main(void) {
    check_rooms();
    each_row("rows.tsv", 4, NULL, check_row);
    return report("table");
}
