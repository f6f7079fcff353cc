/* The C functions in the loops of `crates/bench_calls`: bench/run --through-c links it to the archive that packages/c/build
 * makes. Each function here answers the same sum as the one of the same call there. */
#include "fillaqut.h"
#include <stdlib.h>

typedef uint64_t u64;

static u64 two(size_t a, u64 b) { return (u64)a * 7 + b + 1; }

/* A length that may be missing: MDS_NONE is then 0. */
static u64 count(size_t found) { return (u64)found + 1; }

/* The sum of the answers for the `n` bytes `b` behind each place, so many rounds. */
#define EACH_REST(CALL, ANSWER)                                                                                          \
    u64 c_##CALL(const uint8_t *text, size_t length, const size_t *at, size_t places, size_t rounds) {                   \
        u64 sum = 0;                                                                                                     \
        for (size_t round = 0; round < rounds; round++)                                                                  \
            for (size_t i = 0; i < places; i++)                                                                          \
                if (at[i] <= length) {                                                                                   \
                    const uint8_t *b = text + at[i];                                                                     \
                    size_t n = length - at[i];                                                                           \
                    sum += ANSWER;                                                                                       \
                }                                                                                                        \
        return sum;                                                                                                      \
    }

/* The sum of the answers for the text and each place in it. */
#define EACH_PLACE(CALL, ANSWER)                                                                                         \
    u64 c_##CALL(const uint8_t *text, size_t length, const size_t *at, size_t places, size_t rounds) {                   \
        u64 sum = 0;                                                                                                     \
        for (size_t round = 0; round < rounds; round++)                                                                  \
            for (size_t i = 0; i < places; i++) {                                                                        \
                size_t place = at[i];                                                                                    \
                sum += ANSWER;                                                                                           \
            }                                                                                                            \
        return sum;                                                                                                      \
    }

/* The same where a call writes to a buffer, which is made once. */
#define EACH_PLACE_INTO(CALL, ANSWER)                                                                                    \
    u64 c_##CALL(const uint8_t *text, size_t length, const size_t *at, size_t places, size_t rounds) {                   \
        u64 sum = 0;                                                                                                     \
        uint8_t *buffer = malloc(length + 1);                                                                            \
        for (size_t round = 0; round < rounds; round++)                                                                  \
            for (size_t i = 0; i < places; i++) {                                                                        \
                size_t place = at[i];                                                                                    \
                sum += ANSWER;                                                                                           \
            }                                                                                                            \
        free(buffer);                                                                                                    \
        return sum;                                                                                                      \
    }

/* The sum of the answers for the `n` bytes `b` between two of the places, into a buffer with room for them. */
#define EACH_STRETCH(CALL, ANSWER)                                                                                       \
    u64 c_##CALL(const uint8_t *text, size_t length, const size_t *at, size_t places, size_t rounds) {                   \
        u64 sum = 0;                                                                                                     \
        size_t capacity = length + length / 5 + 1;                                                                       \
        uint8_t *buffer = malloc(capacity);                                                                              \
        for (size_t round = 0; round < rounds; round++) {                                                                \
            size_t from = 0;                                                                                             \
            for (size_t i = 0; i < places; i++) {                                                                        \
                const uint8_t *b = text + from;                                                                          \
                size_t n = at[i] - from;                                                                                 \
                sum += ANSWER;                                                                                           \
                from = at[i];                                                                                            \
            }                                                                                                            \
        }                                                                                                                \
        free(buffer);                                                                                                    \
        return sum;                                                                                                      \
    }

/* ---- Blocks ---- */

EACH_REST(empty, n == 0 ? 0 : b[0])

/* A break, or what the original answers of none: how far it was looked. */
static u64 hrule(struct mds_break it) { return it.length == MDS_NONE ? two(it.none_before, 2) : two(it.length, 1); }
EACH_REST(hrule, hrule(mds_scan_hrule(b, n)))

EACH_REST(atx, mds_scan_atx_heading(b, n))

static u64 underline(struct mds_underline it) { return it.length == MDS_NONE ? 0 : two(it.length, it.level); }
EACH_REST(setext, underline(mds_scan_setext_heading(b, n)))

static u64 fence(struct mds_fence it) { return it.length == MDS_NONE ? 0 : two(it.length, it.byte); }
EACH_REST(fence, fence(mds_scan_code_fence(b, n)))
EACH_REST(closing_fence, count(mds_scan_closing_code_fence(b, n, '`', 3)))
EACH_REST(metadata, fence(mds_scan_metadata_block(b, n, true, true)))
EACH_REST(closing_metadata, count(mds_scan_closing_metadata_block(b, n, '-')))

static u64 listitem(struct mds_list_item it) {
    return it.length == MDS_NONE ? 0 : two(it.length, it.delimiter) + two(it.start, it.indent);
}
EACH_REST(listitem, listitem(mds_scan_listitem(b, n)))

EACH_REST(blank, count(mds_scan_blank_line(b, n)))
EACH_REST(line, mds_scan_line(b, n))
EACH_REST(nextline, mds_scan_nextline(b, n))

static u64 indent(struct mds_indent it) { return two(it.place, it.columns); }
EACH_REST(indent, indent(mds_calc_indent(b, n, 4)))
EACH_REST(indent_deep, indent(mds_calc_indent(b, n, 1000000000)))

EACH_REST(quote_start, count(mds_scan_blockquote_start(b, n)))
EACH_REST(interrupts, mds_interrupts_paragraph(b, n))

/* Each row is longer than its columns are many. */
static u64 table_head(const uint8_t *b, size_t n, uint8_t *alignments, size_t capacity) {
    struct mds_text row = mds_scan_table_head(b, n, alignments, capacity);
    u64 sum = 0;
    if (row.status != MDS_OK)
        return two(0, 0);
    for (size_t i = 0; i < row.length; i++)
        sum = sum * 5 + alignments[i] + 1;
    return two(row.taken, sum);
}
EACH_PLACE_INTO(table_head, table_head(text + place, length - place, buffer, length))

u64 c_classes(const uint8_t *text, size_t length, const size_t *at, size_t places, size_t rounds) {
    u64 sum = 0;
    (void)at, (void)places;
    for (size_t round = 0; round < rounds; round++)
        for (size_t i = 0; i < length; i++)
            sum += (u64)mds_is_punctuation(text[i]) + mds_is_whitespace(text[i]) + mds_is_whitespace_in_line(text[i]);
    return sum;
}

/* ---- HTML ---- */

EACH_REST(type_6, mds_starts_html_block_type_6(b, n))
EACH_REST(type_7, count(mds_scan_html_type_7(b, n)))
EACH_REST(html_start, mds_scan_html_block_start(b, n))
EACH_REST(html_end, mds_ends_html_block(b, n, MDS_HTML_COMMENT) == MDS_OK)

static u64 tag(size_t length) { return length == MDS_NONE ? 0 : two(length, 0); }
EACH_REST(tag, tag(mds_scan_html_tag(b, n)))

/* A skip for each line that `> ` begins. */
static size_t skips_of(const uint8_t *text, size_t length, struct mds_skip *skips) {
    size_t made = 0;
    for (size_t i = 0; i + 1 < length; i++)
        if (text[i] == '>' && text[i + 1] == ' ' && (i == 0 || text[i - 1] == '\n' || text[i - 1] == '\r'))
            skips[made++] = (struct mds_skip){i, 2};
    return made;
}

u64 c_tag_lines(const uint8_t *text, size_t length, const size_t *at, size_t places, size_t rounds) {
    u64 sum = 0;
    uint8_t *buffer = malloc(length + 1);
    struct mds_skip *skips = malloc((length + 1) * sizeof(*skips));
    size_t many = skips_of(text, length, skips);
    for (size_t round = 0; round < rounds; round++)
        for (size_t i = 0; i < places; i++) {
            struct mds_tag it = mds_scan_html_tag_over_lines(text, length, at[i], skips, many, buffer, length);
            sum += it.status == MDS_OK ? two(it.end - at[i], it.length) : 0;
        }
    free(skips), free(buffer);
    return sum;
}

/* After all openers outside of earlier finds. */
u64 c_inline_html(const uint8_t *text, size_t length, const size_t *at, size_t places, size_t rounds) {
    u64 sum = 0;
    for (size_t round = 0; round < rounds; round++) {
        struct mds_html_guard guard = {0};
        size_t end = 0;
        for (size_t i = 0; i < places; i++)
            if (at[i] >= end && at[i] > 0 && at[i] <= length) {
                struct mds_end it = mds_scan_inline_html(text, length, at[i], &guard);
                if (it.status == MDS_OK)
                    end = it.end, sum += count(it.end);
            }
    }
    return sum;
}

/* ---- Parts of inline text ---- */

static u64 from_place(struct mds_part it, size_t place) {
    return it.status == MDS_OK ? two(it.end - place, it.length) : 0;
}
static u64 to_place(struct mds_part it) { return it.status == MDS_OK ? two(it.end, it.length) : 0; }
EACH_PLACE(link_dest, from_place(mds_scan_link_dest(text, length, place, 32), place))
EACH_PLACE(link_dest_deep, from_place(mds_scan_link_dest(text, length, place, SIZE_MAX), place))
EACH_PLACE(autolink, to_place(mds_scan_autolink(text, length, place)))
EACH_PLACE(wikilink, to_place(mds_scan_wikilink_pipe(text, length, place, 80)))

static u64 entity(const uint8_t *b, size_t n) {
    uint8_t buffer[6];
    struct mds_text it = mds_scan_entity(b, n, buffer, sizeof(buffer));
    return it.status == MDS_OK ? two(it.taken, it.length) : 0;
}
EACH_REST(entity_html, entity(b, n))

/* What is as long as its source is lent on the other side, since no change leaves the length. */
static u64 unescaped(struct mds_text it) { return two(it.length, it.length == it.taken); }
EACH_STRETCH(unescape_html, unescaped(mds_unescape(b, n, false, buffer, capacity)))
EACH_STRETCH(unescape_table_html, unescaped(mds_unescape(b, n, true, buffer, capacity)))

static u64 label(const uint8_t *text, size_t length, size_t place, bool in_table, uint8_t *buffer) {
    struct mds_label it = mds_scan_link_label(text, length, place, in_table, NULL, 0, buffer, length);
    return it.status == MDS_OK ? two(it.end - place, it.length) * 2 + (it.start != MDS_NONE) : 0;
}
EACH_PLACE_INTO(label, label(text, length, place, false, buffer))
EACH_PLACE_INTO(label_table, label(text, length, place, true, buffer))

/* ---- Line starts ---- */

static u64 place_of(const struct mds_line_start *line) { return two(line->place, line->pending); }

static u64 line_quote(const uint8_t *b, size_t n) {
    struct mds_line_start line = {0};
    mds_line_space_up_to(b, n, &line, 3);
    bool quote = mds_line_quote(b, n, &line) == MDS_OK;
    return place_of(&line) * 2 + quote;
}
EACH_REST(line_quote, line_quote(b, n))

static u64 line_list(const uint8_t *b, size_t n) {
    struct mds_line_start line = {0};
    u64 answer = 1;
    size_t indent = mds_line_space_up_to(b, n, &line, 4).columns;
    if (indent < 4) {
        struct mds_line_item it = mds_line_list(b, n, &line, indent);
        answer = it.status == MDS_OK ? two(it.indent, it.delimiter) + it.start : 2;
    }
    return place_of(&line) * 3 + answer;
}
EACH_REST(line_list, line_list(b, n))

static u64 line_task(const uint8_t *b, size_t n) {
    struct mds_line_start line = {0};
    struct mds_task it = mds_line_task(b, n, &line);
    return place_of(&line) * 3 + (it.status == MDS_OK ? 1 + (u64)it.checked : 0);
}
EACH_REST(line_task, line_task(b, n))

static u64 line_definition(const uint8_t *b, size_t n) {
    struct mds_line_start line = {0};
    struct mds_columns it = mds_line_definition(b, n, &line, 0);
    return place_of(&line) * 3 + (it.status == MDS_OK ? it.columns : 0);
}
EACH_REST(line_definition, line_definition(b, n))

static u64 line_tag(const uint8_t *b, size_t n) {
    struct mds_line_start line = {0};
    struct mds_alert it = mds_line_alert(b, n, &line);
    return place_of(&line) * 3 + (it.status == MDS_OK ? it.kind : 0);
}
EACH_REST(line_tag, line_tag(b, n))

static u64 line_space(const uint8_t *b, size_t n) {
    struct mds_line_start line = {0};
    for (int i = 0; i < 1000 && mds_line_space(b, n, &line, 4) == MDS_OK; i++) {
    }
    return place_of(&line);
}
EACH_REST(line_space, line_space(b, n))

static u64 line_upto(const uint8_t *b, size_t n) {
    struct mds_line_start line = {0};
    size_t columns = mds_line_space_up_to(b, n, &line, 1000000000).columns;
    return place_of(&line) + columns;
}
EACH_REST(line_upto, line_upto(b, n))

static u64 line_all(const uint8_t *b, size_t n) {
    struct mds_line_start line = {0};
    mds_line_all_space(b, n, &line);
    bool eol = mds_line_is_at_end(b, n, &line) == MDS_OK;
    return place_of(&line) * 2 + eol;
}
EACH_REST(line_all, line_all(b, n))

/* Block quotes and list items in turn, then the space before the text. */
static u64 line_containers(const uint8_t *b, size_t n) {
    struct mds_line_start line = {0};
    u64 sum = 0;
    for (int i = 0; i < 100000; i++) {
        size_t indent = mds_line_space_up_to(b, n, &line, 3).columns;
        if (mds_line_quote(b, n, &line) == MDS_OK) {
            sum += 1;
            continue;
        }
        struct mds_line_item it = mds_line_list(b, n, &line, indent);
        if (it.status != MDS_OK)
            break;
        sum += two(it.indent, it.delimiter) + it.start;
    }
    mds_line_all_space(b, n, &line);
    bool eol = mds_line_is_at_end(b, n, &line) == MDS_OK;
    return sum + place_of(&line) + eol;
}
EACH_REST(line_containers, line_containers(b, n))
