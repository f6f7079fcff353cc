/* The rows of packages/skips.tsv, tags and labels over lines of which a table says what is left out, with what they are given at both
 * edges of its room; the longest labels; and made pages and tables, good ones and others. */
#include "tables.h"

#include <string.h>

/* No row has more skips. */
enum { MOST = 3 };

struct table {
    size_t count;
    struct mds_skip skips[MOST];
};

static const struct table none = {0, {{0, 0}}};

static const struct mds_skip *given_table(const struct table *table) {
    return given(LIST, table->skips, table->count * sizeof(*table->skips));
}

static uint32_t check_of(const char *bytes, size_t length, const struct table *table) {
    return mds_check_skips(given(BYTES, bytes, length), length, given_table(table), table->count);
}

/* ---- Tags ---- */

static struct mds_tag tag_of(const char *bytes, size_t length, size_t start, const struct table *table, size_t capacity) {
    const uint8_t *input = given(BYTES, bytes, length);
    const struct mds_skip *skips = given_table(table);
    return mds_scan_html_tag_over_lines(input, length, start, skips, table->count, writable(BUFFER, capacity), capacity);
}

/* The tag, where it is returned with each room for its text that is too small, and with enough. */
static void tag_is(int line, const struct text *page, size_t start, const struct table *table, size_t end, const struct text *text) {
    const char *bytes = (const char *)page->bytes;
    size_t length = page->length, size = text->length;
    for (size_t capacity = 0; capacity <= size + 1; capacity++) {
        struct mds_tag found = tag_of(bytes, length, start, table, capacity);
        same(line, "status", found.status, capacity < size ? MDS_TOO_SHORT : MDS_OK);
        same(line, "end", found.end, end), same(line, "length", found.length, size);
        same(line, "what else is written", is_left(BUFFER, capacity < size ? 0 : size), true);
    }
    tag_of(bytes, length, start, table, size);
    same(line, "text", memcmp(whole(BUFFER) + (at_front ? 0 : ROOM_SIZE - size), text->bytes, size), 0);
}

static void no_tag(int line, const struct text *page, size_t start, const struct table *table, uint32_t status) {
    struct mds_tag found = tag_of((const char *)page->bytes, page->length, start, table, 8);
    same(line, "status", found.status, status);
    same(line, "end", found.end, 0), same(line, "length", found.length, 0);
    same(line, "what is written", is_left(BUFFER, 0), true);
}

/* ---- Labels ---- */

static struct mds_label label_of(
    const char *bytes, size_t length, size_t start, bool in_table, const struct table *table, size_t capacity) {
    const uint8_t *input = given(BYTES, bytes, length);
    const struct mds_skip *skips = given_table(table);
    return mds_scan_link_label(input, length, start, in_table, skips, table->count, writable(BUFFER, capacity), capacity);
}

/* The label at an offset, in a cell of a table or not, where it is returned with each room for its text that is too small, and with
 * enough. */
static void label_is(
    int line, const struct text *page, size_t from, bool in_table, const struct table *table, const struct mds_label *label,
    const struct text *text) {
    const char *bytes = (const char *)page->bytes;
    size_t length = page->length, size = text->length;
    for (size_t capacity = 0; capacity <= size + 1; capacity++) {
        struct mds_label found = label_of(bytes, length, from, in_table, table, capacity);
        bool needs = capacity < size && (capacity > 0 || label->start == MDS_NONE);
        same(line, "status", found.status, needs ? MDS_TOO_SHORT : MDS_OK);
        same(line, "end", found.end, label->end), same(line, "length", found.length, size);
        same(line, "start", found.start, label->start);
        same(line, "what else is written", is_left(BUFFER, capacity < size ? 0 : size), true);
    }
    label_of(bytes, length, from, in_table, table, size);
    same(line, "text", memcmp(whole(BUFFER) + (at_front ? 0 : ROOM_SIZE - size), text->bytes, size), 0);
}

static void no_label(
    int line, const char *bytes, size_t length, size_t from, bool in_table, const struct table *table, uint32_t status) {
    struct mds_label found = label_of(bytes, length, from, in_table, table, 8);
    same(line, "status", found.status, status), same(line, "end", found.end, 0);
    same(line, "length", found.length, 0), same(line, "start", found.start, 0);
    same(line, "what is written", is_left(BUFFER, 0), true);
}

/* A label has 999 characters at most, of up to four bytes, whatever is left out of its lines. */
static void longest_labels(void) {
    enum { CHARACTERS = 999, LONG = 4 * CHARACTERS };
    char text[LONG + 5];
    for (size_t i = 0; i < CHARACTERS + 1; i++)
        memcpy(text + 4 * i, "\xf0\x9f\x8d\x94", 4);
    text[LONG] = ']';
    struct mds_label found = label_of(text, LONG + 1, 0, false, &none, 0);
    SAME(found.status, MDS_OK), SAME(found.end, LONG + 1), SAME(found.length, LONG), SAME(found.start, 0);
    text[LONG] = '\xf0', text[LONG + 4] = ']';
    no_label(__LINE__, text, LONG + 5, 0, false, &none, MDS_NOTHING);
    enum { SKIPPED = 2000, CLOSE = SKIPPED + CHARACTERS };
    const struct table skipped = {1, {{3, SKIPPED}}};
    memset(text, 'a', LONG), text[2] = '\n', memset(text + 3, ' ', SKIPPED), text[CLOSE] = ']';
    found = label_of(text, LONG, 0, false, &skipped, 0);
    SAME(found.status, MDS_TOO_SHORT), SAME(found.end, CLOSE + 1), SAME(found.length, CHARACTERS);
    text[CLOSE] = 'a', text[CLOSE + 1] = ']';
    no_label(__LINE__, text, LONG, 0, false, &skipped, MDS_NOTHING);
}

/* ---- Tables ---- */

/* What a call over any table returns: nothing past the end, and no more than there is room for. */
static void bounds(int line, uint32_t status, size_t start, size_t end, size_t length, size_t size, size_t capacity) {
    bool is_returned = status == MDS_OK || status == MDS_TOO_SHORT, is_refused = status == MDS_NOTHING || status == MDS_PAST_END;
    same(line, "status", is_returned || is_refused, true), same(line, "past", status == MDS_PAST_END, size < start);
    same(line, "end", is_returned ? end > start && end <= size : end == 0, true);
    same(line, "length", is_returned ? length <= end - start : length == 0, true);
    same(line, "what is written", is_left(BUFFER, status == MDS_OK && capacity > 0 ? length : 0), true);
}

static void any_answer(int line, const char *bytes, size_t size, size_t start, const struct table *table, size_t capacity) {
    struct mds_tag tag = tag_of(bytes, size, start, table, capacity);
    bounds(line, tag.status, start, tag.end, tag.length, size, capacity);
    struct mds_label label = label_of(bytes, size, start, false, table, capacity);
    bounds(line, label.status, start, label.end, label.length, size, capacity);
}

/* A table of no such text, with which all calls are safe. */
static void is_bad(const struct text *page, const struct table *table, int line) {
    for (size_t start = 0; start <= page->length + 1; start++)
        any_answer(line, (const char *)page->bytes, page->length, start, table, start);
}

/* ---- Rows ---- */

static struct table skips_of(const char *words) {
    struct table table = {0, {{0, 0}}};
    for (const char *word = *words ? words : NULL; word; word = after(word, ' ')) {
        const char *length = after(word, ',');
        if (table.count == MOST || !length)
            stop_at_row("it has more skips than there is space for, or one without its length");
        table.skips[table.count++] = (struct mds_skip){number_of(word), number_of(length)};
    }
    return table;
}

static void check_tag(const struct row *row, const struct text *page, const struct table *table) {
    const char *answer = row->columns[4];
    static struct text text;
    size_t start = number_of(row->columns[2]);
    if (strncmp(answer, "MDS_", 4) == 0) {
        no_tag(row->line, page, start, table, status_of(answer));
        return;
    }
    read_text(field_of(answer, "text"), 0, &text);
    tag_is(row->line, page, start, table, number_of(field_of(answer, "end")), &text);
}

static void check_label(const struct row *row, const struct text *page, const struct table *table) {
    const char *answer = row->columns[4], *flag = after(row->columns[2], ' ');
    static struct text text;
    size_t from = number_of(row->columns[2]);
    bool in_table = flag ? number_of(flag) : false;
    if (!flag)
        stop_at_row("it is not said whether the label is in a table");
    if (strncmp(answer, "MDS_", 4) == 0) {
        no_label(row->line, (const char *)page->bytes, page->length, from, in_table, table, status_of(answer));
        return;
    }
    const struct mds_label label = {.end = number_of(field_of(answer, "end")), .start = number_of(field_of(answer, "start"))};
    read_text(field_of(answer, "text"), 0, &text);
    label_is(row->line, page, from, in_table, table, &label, &text);
}

static void check(const struct row *row) {
    const char *call = row->columns[0];
    static struct text page;
    struct table table = skips_of(row->columns[3]);
    read_text(row->columns[1], 0, &page);
    if (strcmp(call, "scan_html_tag_over_lines") == 0) {
        check_tag(row, &page, &table);
    } else if (strcmp(call, "scan_link_label") == 0) {
        check_label(row, &page, &table);
    } else if (strcmp(call, "check_skips") == 0) {
        uint32_t status = status_of(row->columns[4]);
        same(row->line, "check", check_of((const char *)page.bytes, page.length, &table), status);
        if (status == MDS_BAD_SKIPS)
            is_bad(&page, &table, row->line);
    } else {
        stop_at_row("no such call");
    }
}

static void null_pointers(void) {
    SAME(mds_scan_html_tag_over_lines(NULL, 0, 0, NULL, 0, NULL, 0).status, MDS_NOTHING);
    SAME(mds_scan_html_tag_over_lines(NULL, 0, 1, NULL, 0, NULL, 0).status, MDS_PAST_END);
    SAME(mds_scan_link_label(NULL, 0, 0, false, NULL, 0, NULL, 0).status, MDS_NOTHING);
    SAME(mds_scan_link_label(NULL, 0, 1, false, NULL, 0, NULL, 0).status, MDS_PAST_END);
    SAME(mds_check_skips(NULL, 0, NULL, 0), MDS_OK);
}

/* ---- Made pages ---- */

/* Numbers that look as any, and are the same in each run. */
static size_t number_below(size_t limit) {
    static uint32_t state = 1;
    state = state * 1664525 + 1013904223;
    return (state >> 16) % limit;
}

/* Whether the skips are a table, one by one, as the header says it. */
static bool are_good(const struct table *table, size_t size) {
    for (size_t i = 0; i < table->count; i++) {
        struct mds_skip it = table->skips[i], before = i ? table->skips[i - 1] : (struct mds_skip){0, 0};
        if (it.place > size || it.length > size - it.place)
            return false;
        if (i && (it.place <= before.place || it.place - before.place < before.length))
            return false;
    }
    return true;
}

/* What is left of a page after `start` where the skips of its lines are left out; `places` has the place of each byte. */
static size_t flat(const char *page, size_t size, size_t start, const struct table *table, char *text, size_t *places) {
    size_t length = 0;
    for (size_t i = start; i < size; i++) {
        bool begins = i > start && (page[i - 1] == '\n' || (page[i - 1] == '\r' && page[i] != '\n'));
        for (size_t j = 0; begins && j < table->count; j++)
            if (table->skips[j].place == i) {
                i += table->skips[j].length;
                break;
            }
        if (i < size)
            places[length] = i, text[length++] = page[i];
    }
    return length;
}

/* Whether a CR and an LF have become one line ending, since what stood between them is left out. */
static bool joins_endings(const char *text, const size_t *places, size_t length) {
    for (size_t i = 1; i < length; i++)
        if (text[i - 1] == '\r' && text[i] == '\n' && places[i] != places[i - 1] + 1)
            return true;
    return false;
}

enum { PAGE = 24 };

/* With a table, what is returned of a page is what is returned without one of the page in which it is left out. */
static void is_flat(const char *page, size_t start, const struct table *table) {
    char text[PAGE], found[PAGE], expected[PAGE];
    size_t places[PAGE], length = flat(page, PAGE, start, table, text, places);
    if (joins_endings(text, places, length))
        return;
    struct mds_label label = label_of(page, PAGE, start, false, table, PAGE);
    memcpy(found, whole(BUFFER) + (at_front ? 0 : ROOM_SIZE - PAGE), PAGE);
    struct mds_label other = label_of(text, length, 0, false, &none, PAGE);
    memcpy(expected, whole(BUFFER) + (at_front ? 0 : ROOM_SIZE - PAGE), PAGE);
    SAME(label.status, other.status), SAME(label.length, other.length), SAME(memcmp(found, expected, PAGE), 0);
    SAME(label.end, other.status == MDS_OK ? places[other.end - 1] + 1 : 0);
    struct mds_tag tag = tag_of(page, PAGE, start, table, PAGE), plain = tag_of(text, length, 0, &none, PAGE);
    SAME(tag.status, plain.status), SAME(tag.end, plain.status == MDS_OK ? places[plain.end - 1] + 1 : 0);
    SAME(tag.length, plain.status == MDS_OK && tag.end - start > plain.end ? plain.end : 0);
}

static void made_pages(void) {
    static const char some[] = "a]<>\n\n\r[ =\"'/", in_tags[] = "ab  \n\n\r>='";
    for (size_t i = 0; i < 8000; i++) {
        char page[PAGE];
        struct table table = {number_below(MOST + 1), {{0, 0}}};
        for (size_t j = 0; j < PAGE; j++)
            page[j] = i % 2 ? in_tags[number_below(sizeof(in_tags) - 1)] : some[number_below(sizeof(some) - 1)];
        if (i % 2)
            memcpy(page, "<a", 2);
        for (size_t j = 0, place = 0; j < table.count; j++) {
            size_t end = i % 4 < 2 ? place + number_below(6) : number_below(PAGE + 2);
            table.skips[j] = (struct mds_skip){end, number_below(4)}, place = end + table.skips[j].length + (i % 3 > 0);
        }
        bool is_good = are_good(&table, PAGE);
        SAME(check_of(page, PAGE, &table), is_good ? MDS_OK : MDS_BAD_SKIPS);
        for (size_t start = 0; start < 4; start++)
            if (is_good)
                is_flat(page, start, &table);
            else
                any_answer(__LINE__, page, PAGE, start, &table, PAGE);
    }
}

static void others(void) {
    check_rooms();
    null_pointers(), longest_labels(), made_pages();
}

int main(void) {
    each_row("skips.tsv", 5, NULL, check);
    others();
    at_front = true;
    others();
    return report("skips");
}
