/* Memory refused. Fifteen functions may answer MDS_NO_MEMORY: on each of their inputs here the first, second, .. request is refused
 * until none is left, by itself and with all that follow. The call then answers MDS_NO_MEMORY, returns nothing more and writes
 * nothing, or it has the same answer as with ample memory; and it frees what it was given. The other functions make no request,
 * and neither do these fifteen where the header says so. The linker puts the functions __wrap_.. in the place of the C library's
 * (--wrap). */
#include "checks.h"
#include "fillaqut_parser.h"
#include "requests.h"

#include <stdlib.h>
#include <string.h>

void *__real_malloc(size_t size);
void *__real_realloc(void *old, size_t size);
void __real_free(void *old);
void *__wrap_malloc(size_t size);
void *__wrap_realloc(void *old, size_t size);
void __wrap_free(void *old);

size_t requests, refused;

/* For how many bytes the last request was; how many blocks are held. */
static size_t asked, held;

/* Whether the requests after the refused one are refused too. */
static bool all_later;

static bool is_refused(size_t size) {
    asked = size;
    requests++;
    return requests == refused || (all_later && refused > 0 && requests > refused);
}

void *__wrap_malloc(size_t size) {
    void *made = is_refused(size) ? NULL : __real_malloc(size);
    held += made != NULL;
    return made;
}

void *__wrap_realloc(void *old, size_t size) {
    void *made = is_refused(size) ? NULL : __real_realloc(old, size);
    held += made != NULL && old == NULL;
    return made;
}

void __wrap_free(void *old) {
    held -= old != NULL;
    __real_free(old);
}

/* The parts of a long input, the bytes of one, and the room in a buffer for whatever a call makes here. */
enum { MANY = 40, LONG = 900, AMPLE = 2400 };

/* What a call returns: its status, and its other numbers. */
struct returned {
    uint32_t status;
    size_t numbers[3];
};

/* A call with buffers of so many bytes. */
typedef struct returned call_with(size_t capacity);

static struct returned of_text(struct mds_text text) {
    return (struct returned){text.status, {text.taken, text.length, 0}};
}

static struct returned escape(size_t capacity) {
    return of_text(mds_unescape(OF("a&amp;b"), false, writable(BUFFER, capacity), capacity));
}

static struct returned escape_in_cell(size_t capacity) {
    return of_text(mds_unescape(OF("\\\\|"), true, writable(BUFFER, capacity), capacity));
}

static struct returned long_escape(size_t capacity) {
    static char text[LONG];
    memset(text, 'a', LONG), text[LONG - 1] = '\r';
    return of_text(mds_unescape(given(BYTES, text, LONG), LONG, false, writable(BUFFER, capacity), capacity));
}

static struct returned of_label(struct mds_label label) {
    return (struct returned){label.status, {label.end, label.length, label.start}};
}

static struct returned label(size_t capacity) {
    return of_label(mds_scan_link_label(OF("a  b]"), 0, false, NULL, 0, writable(BUFFER, capacity), capacity));
}

static struct returned label_in_cell(size_t capacity) {
    return of_label(mds_scan_link_label(OF("a\\|b]"), 0, true, NULL, 0, writable(BUFFER, capacity), capacity));
}

static struct returned long_label(size_t capacity) {
    static char text[LONG];
    memset(text, 'a', LONG), text[1] = text[2] = ' ', text[LONG - 1] = ']';
    return of_label(
        mds_scan_link_label(given(BYTES, text, LONG), LONG, 0, false, NULL, 0, writable(BUFFER, capacity), capacity));
}

/* A label over lines, of which one leaves something out. */
static struct returned label_over_lines(size_t capacity) {
    static const struct mds_skip skips[] = {{2, 2}};
    return of_label(mds_scan_link_label(OF("a\n> b]"), 0, false, skips, 1, writable(BUFFER, capacity), capacity));
}

static struct returned of_tag(struct mds_tag tag) {
    return (struct returned){tag.status, {tag.end, tag.length, 0}};
}

/* A tag over lines, of which one leaves something out. */
static struct returned tag(size_t capacity) {
    static const struct mds_skip skips[] = {{5, 2}};
    return of_tag(mds_scan_html_tag_over_lines(OF("<foo\n> bar>"), 0, skips, 1, writable(BUFFER, capacity), capacity));
}

static struct returned long_tag(size_t capacity) {
    static const struct mds_skip skips[] = {{3, 2}};
    static char text[LONG];
    memset(text, ' ', LONG), memcpy(text, "<a\n>", 4), text[LONG - 1] = '>';
    return of_tag(
        mds_scan_html_tag_over_lines(given(BYTES, text, LONG), LONG, 0, skips, 1, writable(BUFFER, capacity), capacity));
}

static struct returned key(size_t capacity) {
    return of_text(mds_label_key(OF("A \xe1\xba\x9e"), writable(BUFFER, capacity), capacity));
}

static struct returned long_key(size_t capacity) {
    static char text[LONG];
    memset(text, 'A', LONG), memcpy(text, "\xc3\x84", 2);
    return of_text(mds_label_key(given(BYTES, text, LONG), LONG, writable(BUFFER, capacity), capacity));
}

static struct returned table(size_t capacity) {
    return of_text(mds_scan_table_head(OF("|-|-|"), writable(BUFFER, capacity), capacity));
}

static struct returned wide_table(size_t capacity) {
    static char text[2 * MANY];
    for (size_t i = 0; i < MANY; i++)
        text[2 * i] = '-', text[2 * i + 1] = '|';
    return of_text(mds_scan_table_head(given(BYTES, text, 2 * MANY), 2 * MANY, writable(BUFFER, capacity), capacity));
}

static struct returned of_html(const char *text, size_t length, const size_t *places, size_t count, size_t capacity) {
    const uint8_t *bytes = given(BYTES, text, length);
    const size_t *list = given(LIST, places, count * sizeof(*list));
    size_t most = capacity / sizeof(size_t), *ends = writable(BUFFER, most * sizeof(size_t));
    struct mds_html_run run = mds_run_inline_html(bytes, length, list, count, ends, most);
    return (struct returned){run.status, {run.count, 0, 0}};
}

static struct returned html_run(size_t capacity) {
    return of_html("<!a><!b>", 8, (const size_t[]){2, 6}, 2, capacity);
}

static struct returned long_html_run(size_t capacity) {
    static char text[2 * MANY];
    static size_t places[MANY];
    for (size_t i = 0; i < MANY; i++)
        text[2 * i] = '<', text[2 * i + 1] = '!', places[i] = 2 * i + 2;
    return of_html(text, 2 * MANY, places, MANY, capacity);
}

static struct returned of_blocks(const char *page, size_t length, size_t capacity) {
    size_t most = capacity / sizeof(struct mds_block);
    struct mds_block *blocks = writable(BUFFER, most * sizeof(*blocks));
    struct mds_blocks found = mds_scan_blocks(given(BYTES, page, length), length, MDS_TABLES, blocks, most);
    return (struct returned){found.status, {found.count, 0, 0}};
}

static struct returned blocks(size_t capacity) {
    return of_blocks("> - a\n\n[b]: c\nd\n", 16, capacity);
}

static struct returned blocks_of_table(size_t capacity) {
    return of_blocks("|a|b|\n|-|-|\n", 12, capacity);
}

static struct returned deep_blocks(size_t capacity) {
    static char page[MANY / 3];
    memset(page, '>', sizeof(page));
    return of_blocks(page, sizeof(page), capacity);
}

static struct returned of_lists(const char *page, size_t length, size_t capacity) {
    size_t most = capacity / sizeof(struct mds_list);
    struct mds_list *lists = writable(BUFFER, most * sizeof(*lists));
    struct mds_blocks found = mds_scan_lists(given(BYTES, page, length), length, MDS_TABLES, lists, most);
    return (struct returned){found.status, {found.count, 0, 0}};
}

static struct returned lists(size_t capacity) {
    return of_lists("- a\n  1. b\n\n  2. c\n+ d\n", 23, capacity);
}

static struct returned many_lists(size_t capacity) {
    static char page[4 * MANY];
    for (size_t i = 0; i < MANY; i++)
        memcpy(page + 4 * i, i % 2 ? "- a\n" : "+ a\n", 4);
    return of_lists(page, sizeof(page), capacity);
}

static struct returned of_line(const char *text, size_t length, size_t capacity) {
    struct mds_open_blocks open = {0, MDS_TABLES, 0};
    struct mds_block block = {.bytes = 0};
    size_t most = capacity / sizeof(struct mds_block);
    struct mds_block *containers = writable(BUFFER, most * sizeof(*containers));
    struct mds_line_block found = mds_block_line(given(BYTES, text, length), length, true, containers, most, &open, &block);
    return (struct returned){found.status, {found.kept, found.depth, block.bytes}};
}

static struct returned line(size_t capacity) {
    return of_line("> - [b]: c\nd\n", 13, capacity);
}

static struct returned line_of_table(size_t capacity) {
    return of_line("> |a|b|\n> |-|-|\n", 16, capacity);
}

static struct returned deep_line(size_t capacity) {
    static char text[MANY / 3];
    memset(text, '>', sizeof(text));
    return of_line(text, sizeof(text), capacity);
}

static struct returned content_in(const char *page, size_t length, size_t depth, size_t capacity) {
    static struct mds_block quotes[MANY];
    const struct mds_block leaf = {.kind = MDS_BLOCK_PARAGRAPH, .bytes = length};
    const void *bytes = given(BYTES, page, length), *block = given(LIST, &leaf, sizeof(leaf));
    for (size_t i = 0; i < depth; i++)
        quotes[i].kind = MDS_BLOCK_QUOTE;
    const void *containers = given(OTHER_BYTES, quotes, depth * sizeof(*quotes));
    return of_text(mds_block_content(bytes, length, block, containers, depth, 0, writable(BUFFER, capacity), capacity));
}

/* It is one run of the page: memory is asked for the containers alone. */
static struct returned content_in_many(size_t capacity) {
    return content_in("> a\n", 4, MANY, capacity);
}

static struct returned long_content(size_t capacity) {
    static char page[LONG];
    for (size_t i = 0; i < LONG; i++)
        page[i] = "> a\n"[i % 4];
    return content_in(page, LONG, 1, capacity);
}

static struct returned of_inlines(const char *text, size_t length, const struct mds_view *labels, size_t count, size_t capacity) {
    const struct mds_view *views = given(LIST, labels, count * sizeof(*views));
    size_t most = capacity / sizeof(struct mds_inline);
    struct mds_inline *inlines = writable(BUFFER, most * sizeof(*inlines));
    struct mds_inlines found = mds_scan_inlines(given(BYTES, text, length), length, views, count, MDS_STRIKETHROUGH, inlines, most);
    return (struct returned){found.status, {found.count, 0, 0}};
}

static struct returned inlines(size_t capacity) {
    return of_inlines("*a* `b` [c](d)", 14, NULL, 0, capacity);
}

/* Keys are made of the labels that are defined, and of those that are looked up. */
static struct returned inlines_with_labels(size_t capacity) {
    static const struct mds_view labels[] = {{"\xc3\x84", 2}, {"B  c", 4}, {"b c", 3}};
    return of_inlines("[\xc3\xa4][] ![a][B\nC] [d]", 20, labels, 3, capacity);
}

static struct returned inlines_with_many_labels(size_t capacity) {
    static struct mds_view labels[MANY];
    for (size_t i = 0; i < MANY; i++)
        labels[i] = (struct mds_view){"abcdefghijklmnopqrstuvwxyzabcdefghijklmnopqrstuvwxyz" + i, 4};
    return of_inlines("[DEFG]", 6, labels, MANY, capacity);
}

/* Headings, tables, tasks, lists, quotes, definitions and inlines: all that a page keeps while it is read. */
static const char whole_page[] = "# a\n> - [x] *b* [c]\n\n|a|`b`|\n|-|-|\n|c|![d](e)|\n\n[c]: /f \"g\"\n";

static struct returned html_unsafe(size_t capacity) {
    return of_text(mds_html_unsafe(OF(whole_page), MDS_TABLES | MDS_TASKS, writable(BUFFER, capacity), capacity));
}

static struct returned long_html_unsafe(size_t capacity) {
    static char page[10 * MANY];
    for (size_t i = 0; i < sizeof(page); i++)
        page[i] = "*a*\n\n"[i % 5];
    return of_text(mds_html_unsafe(given(BYTES, page, sizeof(page)), sizeof(page), 0, writable(BUFFER, capacity), capacity));
}

static struct returned html(size_t capacity) {
    return of_text(mds_html(OF("<a@b> [c](https://d) <f>"), 0, writable(BUFFER, capacity), capacity));
}

static struct returned html_with(size_t capacity) {
    static const struct mds_view schemes[] = {{"https", 5}, {"mailto", 6}};
    static const struct mds_html_setting setting = {
        .schemes = schemes, .scheme_count = 2, .raw_html = MDS_RAW_HTML_OMITTED, .rel = MDS_REL_NONE, .images_as_links = 1};
    return of_text(mds_html_with(OF("<a@b> [c](d:e) <f> ![g](h)"), 0, &setting, writable(BUFFER, capacity), capacity));
}

/* A page that is not UTF-8, which is copied. */
static struct returned mended_html(size_t capacity) {
    return of_text(mds_html(OF("# a\xff\n\n*\xe2\x82*"), 0, writable(BUFFER, capacity), capacity));
}

/* The events stand in front of their texts. */
/* Where there is room, for 24 events and 304 bytes of texts. */
static struct returned of_events(const char *page, size_t length, size_t capacity) {
    size_t most = capacity ? 24 : 0, texts_capacity = capacity ? 304 : 0, records = most * sizeof(struct mds_event);
    uint8_t *both = writable(BUFFER, records + texts_capacity);
    struct mds_events found = mds_events(
        given(BYTES, page, length), length, MDS_TABLES | MDS_TASKS, (struct mds_event *)(void *)both, most,
        both + records, texts_capacity);
    return (struct returned){found.status, {found.count, found.length, 0}};
}

static struct returned events(size_t capacity) {
    static const char page[] = "# a\n> - [x] *b* [c]\n\n[c]: /f \"g\"\n";
    return of_events(page, sizeof(page) - 1, capacity);
}

static struct returned events_of_table(size_t capacity) {
    static const char page[] = "|a|`b`|\n|-|-|\n";
    return of_events(page, sizeof(page) - 1, capacity);
}

static struct returned long_events(size_t capacity) {
    static char page[10 * MANY];
    for (size_t i = 0; i < sizeof(page); i++)
        page[i] = "a\\\n"[i % 3];
    return of_events(page, capacity ? 12 : sizeof(page), capacity);
}

/* A handle is empty where some request of it is refused, and may be begun anew. */
static void handles(void) {
    struct mds_parser parser;
    size_t total;
    requests = refused = 0;
    SAME(mds_parser_new(&parser, whole_page, sizeof(whole_page) - 1, 0), MDS_OK), total = requests;
    mds_parser_free(&parser), SAME(held, 0);
    for (size_t which = 1; which <= total; which++) {
        requests = 0, refused = which;
        uint32_t status = mds_parser_new(&parser, whole_page, sizeof(whole_page) - 1, 0);
        SAME(status == MDS_OK || (status == MDS_NO_MEMORY && held == 0 && parser.count == 0), true);
        refused = 0;
        SAME(mds_parser_next(&parser, &(struct mds_item){NULL, {NULL, 0}, {NULL, 0}, {NULL, 0}}), status == MDS_OK ? MDS_OK : MDS_NOTHING);
        mds_parser_free(&parser), SAME(held, 0);
        SAME(mds_parser_new(&parser, whole_page, sizeof(whole_page) - 1, 0), MDS_OK), SAME(parser.count > 0, true);
        mds_parser_free(&parser), SAME(held, 0);
    }
}

static struct returned html_with_usual_schemes(size_t capacity) {
    static const struct mds_html_setting setting = {0};
    return of_text(mds_html_with(OF("[c](https://d)"), 0, &setting, writable(BUFFER, capacity), capacity));
}

static struct returned made(call_with *call, size_t capacity, size_t which) {
    writable(BUFFER, 0);
    requests = held = 0, refused = which;
    struct returned returned = call(capacity);
    refused = 0;
    return returned;
}

/* What an answer with ample memory has written. */
static uint8_t kept[ROOM_SIZE];

static void keep(void) {
    memcpy(kept, whole(BUFFER), ROOM_SIZE);
}

static bool is_kept(void) {
    return !memcmp(kept, whole(BUFFER), ROOM_SIZE);
}

static bool is_same(struct returned one, struct returned other) {
    return one.status == other.status && !memcmp(one.numbers, other.numbers, sizeof(one.numbers));
}

/* Whether memory was refused; if not, the answer has to be that of ample memory. */
static bool returned_refusal(int line, struct returned found, struct returned ample) {
    const struct returned nothing_more = {MDS_NO_MEMORY, {0, 0, 0}};
    same(line, "what is held", held, 0);
    bool refusal = found.status == MDS_NO_MEMORY;
    same(line, "what is returned", is_same(found, refusal ? nothing_more : ample), true);
    same(line, "what is written", refusal ? is_left(BUFFER, 0) : is_kept(), true);
    return refusal;
}

static void refuse_each(int line, call_with *call, size_t capacity, bool exact) {
    struct returned ample = made(call, capacity, 0);
    size_t total = requests, refusals = 0;
    keep();
    same(line, "status", ample.status, capacity ? MDS_OK : MDS_TOO_SHORT);
    same(line, "what is held", held, 0);
    if (exact)
        same(line, "requests", total, 1), same(line, "bytes asked for", asked, ample.numbers[1]);
    for (size_t which = 1; which <= total; which++) {
        refusals += returned_refusal(line, made(call, capacity, which), ample);
        all_later = true;
        refusals += returned_refusal(line, made(call, capacity, which), ample);
        all_later = false;
    }
    same(line, "some request is refused", refusals > 0, true);
}

/* Each of its requests is refused, where the buffers have room and where they have none. */
#define ASKS(call) refuse_each(__LINE__, call, AMPLE, false), refuse_each(__LINE__, call, 0, false)

/* It makes one request, for as many bytes as its text has. */
#define ASKS_ONCE(call) refuse_each(__LINE__, call, AMPLE, true), refuse_each(__LINE__, call, 0, true)

static void asking(void) {
    ASKS_ONCE(escape), ASKS_ONCE(escape_in_cell), ASKS_ONCE(long_escape);
    ASKS_ONCE(label), ASKS_ONCE(label_in_cell), ASKS_ONCE(long_label), ASKS_ONCE(label_over_lines);
    ASKS_ONCE(tag), ASKS_ONCE(long_tag);
    ASKS(key), ASKS(long_key);
    ASKS(table), ASKS(wide_table);
    ASKS(html_run), ASKS(long_html_run);
    ASKS(blocks), ASKS(blocks_of_table), ASKS(deep_blocks);
    ASKS(lists), ASKS(many_lists);
    ASKS(line), ASKS(line_of_table), ASKS(deep_line);
    ASKS(content_in_many), ASKS(long_content);
    ASKS(inlines), ASKS(inlines_with_labels), ASKS(inlines_with_many_labels);
    ASKS(html_unsafe), ASKS(long_html_unsafe), ASKS(html), ASKS(html_with), ASKS(html_with_usual_schemes), ASKS(mended_html);
    ASKS(events), ASKS(events_of_table), ASKS(long_events);
}

int main(void) {
    asking(), handles(), asking_nothing();
    return report("memory");
}
