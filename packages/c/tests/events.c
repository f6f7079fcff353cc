/* The events of pages, on the rows of packages/pages.tsv; the handle over them; extensions and texts that are refused; and made pages, whose
 * events balance, and their ranges nest and cut no character. */
#include "fillaqut_parser.h"
#include "tables.h"

#include <stdio.h>
#include <string.h>

enum { MOST = 64, LINES = 4096 };

static const char *const kinds[] = {
    "start", "end", "text", "code", "inline math", "display math", "html", "inline html", "footnote reference", "soft break", "hard break",
    "rule", "task"};
static const char *const elements[] = {
    "", "paragraph", "heading", "block quote", "code block", "html block", "list", "item", "footnote definition", "definition list", "term",
    "definition", "table", "table head", "table row", "table cell", "emphasis", "strong", "strikethrough", "superscript", "subscript",
    "link", "image", "metadata block"};
static const char *const alignments[] = {"none", "left", "center", "right"};
static const char *const links[] = {
    "", "inline", "reference", "unknown reference", "collapsed", "unknown collapsed", "shortcut", "unknown shortcut", "autolink", "email",
    "wikilink", "piped wikilink"};

/* What is printed so far, which ends in a zero byte. */
static char printed[LINES];

static void print(const char *words) {
    strncat(printed, words, sizeof(printed) - strlen(printed) - 1);
}

static void print_quoted(struct mds_view view) {
    const char *text = view.text;
    print(" \"");
    for (size_t i = 0; i < view.length; i++)
        print(text[i] == '\n' ? "\\n" : (const char[]){text[i], 0});
    print("\"");
}

/* What the start of an element says besides. */
static void print_held(const struct mds_item *item) {
    const struct mds_event *event = item->event;
    char number[32];
    switch (event->element) {
    case MDS_ELEMENT_CODE_BLOCK:
        if (event->detail) print_quoted(item->text);
        return;
    case MDS_ELEMENT_LIST:
        snprintf(number, sizeof(number), event->detail ? " %llu" : "", (unsigned long long)event->number), print(number);
        return;
    case MDS_ELEMENT_TABLE:
        for (size_t i = 0; i < item->text.length; i++) print(" "), print(alignments[((const uint8_t *)item->text.text)[i]]);
        return;
    case MDS_ELEMENT_LINK:
    case MDS_ELEMENT_IMAGE:
        print(" "), print(links[event->detail]), print_quoted(item->text), print_quoted(item->title);
        if (item->label.length) print_quoted(item->label);
    }
}

/* The line of an event. */
static void print_event(const struct mds_item *item) {
    const struct mds_event *event = item->event;
    char number[64];
    snprintf(number, sizeof(number), "%zu %zu ", event->start, event->end), print(number);
    if (event->kind == MDS_EVENT_TASK) print(event->detail ? "checked " : "unchecked ");
    print(kinds[event->kind]);
    if (event->element) print(" "), print(elements[event->element]);
    if (event->element == MDS_ELEMENT_HEADING) snprintf(number, sizeof(number), " %u", event->detail), print(number);
    if (event->kind == MDS_EVENT_START) print_held(item);
    else if (item->text.length) print_quoted(item->text);
    print("\n");
}

/* A row: its page, and a line for each of its events. */
static struct text row_page, row_lines;

/* The handle gives each event and then none. */
static void is_given(int line, uint32_t extensions) {
    size_t length = row_page.length;
    struct mds_parser parser;
    struct mds_item item, rest;
    same(line, "status", mds_parser_new(&parser, given(BYTES, row_page.bytes, length), length, extensions), MDS_OK);
    given(BYTES, "", 0); /* the page is not read again */
    printed[0] = 0;
    while (mds_parser_next(&parser, &item) == MDS_OK) print_event(&item);
    bool is_same = strcmp(printed, (const char *)row_lines.bytes) == 0;
    if (!is_same) fprintf(stderr, "of %s there is\n%s", row_page.bytes, printed);
    same(line, "the events", is_same, true);
    memset(&rest, 1, sizeof(rest)), memset(&item, 1, sizeof(item));
    same(line, "after the last", mds_parser_next(&parser, &item), MDS_NOTHING);
    same(line, "the item", memcmp(&rest, &item, sizeof(item)), 0);
    mds_parser_free(&parser);
    same(line, "after the end", mds_parser_next(&parser, &item), MDS_NOTHING);
    mds_parser_free(&parser);
}

/* They are written where there is room for them, and nowhere else. */
static void is_written(int line, uint32_t extensions, size_t count, size_t length, bool fits) {
    struct mds_event *events = writable(LIST, count * sizeof(*events));
    uint8_t *texts = writable(BUFFER, length);
    const void *bytes = given(BYTES, row_page.bytes, row_page.length);
    struct mds_events found = mds_events(bytes, row_page.length, extensions, events, count, texts, length);
    same(line, "status", found.status, fits ? MDS_OK : MDS_TOO_SHORT);
    same(line, "events", is_left(LIST, fits ? found.count * sizeof(*events) : 0), true);
    same(line, "texts", is_left(BUFFER, fits ? found.length : 0), true);
}

static void check(const struct row *row) {
    read_text(row->columns[1], 0, &row_page), read_text(row->columns[3], 0, &row_lines);
    uint32_t extensions = extensions_of(row->columns[2]);
    struct mds_events found = mds_events(row_page.bytes, row_page.length, extensions, NULL, 0, NULL, 0);
    same(row->line, "status", found.status, found.count ? MDS_TOO_SHORT : MDS_OK);
    is_given(row->line, extensions);
    is_written(row->line, extensions, found.count, found.length, true);
    is_written(row->line, extensions, found.count + 1, found.length + 1, true);
    if (found.count) is_written(row->line, extensions, found.count - 1, found.length, false);
    if (found.length) is_written(row->line, extensions, found.count, found.length - 1, false);
}

/* So many bytes at the front of what is not UTF-8 are. */
static void is_refused(int line, const void *text, size_t length, uint32_t extensions, uint32_t status, size_t valid) {
    struct mds_event *events = writable(LIST, 8 * sizeof(*events));
    uint8_t *texts = writable(BUFFER, 8);
    struct mds_events found = mds_events(text, length, extensions, events, 8, texts, 8);
    struct mds_parser parser;
    same(line, "status", found.status, status), same(line, "count", found.count, 0), same(line, "length", found.length, valid);
    same(line, "events", is_left(LIST, 0), true), same(line, "texts", is_left(BUFFER, 0), true);
    same(line, "handle", mds_parser_new(&parser, text, length, extensions), status);
    same(line, "count", parser.count, 0), same(line, "memory", !parser.events && !parser.texts, true);
}

/* An extension that is unknown or not built is refused before a text that is not UTF-8. */
static void refusals(void) {
    for (uint32_t bit = 1; bit != 0; bit <<= 1) {
        bool is_built = (bit & EVERY_BUILT) != 0;
        SAME(mds_events(OF(""), bit, NULL, 0, NULL, 0).status, is_built ? MDS_OK : MDS_BAD_KIND);
        is_refused(__LINE__, OF("a\xff"), bit, is_built ? MDS_NOT_UTF8 : MDS_BAD_KIND, is_built ? 1 : 0);
        if (!is_built) is_refused(__LINE__, OF("a"), bit | EVERY_BUILT, MDS_BAD_KIND, 0);
    }
    is_refused(__LINE__, OF("a\xc3"), 0, MDS_NOT_UTF8, 1), is_refused(__LINE__, OF("\xc3\xa9\n\xed\xa0\x80"), 0, MDS_NOT_UTF8, 3);
    SAME(mds_events(NULL, 0, 0, NULL, 0, NULL, 0).status, MDS_OK);
}

static uint64_t seed = 7;

static size_t made(size_t below) {
    seed ^= seed << 13, seed ^= seed >> 7, seed ^= seed << 17;
    return seed % below;
}

/* A page of what begins something. */
static size_t make_page(char *page) {
    static const char *const pieces[] = {
        "*", "**", "_", "`", "[a]", "[", "![", "](b)", "](c \"d\")", "[a]: b 'c'\n", "\\", "&lt;", "<a>", "<b@c>", "<d:e>", "<!-- ", "-->",
        "\n", "  \n", "\n\n", "> ", "- ", "1. ", "# ", "===\n", "```\n", "    ", "\t", "|", "|-|\n", "~~", "[[a|", "]]", "- [ ] ", "a",
        "\xc3\xa4"};
    size_t length = 0, most = made(MOST);
    for (;;) {
        const char *piece = pieces[made(sizeof(pieces) / sizeof(*pieces))];
        if (length + strlen(piece) > most)
            return length;
        memcpy(page + length, piece, strlen(piece)), length += strlen(piece);
    }
}

/* Whether a character of the page begins here, or it ends. */
static bool is_boundary(const char *page, size_t length, size_t at) {
    return at == length || (at < length && ((uint8_t)page[at] & 0xC0) != 0x80);
}

static void made_pages(void) {
    char page[MOST];
    const struct mds_event *open[MOST * 8];
    for (size_t i = 0; i < 20000; i++) {
        at_front = i % 2;
        struct mds_parser parser;
        struct mds_item item;
        size_t length = make_page(page), depth = 0, texts = 0;
        SAME(mds_parser_new(&parser, given(BYTES, page, length), length, made(2) ? EVERY_BUILT : 0), MDS_OK);
        while (mds_parser_next(&parser, &item) == MDS_OK) {
            const struct mds_event *it = item.event;
            SAME(is_boundary(page, length, it->start) && is_boundary(page, length, it->end) && it->start <= it->end, true);
            SAME(depth == 0 || (open[depth - 1]->start <= it->start && it->end <= open[depth - 1]->end), true);
            SAME(it->text_start == texts && it->title_start == texts + it->text_length, true);
            SAME(it->label_start, it->title_start + it->title_length);
            texts = it->label_start + it->label_length;
            SAME(it->element != 0, it->kind == MDS_EVENT_START || it->kind == MDS_EVENT_END);
            if (it->kind == MDS_EVENT_START) open[depth++] = it;
            else if (it->kind == MDS_EVENT_END) {
                depth--;
                SAME(open[depth]->element == it->element && open[depth]->start == it->start && open[depth]->end == it->end, true);
            }
        }
        SAME(depth, 0);
        mds_parser_free(&parser);
    }
}

int main(void) {
    each_row("pages.tsv", 5, "events", check);
    refusals();
    at_front = true;
    refusals();
    made_pages();
    return report("events");
}
