/* The extensions of packages/extensions.tsv: constants have these bits, and each call takes them, those of blocks and inlines where they
 * have no use for them too; one that events and HTML are not built of is refused there, and a bit that is no extension everywhere. */
#include "fillaqut_parser.h"
#include "tables.h"

#include <string.h>

enum { CAPACITY = 8, NOT_BUILT = EVERY_EXTENSION & ~EVERY_BUILT };

static const char *const constants[] = {
    "MDS_TABLES", "MDS_FOOTNOTES", "MDS_STRIKETHROUGH", "MDS_TASKS", "MDS_DEFINITION_LISTS", "MDS_WIKILINKS"};
static const uint32_t bits[] = {MDS_TABLES, MDS_FOOTNOTES, MDS_STRIKETHROUGH, MDS_TASKS, MDS_DEFINITION_LISTS, MDS_WIKILINKS};

/* The calls that find blocks and inlines have this status with these extensions, and write where it is MDS_OK alone. */
static void in_blocks(int line, uint32_t asked, uint32_t status) {
    struct mds_open_blocks open = {0, asked, 0};
    struct mds_block leaf = {.kind = 99};
    const size_t count = status == MDS_OK;
    struct mds_blocks found = mds_scan_blocks(OF("a"), asked, writable(BUFFER, CAPACITY * sizeof(struct mds_block)), CAPACITY);
    same(line, "blocks", found.status, status), same(line, "count", found.count, count);
    same(line, "is_left", is_left(BUFFER, count * sizeof(struct mds_block)), true);
    found = mds_scan_lists(OF("- a"), asked, writable(BUFFER, CAPACITY * sizeof(struct mds_list)), CAPACITY);
    same(line, "lists", found.status, status), same(line, "count", found.count, count);
    same(line, "is_left", is_left(BUFFER, count * sizeof(struct mds_list)), true);
    struct mds_inlines inlines = mds_scan_inlines(OF("a"), NULL, 0, asked, writable(BUFFER, CAPACITY * sizeof(struct mds_inline)), CAPACITY);
    same(line, "inlines", inlines.status, status), same(line, "count", inlines.count, count);
    same(line, "is_left", is_left(BUFFER, count * sizeof(struct mds_inline)), true);
    same(line, "block", mds_block_line(OF("a"), true, NULL, 0, &open, &leaf).status, status);
    same(line, "kind", leaf.kind, count ? MDS_BLOCK_PARAGRAPH : 99), same(line, "extensions", open.extensions, asked);
}

/* Those that make events and HTML have this one. */
static void in_events(int line, uint32_t asked, uint32_t status) {
    struct mds_parser parser;
    const uint32_t then = status == MDS_OK ? MDS_TOO_SHORT : status;
    const size_t length = status == MDS_OK ? 9 : 0;
    struct mds_text html = mds_html(OF("a"), asked, NULL, 0), whole_html = mds_html_unsafe(OF("a"), asked, NULL, 0);
    struct mds_text html_with = mds_html_with(OF("a"), asked, &(struct mds_html_setting){0}, NULL, 0);
    same(line, "html", html.status, then), same(line, "length", html.length, length);
    same(line, "html_with", html_with.status, then), same(line, "length", html_with.length, length);
    same(line, "html_unsafe", whole_html.status, then), same(line, "length", whole_html.length, length);
    struct mds_events events = mds_events(OF("a"), asked, NULL, 0, NULL, 0);
    same(line, "events", events.status, then), same(line, "count", events.count, status == MDS_OK ? 3 : 0);
    same(line, "parser", mds_parser_new(&parser, OF("a"), asked), status);
    mds_parser_free(&parser);
}

/* A row: its name, its bit, its constant, and whether events and HTML are built of it. */
static void check(const struct row *row) {
    const uint32_t bit = (uint32_t)number_of(row->columns[1]);
    size_t i = 0;
    while (i < sizeof(bits) / sizeof(*bits) && strcmp(constants[i], row->columns[2]))
        i++;
    same(row->line, "a constant", i < sizeof(bits) / sizeof(*bits) && bits[i] == bit, true);
    same(row->line, "the name", extension_of(row->columns[0]), bit);
    in_blocks(row->line, bit, MDS_OK);
    in_events(row->line, bit, strcmp(row->columns[3], "yes") == 0 ? MDS_OK : MDS_BAD_KIND);
}

/* All at once, and each other bit, alone and with these. */
static void others(void) {
    in_blocks(__LINE__, EVERY_EXTENSION, MDS_OK);
    in_events(__LINE__, EVERY_BUILT, MDS_OK), in_events(__LINE__, EVERY_EXTENSION, MDS_BAD_KIND);
    for (uint32_t bit = 1; bit > 0; bit *= 2) {
        if (bit & EVERY_EXTENSION)
            continue;
        in_blocks(__LINE__, bit, MDS_BAD_KIND), in_blocks(__LINE__, bit | EVERY_EXTENSION, MDS_BAD_KIND);
        in_events(__LINE__, bit, MDS_BAD_KIND), in_events(__LINE__, bit | EVERY_BUILT, MDS_BAD_KIND);
    }
    in_events(__LINE__, NOT_BUILT, MDS_BAD_KIND);
}

int main(void) {
    each_row("extensions.tsv", 6, NULL, check);
    others();
    at_front = true;
    others();
    return report("extensions");
}
