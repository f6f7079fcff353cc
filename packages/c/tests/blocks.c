/* The blocks of pages and their content, on the rows of packages/pages.tsv; refused numbers; and made pages, of which the blocks nest and
 * their lines, joined, are the page. The same pages fed byte by byte have the same blocks. */
#include "tables.h"

#include <stdio.h>
#include <string.h>

enum { MOST = 48, LONGEST = 64 };

static const char *const words[] = {
    "end", "quote", "item", "blank", "break", "heading", "setext", "indented", "fenced", "html", "table", "definition", "paragraph",
    "footnote", "term"};

static char said[4096];

static void say(const char *text, size_t length) {
    size_t at = strlen(said);
    memcpy(said + at, text, length), said[at + length] = 0;
}

static void describe(const struct mds_block *block, char *text) {
    const char *word = words[block->kind];
    size_t first = block->line + 1, last = block->line + block->lines;
    switch (block->kind) {
    case MDS_BLOCK_END: strcpy(text, word); break;
    case MDS_BLOCK_QUOTE:
    case MDS_BLOCK_FOOTNOTE: sprintf(text, "%s@%zu", word, block->place); break;
    case MDS_BLOCK_TERM_DEFINITION: sprintf(text, "%s%u@%zu", word, block->width, block->place); break;
    case MDS_BLOCK_ITEM: sprintf(text, "%s%c%u,%u@%zu", word, block->byte, block->number, block->width, block->place); break;
    case MDS_BLOCK_FENCED: sprintf(text, "%s%c%zu:%zu-%zu", word, block->byte, block->count, first, last); break;
    case MDS_BLOCK_TABLE: sprintf(text, "%s%zu:%zu-%zu", word, block->count, first, last); break;
    default:
        if (block->number > 0)
            sprintf(text, "%s%u:%zu-%zu", word, block->number, first, last);
        else
            sprintf(text, "%s:%zu-%zu", word, first, last);
    }
}

/* What is said is the answer of the row. */
static void is_said(const struct row *row) {
    static struct text answer;
    read_text(row->columns[3], 0, &answer);
    same(row->line, said, strcmp(said, (const char *)answer.bytes) == 0, true);
}

/* What is asked for. */
static uint32_t extensions;

/* The blocks of the page, which are written where there is room for all of them, and nowhere else. */
static size_t blocks_of(int example, const char *page, size_t length, struct mds_block *blocks) {
    const void *bytes = given(BYTES, page, length);
    size_t count = mds_scan_blocks(bytes, length, extensions, NULL, 0).count, size = count * sizeof(*blocks);
    same(example, "fits", count <= MOST, true);
    for (size_t less = 0; less < 2 && less <= count; less++) {
        void *buffer = writable(BUFFER, size);
        struct mds_blocks returned = mds_scan_blocks(bytes, length, extensions, buffer, count - less);
        same(example, "status", returned.status, less ? MDS_TOO_SHORT : MDS_OK);
        same(example, "count", returned.count, count);
        same(example, "is_left", is_left(BUFFER, less ? 0 : size), true);
        if (!less)
            memcpy(blocks, buffer, size);
    }
    return count;
}

/* The content of a block, which is written where there is room for it. */
static size_t content_of(
    int example, const char *page, size_t length, const struct mds_block *block, const struct mds_block *open, size_t depth,
    size_t kept, char *text) {
    const void *bytes = given(BYTES, page, length), *leaf = given(LIST, block, sizeof(*block));
    const struct mds_block *containers = given(OTHER_BYTES, open, depth * sizeof(*open));
    struct mds_text found = mds_block_content(bytes, length, leaf, containers, depth, kept, NULL, 0);
    size_t needed = found.length;
    same(example, "taken", found.taken, block->bytes);
    for (size_t less = 0; less < 2 && less <= needed; less++) {
        uint8_t *buffer = writable(BUFFER, needed);
        found = mds_block_content(bytes, length, leaf, containers, depth, kept, buffer, needed - less);
        same(example, "status", found.status, less ? MDS_TOO_SHORT : MDS_OK);
        same(example, "length", found.length, needed);
        same(example, "is_left", is_left(BUFFER, less ? 0 : needed), true);
        if (!less)
            memcpy(text, buffer, needed);
    }
    return needed;
}

static bool is_leaf(const struct mds_block *block) {
    return block->kind >= MDS_BLOCK_BLANK && block->kind <= MDS_BLOCK_PARAGRAPH;
}

/* Goes through the blocks of a page with the containers that are open. What is said then are the contents. */
static void contents_of(int example, const char *page, size_t length, const struct mds_block *blocks, size_t count) {
    struct mds_block open[MOST];
    size_t depth = 0, kept = 0;
    char text[4 * LONGEST * LONGEST];
    said[0] = 0;
    for (size_t i = 0; i < count; i++) {
        if (blocks[i].kind == MDS_BLOCK_END)
            kept = --depth;
        else if (!is_leaf(&blocks[i]))
            open[depth++] = blocks[i];
        else {
            size_t found = content_of(example, page, length, &blocks[i], open, depth, kept, text);
            say(text, found), say("|", 1), kept = depth;
        }
    }
    same(example, "containers that are open", depth, 0);
}

/* The containers that are open while a page is fed. */
static struct mds_block fed_containers[LONGEST];

/* The next block of the page, of which more and more is given, and at last that it has ended. */
static struct mds_line_block fed(
    const char *bytes, size_t length, size_t at, size_t *end, struct mds_open_blocks *open, struct mds_block *block) {
    for (bool has_ended = false;;) {
        struct mds_line_block found =
            mds_block_line(bytes + at, *end - at, has_ended, fed_containers, LONGEST, open, block);
        if (found.status != MDS_NOTHING || has_ended)
            return found;
        has_ended = *end == length, *end += !has_ended;
    }
}

/* A block is of the kind of another, and the same numbers belong to it. */
static void is_alike(int example, const struct mds_block *block, const struct mds_block *other) {
    same(example, "kind", block->kind, other->kind), same(example, "number", block->number, other->number);
    same(example, "byte", block->byte, other->byte), same(example, "width", block->width, other->width);
    same(example, "count", is_leaf(other) ? block->count : 0, other->count);
}

/* The leaf blocks of a page that stand from one place to another are together the block that is returned there, before which so many
 * lines stand. Answers how many of them there are. */
static size_t is_returned(int example, const struct mds_block *block, size_t at, size_t line, const struct mds_block *leaves) {
    size_t count = 0, bytes = 0, lines = 0;
    same(example, "start", leaves->start, at), same(example, "line", leaves->line, line);
    same(example, "place", at + block->place, leaves->place), same(example, "indent", block->indent, leaves->indent);
    for (; bytes < block->bytes && is_leaf(leaves + count); count++)
        bytes += leaves[count].bytes, lines += leaves[count].lines;
    same(example, "bytes", bytes, block->bytes), same(example, "lines", lines, block->lines);
    for (size_t i = 0; i + 1 < count; i++)
        same(example, "a part", leaves[i].kind, MDS_BLOCK_DEFINITION);
    if (leaves[count - 1].kind == MDS_BLOCK_DEFINITION)
        same(example, "a paragraph", block->kind, MDS_BLOCK_PARAGRAPH);
    else
        is_alike(example, block, leaves + count - 1);
    return count;
}

/* How many bytes of a page are the byte order mark that it begins with. */
static size_t mark_length(const char *page, size_t length) {
    return length >= 3 && memcmp(page, "\xef\xbb\xbf", 3) == 0 ? 3 : 0;
}

/* Fed byte by byte, after its byte order mark, the page has the same blocks, and these have the same content. */
static void is_fed(int example, const char *page, size_t length, const struct mds_block *blocks) {
    struct mds_open_blocks open = {0, extensions, 0};
    struct mds_block block;
    uint8_t first[LONGEST * LONGEST], second[LONGEST * LONGEST];
    size_t at = mark_length(page, length), end = at, line = 0, depth = 0;
    for (const char *bytes = given(BYTES, page, length); at < length; at += block.bytes, line += block.lines) {
        struct mds_line_block found = fed(bytes, length, at, &end, &open, &block);
        same(example, "status", found.status, MDS_OK);
        for (; blocks->kind == MDS_BLOCK_END; blocks++)
            depth--;
        same(example, "kept", found.kept, depth);
        for (; !is_leaf(blocks); blocks++)
            is_alike(example, &fed_containers[depth++], blocks);
        same(example, "depth", found.depth, depth), same(example, "open", open.depth, depth);
        size_t count = is_returned(example, &block, at, line, blocks);
        struct mds_text own = mds_block_content(bytes + at, block.bytes, &block, fed_containers, depth, found.kept, first, sizeof(first));
        struct mds_text all = mds_block_content(bytes, length, blocks, fed_containers, depth, found.kept, second, sizeof(second));
        same(example, "content", own.status, MDS_OK), same(example, "content", all.status, MDS_OK);
        same(example, "content", count > 1 || (own.length == all.length && memcmp(first, second, own.length) == 0), true);
        blocks += count;
    }
    for (; depth > 0; depth--, blocks++)
        same(example, "an end", blocks->kind, MDS_BLOCK_END);
}

/* Containers with the offset of their marker, an item with its bullet or delimiter, its start and its width too; leaf blocks with
 * their first line and their last, and the number that belongs to them. */
static void check_blocks(const struct row *row) {
    struct mds_block blocks[MOST];
    static struct text page;
    read_text(row->columns[1], 0, &page), extensions = extensions_of(row->columns[2]);
    const char *text = (const char *)page.bytes;
    size_t count = blocks_of(row->line, text, page.length, blocks);
    said[0] = 0;
    for (size_t i = 0; i < count; i++) {
        char word[128];
        describe(&blocks[i], word), say(" ", i > 0), say(word, strlen(word));
    }
    is_said(row);
    is_fed(row->line, text, page.length, blocks);
}

static void check_content(const struct row *row) {
    struct mds_block blocks[MOST];
    static struct text page;
    read_text(row->columns[1], 0, &page), extensions = extensions_of(row->columns[2]);
    const char *text = (const char *)page.bytes;
    contents_of(row->line, text, page.length, blocks, blocks_of(row->line, text, page.length, blocks));
    is_said(row);
}

/* Places are those of the bytes that they name. */
static void places(void) {
    static const char page[] = "> - a\n\n   b\n";
    struct mds_block blocks[MOST];
    SAME(blocks_of(0, page, sizeof(page) - 1, blocks), 7);
    SAME(blocks[0].place, 0), SAME(blocks[1].place, 2);
    SAME(blocks[2].start, 0), SAME(blocks[2].bytes, 6), SAME(blocks[2].place, 4), SAME(blocks[2].indent, 0);
    SAME(blocks[5].start, 6), SAME(blocks[5].bytes, 1), SAME(blocks[5].place, 6), SAME(blocks[5].line, 1);
    SAME(blocks[6].start, 7), SAME(blocks[6].bytes, 5), SAME(blocks[6].place, 10), SAME(blocks[6].indent, 3);
    SAME(mds_scan_blocks(NULL, 0, 0, NULL, 0).status, MDS_OK), SAME(mds_scan_blocks(NULL, 0, 0, NULL, 0).count, 0);
}

/* What stands in a page of 8 bytes with these numbers, in a container of this kind. */
static void refused(int line, struct mds_block block, uint32_t container, uint32_t status) {
    struct mds_block open = {.kind = container};
    const void *bytes = given(BYTES, "a\nb\nc\nd\n", 8), *leaf = given(LIST, &block, sizeof(block));
    const void *containers = given(OTHER_BYTES, &open, sizeof(open));
    struct mds_text found = mds_block_content(bytes, 8, leaf, containers, 1, 1, writable(BUFFER, 8), 8);
    same(line, "status", found.status, status);
    same(line, "is_left", is_left(BUFFER, status == MDS_OK ? 8 : 0), true);
    same(line, "taken", found.taken, status == MDS_OK ? block.bytes : 0);
    same(line, "length", status != MDS_OK && found.length > 0, false);
}

static void refusals(void) {
    const struct mds_block paragraph = {.kind = MDS_BLOCK_PARAGRAPH, .start = 2, .bytes = 4};
    struct mds_block block = paragraph;
    refused(__LINE__, block, MDS_BLOCK_QUOTE, MDS_OK);
    refused(__LINE__, block, MDS_BLOCK_ITEM, MDS_OK);
    for (uint32_t kind = 0; kind < 16; kind++)
        refused(__LINE__, block, kind, kind == 1 || kind == 2 || kind == 13 || kind == 14 ? MDS_OK : MDS_BAD_KIND);
    refused(__LINE__, block, UINT32_MAX, MDS_BAD_KIND);
    block.bytes = 6, refused(__LINE__, block, MDS_BLOCK_QUOTE, MDS_OK);
    block.bytes = 7, refused(__LINE__, block, MDS_BLOCK_QUOTE, MDS_PAST_END);
    block.bytes = SIZE_MAX, refused(__LINE__, block, MDS_BLOCK_QUOTE, MDS_PAST_END);
    block.start = SIZE_MAX, refused(__LINE__, block, MDS_BLOCK_QUOTE, MDS_PAST_END);
    block.bytes = 0, refused(__LINE__, block, MDS_BLOCK_QUOTE, MDS_PAST_END);
    block.start = 8, refused(__LINE__, block, MDS_BLOCK_QUOTE, MDS_OK);
    block.start = 9, refused(__LINE__, block, MDS_BLOCK_QUOTE, MDS_PAST_END);
    block = paragraph, block.number = 1, refused(__LINE__, block, MDS_BLOCK_QUOTE, MDS_BAD_KIND);
    block = paragraph, block.byte = '`', refused(__LINE__, block, MDS_BLOCK_QUOTE, MDS_BAD_KIND);
    block = paragraph, block.count = 1, refused(__LINE__, block, MDS_BLOCK_QUOTE, MDS_BAD_KIND);
    block = paragraph;
    for (block.kind = 0; block.kind < 16; block.kind++) {
        bool is_plain = block.kind >= MDS_BLOCK_BLANK && block.kind <= MDS_BLOCK_PARAGRAPH && block.kind != MDS_BLOCK_HEADING
            && block.kind != MDS_BLOCK_SETEXT && block.kind != MDS_BLOCK_HTML;
        refused(__LINE__, block, MDS_BLOCK_QUOTE, is_plain ? MDS_OK : MDS_BAD_KIND);
    }
    for (block.number = 0; block.number < 10; block.number++) {
        bool is_level = block.number >= 1 && block.number <= 6, is_html = block.number >= 1 && block.number <= 7;
        block.kind = MDS_BLOCK_HEADING, refused(__LINE__, block, MDS_BLOCK_QUOTE, is_level ? MDS_OK : MDS_BAD_KIND);
        block.kind = MDS_BLOCK_SETEXT, refused(__LINE__, block, MDS_BLOCK_QUOTE, is_level ? MDS_OK : MDS_BAD_KIND);
        block.kind = MDS_BLOCK_HTML, refused(__LINE__, block, MDS_BLOCK_QUOTE, is_html ? MDS_OK : MDS_BAD_KIND);
    }
    block.number = 257, refused(__LINE__, block, MDS_BLOCK_QUOTE, MDS_BAD_KIND);
}

/* The line in these containers, of which so many are open, where there is room for so many. */
static struct mds_line_block line_in(
    const char *text, size_t length, uint32_t kind, size_t capacity, struct mds_open_blocks *open, struct mds_block *block) {
    struct mds_block *containers = writable(BUFFER, capacity * sizeof(*containers));
    for (size_t i = 0; i < capacity; i++)
        containers[i] = (struct mds_block){.kind = kind, .width = 2};
    return mds_block_line(given(BYTES, text, length), length, true, containers, capacity, open, block);
}

/* What is refused in this state, and that all is left as it was then; a paragraph is a term where these are asked for. */
static void refused_in(int line, uint32_t state, uint32_t kind, size_t depth, uint32_t asked, size_t capacity, uint32_t status) {
    struct mds_open_blocks open = {depth, asked, state};
    struct mds_block block = {.kind = 99};
    struct mds_line_block found = line_in("> > a", 5, kind, capacity, &open, &block);
    const struct mds_block *containers = (const void *)(at_front ? whole(BUFFER) : whole(BUFFER) + ROOM_SIZE - capacity * sizeof(block));
    same(line, "status", found.status, status);
    same(line, "block", block.kind, status == MDS_OK ? MDS_BLOCK_PARAGRAPH : 99);
    same(line, "depth", found.depth, status == MDS_OK || status == MDS_TOO_SHORT ? 2 : 0);
    same(line, "open", open.depth, status == MDS_OK ? 2 : depth), same(line, "extensions", open.extensions, asked);
    same(line, "state", open.state, status == MDS_OK ? ((asked & MDS_DEFINITION_LISTS) != 0) + 2 : state);
    for (size_t i = 0; i < capacity; i++)
        same(line, "a container", containers[i].kind, status == MDS_OK && i < 2 ? MDS_BLOCK_QUOTE : kind);
}

static void refused_line(int line, uint32_t kind, size_t depth, uint32_t asked, size_t capacity, uint32_t status) {
    for (uint32_t state = 0; state < 4; state++)
        refused_in(line, state, kind, depth, asked, capacity, status);
}

static void refused_lines(void) {
    for (size_t capacity = 0; capacity < 4; capacity++)
        refused_line(__LINE__, MDS_BLOCK_QUOTE, 0, 0, capacity, capacity < 2 ? MDS_TOO_SHORT : MDS_OK);
    for (size_t depth = 0; depth < 5; depth++)
        refused_line(__LINE__, MDS_BLOCK_ITEM, depth, MDS_FOOTNOTES, 3, depth > 3 ? MDS_BAD_STATE : MDS_OK);
    for (uint32_t kind = 0; kind < 16; kind++)
        refused_line(__LINE__, kind, 3, 0, 3, kind == 1 || kind == 2 || kind == 13 || kind == 14 ? MDS_OK : MDS_BAD_STATE);
    for (uint32_t asked = 0; asked <= EVERY_EXTENSION; asked++)
        if (!(asked & ~(uint32_t)EVERY_EXTENSION))
            refused_line(__LINE__, MDS_BLOCK_QUOTE, 1, asked, 2, MDS_OK), refused_in(__LINE__, 4, MDS_BLOCK_QUOTE, 1, asked, 2, MDS_BAD_STATE);
    refused_line(__LINE__, MDS_BLOCK_END, SIZE_MAX, 0, 2, MDS_BAD_STATE);
    for (uint32_t bit = 1; bit > 0; bit *= 2)
        if (!(bit & EVERY_EXTENSION))
            refused_line(__LINE__, MDS_BLOCK_QUOTE, 0, bit, 2, MDS_BAD_KIND), refused_line(__LINE__, 0, 9, bit + MDS_TABLES, 2, MDS_BAD_KIND);
}

/* The first block of a text where so many items are open, of which one line is read or more. */
static void in_items(int line, const char *text, bool is_begun, size_t depth, uint32_t asked, size_t kept, size_t then, uint32_t kind) {
    struct mds_open_blocks open = {depth, asked, 0};
    struct mds_block block, containers[3];
    size_t length = strlen(text);
    for (size_t i = 0; i < 3; i++)
        containers[i] = (struct mds_block){.kind = MDS_BLOCK_ITEM, .byte = '-', .width = 2, .count = is_begun && i + 1 == depth};
    struct mds_line_block found = mds_block_line(given(BYTES, text, length), length, true, containers, 3, &open, &block);
    same(line, "status", found.status, MDS_OK);
    same(line, "kept", found.kept, kept), same(line, "depth", open.depth, then), same(line, "kind", block.kind, kind);
    for (size_t i = 0; i < kept; i++)
        same(line, "has begun", containers[i].count, 0);
}

/* Items that begin with a blank line, those of the second line of a container, and footnote definitions, where they are asked for. */
static void open_items(void) {
    in_items(__LINE__, "\n", true, 1, 0, 0, 0, MDS_BLOCK_BLANK);
    in_items(__LINE__, "\n", false, 1, 0, 1, 1, MDS_BLOCK_BLANK);
    in_items(__LINE__, "  a\n", true, 1, 0, 1, 1, MDS_BLOCK_PARAGRAPH);
    in_items(__LINE__, "    - a\n", false, 2, 0, 2, 3, MDS_BLOCK_PARAGRAPH);
    in_items(__LINE__, "a\n", false, 2, 0, 0, 0, MDS_BLOCK_PARAGRAPH);
    in_items(__LINE__, "[^a]: b\n", false, 0, 0, 0, 0, MDS_BLOCK_PARAGRAPH);
    in_items(__LINE__, "[^a]: b\n", false, 0, MDS_FOOTNOTES, 0, 1, MDS_BLOCK_PARAGRAPH);
    in_items(__LINE__, ": a\n", false, 0, MDS_DEFINITION_LISTS, 0, 0, MDS_BLOCK_PARAGRAPH);
    struct mds_open_blocks open = {0, 0, 0};
    struct mds_block block, item;
    SAME(mds_block_line(OF("-\n\n"), false, &item, 1, &open, &block).status, MDS_OK);
    SAME(item.count, 1), SAME(open.depth, 1), SAME(block.kind, MDS_BLOCK_BLANK), SAME(block.lines, 1);
    SAME(mds_block_line(OF("\n  foo\n"), false, &item, 1, &open, &block).kept, 0), SAME(open.depth, 0);
    SAME(mds_block_line(OF(""), false, &item, 1, &open, &block).status, MDS_NOTHING);
    SAME(mds_block_line(NULL, 0, true, NULL, 0, &open, &block).status, MDS_NOTHING);
}

/* A table that ends a paragraph: its header row is a lazy line. */
static void open_tables(void) {
    struct mds_open_blocks open = {0, MDS_TABLES, 0};
    struct mds_block block, quote;
    SAME(mds_block_line(OF("> a\nb|c\n> -|-\n"), false, &quote, 1, &open, &block).status, MDS_OK);
    SAME(open.depth, 1), SAME(block.kind, MDS_BLOCK_PARAGRAPH), SAME(block.lines, 1), SAME(open.state, 2);
    SAME(mds_block_line(OF("b|c\n> -|-\n"), true, &quote, 1, &open, &block).kept, 1);
    SAME(open.depth, 1), SAME(block.kind, MDS_BLOCK_TABLE), SAME(block.lines, 2), SAME(open.state, 0);
}

/* A term, a blank line, and two definitions of the term, of which the first begins with a blank line. */
static void open_terms(void) {
    struct mds_open_blocks open = {0, MDS_DEFINITION_LISTS, 0};
    struct mds_block block, definition;
    SAME(mds_block_line(OF("a\n\n:\n"), false, &definition, 1, &open, &block).status, MDS_OK);
    SAME(open.depth, 0), SAME(block.kind, MDS_BLOCK_PARAGRAPH), SAME(open.state, 3);
    SAME(mds_block_line(OF("\n:\n"), false, &definition, 1, &open, &block).status, MDS_OK);
    SAME(open.depth, 0), SAME(block.kind, MDS_BLOCK_BLANK), SAME(open.state, 1);
    SAME(mds_block_line(OF(":\n  b\n"), false, &definition, 1, &open, &block).status, MDS_OK);
    SAME(open.depth, 1), SAME(block.kind, MDS_BLOCK_BLANK), SAME(open.state, 0);
    SAME(definition.kind, MDS_BLOCK_TERM_DEFINITION), SAME(definition.count, 1), SAME(definition.width, 1), SAME(definition.place, 0);
    SAME(mds_block_line(OF("  b\n : c"), false, &definition, 1, &open, &block).status, MDS_NOTHING);
    SAME(mds_block_line(OF("  b\n: c\n"), false, &definition, 1, &open, &block).kept, 1);
    SAME(open.depth, 1), SAME(block.kind, MDS_BLOCK_PARAGRAPH), SAME(block.lines, 1), SAME(open.state, 3), SAME(definition.count, 0);
    SAME(mds_block_line(OF(": c\n"), true, &definition, 1, &open, &block).kept, 0);
    SAME(open.depth, 1), SAME(block.kind, MDS_BLOCK_PARAGRAPH), SAME(definition.width, 2);
}

static uint64_t seed = 9;

static size_t made(size_t below) {
    seed ^= seed << 13, seed ^= seed >> 7, seed ^= seed << 17;
    return seed % below;
}

/* A page of the pieces that blocks begin with. */
static size_t make_page(char *page) {
    static const char *const pieces[] = {
        "> ", "- ", "1. ", "\n", "\n\n", "\r", "\t", "    ", "  ", "a", "# b", "```", "===", "---", "[c]: d", "<div>", "|-|", "[^e]: ", ": ",
        "\xff"};
    size_t length = 0, most = made(LONGEST);
    for (;;) {
        const char *piece = pieces[made(sizeof(pieces) / sizeof(*pieces))];
        if (length + strlen(piece) > most)
            return length;
        memcpy(page + length, piece, strlen(piece)), length += strlen(piece);
    }
}

static void made_pages(void) {
    char page[LONGEST];
    struct mds_block blocks[4 * LONGEST];
    for (size_t i = 0; i < 20000; i++) {
        size_t length = make_page(page), place = 0, line = 0, depth = 0;
        at_front = i % 2, extensions = 0;
        for (uint32_t bit = 1; bit <= EVERY_EXTENSION; bit *= 2)
            extensions |= made(2) ? bit & EVERY_EXTENSION : 0;
        size_t count = mds_scan_blocks(given(BYTES, page, length), length, extensions, blocks, 4 * LONGEST).count;
        for (size_t j = 0; j < count; j++) {
            depth += blocks[j].kind == MDS_BLOCK_END ? SIZE_MAX : !is_leaf(&blocks[j]);
            SAME(depth <= LONGEST, true);
            SAME(!is_leaf(&blocks[j]) || (blocks[j].start == place && blocks[j].line == line), true);
            SAME(blocks[j].kind == MDS_BLOCK_END || blocks[j].place < length || blocks[j].kind == MDS_BLOCK_BLANK, true);
            place += blocks[j].bytes, line += blocks[j].lines;
        }
        SAME(place, length), SAME(depth, 0);
        if (count <= MOST)
            contents_of(0, page, length, blocks, count);
        is_fed(0, page, length, blocks);
    }
}

/* Whatever numbers a block and its containers have, a call is safe. */
static void wrong_numbers(void) {
    char page[LONGEST];
    for (size_t i = 0; i < 100000; i++) {
        size_t length = make_page(page), numbers[] = {0, 1, length, length + 1, SIZE_MAX, 255};
        struct mds_block blocks[4];
        for (size_t j = 0; j < 4; j++) {
            size_t *fields[] = {&blocks[j].count, &blocks[j].indent, &blocks[j].line, &blocks[j].lines, &blocks[j].place};
            blocks[j] = (struct mds_block){.kind = (uint32_t)made(14), .number = (uint32_t)made(8), .byte = (uint8_t)made(256)};
            blocks[j].width = (uint8_t)made(made(2) ? 256 : 4), blocks[j].start = made(length + 1);
            blocks[j].bytes = made(length - blocks[j].start + 1);
            for (size_t k = 0; k < 5; k++)
                *fields[k] = made(2) ? 0 : numbers[made(6)];
            blocks[j].kind = j && made(8) ? (uint32_t)(1 + made(2)) : blocks[j].kind;
        }
        at_front = i % 2;
        size_t kept = made(4) ? made(4) : SIZE_MAX, capacity = made(LONGEST);
        const void *bytes = given(BYTES, page, length), *containers = given(OTHER_BYTES, blocks + 1, 3 * sizeof(*blocks));
        const void *leaf = given(LIST, blocks, sizeof(*blocks));
        struct mds_text found = mds_block_content(bytes, length, leaf, containers, 3, kept, writable(BUFFER, capacity), capacity);
        bool is_ok = found.status == MDS_OK, is_returned = is_ok || found.status == MDS_TOO_SHORT;
        SAME(is_returned || found.status == MDS_BAD_KIND, true);
        SAME(is_left(BUFFER, is_ok ? found.length : 0), true);
        SAME(found.taken, is_returned ? blocks[0].bytes : 0);
    }
}

int main(void) {
    each_row("pages.tsv", 5, "scan_blocks", check_blocks);
    each_row("pages.tsv", 5, "block_content", check_content);
    for (size_t front = 0; front < 2; front++) {
        at_front = front;
        places(), refusals(), refused_lines(), open_items(), open_tables(), open_terms();
    }
    made_pages(), wrong_numbers();
    return report("blocks");
}
