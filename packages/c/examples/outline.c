/* Prints the outline of a Markdown file. cc -Ipackages/c/include packages/c/examples/outline.c out/libfillaqut.a -o outline */
#include "fillaqut.h"
#include <errno.h>
#include <stdio.h>
#include <stdlib.h>
#include <string.h>

static const char help[] =
    "usage: outline [FILE]\n"
    "Prints the outline of a Markdown file, or of standard input: a line for each ATX and setext heading, for each\n"
    "link reference definition with its normalised label, and for each full reference, as [text][label], whose label\n"
    "no definition has, those in block quotes and lists too. Each line begins with the number of a line of the file.\n\n"
    "It is no full CommonMark parser: all brackets before a label make a full reference, those with a link in them too.\n"
    "The status is 0; 1 where a label has no definition; 2 where the outline can't be had.\n";

struct text {
    const uint8_t *bytes;
    size_t length;
};

/* A definition, or a reference, which has no target; `key` is that of its label. */
struct entry {
    size_t line;
    struct text label, key, target;
};

struct entries {
    struct entry *items;
    size_t count;
};

/* What is found on a page. */
struct found {
    struct entries definitions, references;
};

/* What is known of one text: which HTML it has not, and where runs of backticks are the last of their length, or null. */
struct known {
    struct mds_html_guard guard;
    size_t *runs;
};

static void fail(const char *what, const char *why) {
    fprintf(stderr, "outline: %s: %s\n", what, why);
    exit(2);
}

static void *grown(void *old, size_t bytes) {
    void *memory = realloc(old, bytes + 1);
    if (!memory)
        fail("memory", "refused");
    return memory;
}

static void add(struct entries *to, struct entry entry) {
    if ((to->count & (to->count - 1)) == 0)
        to->items = grown(to->items, (2 * to->count + 1) * sizeof(entry));
    to->items[to->count++] = entry;
}

static struct text rest_of(struct text text, size_t from) {
    return (struct text){text.bytes + from, text.length - from};
}

static bool begins_with(struct text text, const char *word) {
    return text.length >= strlen(word) && memcmp(text.bytes, word, strlen(word)) == 0;
}

static struct text made(const uint8_t *buffer, struct mds_text found) {
    if (found.status == MDS_NO_MEMORY)
        fail("memory", "refused");
    return (struct text){buffer, found.length};
}

/* Reads the label in brackets at the place, and answers the offset after it, or 0. (CommonMark 0.31.2, 6.3) */
static size_t read_label(struct text text, size_t place, struct entry *entry) {
    if (!begins_with(rest_of(text, place), "["))
        return 0;
    struct mds_label found = mds_scan_link_label(text.bytes, text.length, place + 1, false, NULL, 0, NULL, 0);
    if (found.status == MDS_NOTHING)
        return 0;
    uint8_t *label = grown(NULL, 4 * found.length), *key = label + found.length;
    found = mds_scan_link_label(text.bytes, text.length, place + 1, false, NULL, 0, label, found.length);
    entry->label = made(label, (struct mds_text){found.status, found.end, found.length});
    entry->key = made(key, mds_label_key(label, found.length, key, 3 * found.length));
    return found.end;
}

/* Adds the definition that this text is, which begins in this line. (4.7) */
static void define(struct found *all, size_t line, struct text text) {
    struct mds_reference_definition found = mds_scan_reference_definition(text.bytes, text.length, 0, 31);
    struct entry entry = {.line = line};
    read_label(text, 0, &entry);
    struct text raw = {text.bytes + found.destination_start, found.destination_length};
    size_t capacity = raw.length + raw.length / 5;
    uint8_t *target = grown(NULL, capacity);
    entry.target = made(target, mds_unescape(raw.bytes, raw.length, false, target, capacity));
    add(&all->definitions, entry);
}

static size_t run_length(struct text text, size_t place) {
    return mds_scan_ch_repeat(text.bytes + place, text.length - place, '`');
}

/* Of each length the place of the last run of so many backticks, 0 where there is none. */
static size_t *last_runs(struct text text) {
    size_t longest = 0, run, *last;
    for (size_t place = 0; place < text.length; place += run + 1) {
        run = run_length(text, place);
        longest = run > longest ? run : longest;
    }
    last = memset(grown(NULL, (longest + 1) * sizeof(*last)), 0, (longest + 1) * sizeof(*last));
    for (size_t place = 0; place < text.length; place += run + 1) {
        run = run_length(text, place);
        last[run] = place;
    }
    return last;
}

/* How many bytes the code span at the place takes, or its backticks where nothing closes it. That is known before a closing
 * run is looked for, so no part of a text is searched twice, whatever the lengths of its runs. (6.1) */
static size_t code_length(struct text text, size_t place, struct known *known) {
    size_t run = run_length(text, place);
    if (!known->runs)
        known->runs = last_runs(text);
    return known->runs[run] > place ? mds_scan_code_span(text.bytes, text.length, place).end - place : run;
}

/* How many bytes the escape, code span, autolink or HTML at the place takes; else 1. (2.4, 6.1, 6.5, 6.6) */
static size_t inline_length(struct text text, size_t place, struct known *known) {
    struct text rest = rest_of(text, place);
    if (begins_with(rest, "\\"))
        return rest.length > 1 && mds_is_punctuation(rest.bytes[1]) ? 2 : 1;
    if (!begins_with(rest, "<"))
        return begins_with(rest, "`") ? code_length(text, place, known) : 1;
    struct mds_part uri = mds_scan_autolink(text.bytes, text.length, place + 1);
    struct mds_tag tag = mds_scan_html_tag_over_lines(text.bytes, text.length, place, NULL, 0, NULL, 0);
    struct mds_end html = mds_scan_inline_html(text.bytes, text.length, place + 2, &known->guard);
    size_t other = html.status == MDS_OK ? html.end - place : 1;
    return uri.status == MDS_OK ? uri.end - place : tag.status == MDS_OK ? tag.end - place : other;
}

/* A line ending is written as a space, with the white space before it. */
static void write_text(struct text text, const char *after) {
    for (size_t space, ending; text.length > 0; text = rest_of(text, space + ending)) {
        space = mds_scan_whitespace_in_line(text.bytes, text.length);
        ending = mds_scan_eol(text.bytes + space, text.length - space);
        ending = ending == MDS_NONE ? 0 : ending;
        if (ending > 0)
            putchar(' ');
        else if (space > 0)
            fwrite(text.bytes, 1, space, stdout);
        else
            putchar(text.bytes[ending++]);
    }
    fputs(after, stdout);
}

/* Adds the full references of a text that begins in this line. (6.3) */
static void read_text(struct found *all, size_t line, struct text text) {
    struct known known = {0};
    for (size_t place = 0, taken, depth = 0; place < text.length; place += taken) {
        struct entry entry = {.line = line};
        bool closes = text.bytes[place] == ']' && depth > 0;
        size_t end = closes ? read_label(text, place + 1, &entry) : 0;
        if (end > 0)
            add(&all->references, entry);
        taken = end > 0 ? end - place : inline_length(text, place, &known);
        depth = depth + (text.bytes[place] == '[') - closes;
        for (size_t i = place; i < place + taken; i++)
            line += text.bytes[i] == '\n' || (text.bytes[i] == '\r' && !begins_with(rest_of(text, i + 1), "\n"));
    }
    free(known.runs);
}

/* All blocks of the page. */
static struct mds_block *blocks_of(struct text page, size_t *count) {
    struct mds_blocks found = mds_scan_blocks(page.bytes, page.length, MDS_TABLES, NULL, 0);
    struct mds_block *blocks = grown(NULL, found.count * sizeof(*blocks));
    if (found.status == MDS_TOO_SHORT)
        found = mds_scan_blocks(page.bytes, page.length, MDS_TABLES, blocks, found.count);
    if (found.status != MDS_OK)
        fail("memory", "refused");
    *count = found.count;
    return blocks;
}

/* The text of a block, which stands in these containers and goes on with so many of them. */
static struct text text_of(
    struct text page, const struct mds_block *block, const struct mds_block *open, size_t depth, size_t kept) {
    struct mds_text found = {MDS_TOO_SHORT, 0, block->bytes};
    uint8_t *buffer = NULL;
    while (found.status == MDS_TOO_SHORT) {
        size_t capacity = found.length;
        buffer = grown(buffer, capacity);
        found = mds_block_content(page.bytes, page.length, block, open, depth, kept, buffer, capacity);
    }
    return made(buffer, found);
}

/* Reads a heading, a definition, a paragraph or a table with this text; a table has its lines. (4.2, 4.3, 4.7, 4.8) */
static void read_block(struct found *all, struct text page, const struct mds_block *block, struct text text) {
    size_t line = block->line + 1;
    if (block->kind == MDS_BLOCK_TABLE)
        text = (struct text){page.bytes + block->start, block->bytes};
    if (block->kind == MDS_BLOCK_HEADING || block->kind == MDS_BLOCK_SETEXT) {
        printf("%zu: %s", line, &"###### "[6 - block->number]);
        write_text(text, "\n");
    }
    if (block->kind == MDS_BLOCK_DEFINITION)
        define(all, line, text);
    else
        read_text(all, line, text);
}

/* Goes through the blocks of a page with an array of the containers that are open. */
static void read_page(struct found *all, struct text page) {
    size_t count, depth = 0, kept = 0;
    struct mds_block *blocks = blocks_of(page, &count), *open = grown(NULL, count * sizeof(*open));
    for (const struct mds_block *block = blocks; block < blocks + count; block++) {
        switch (block->kind) {
        case MDS_BLOCK_END: kept = --depth; break;
        case MDS_BLOCK_QUOTE:
        case MDS_BLOCK_ITEM: open[depth++] = *block; break;
        case MDS_BLOCK_HEADING:
        case MDS_BLOCK_SETEXT:
        case MDS_BLOCK_TABLE:
        case MDS_BLOCK_DEFINITION:
        case MDS_BLOCK_PARAGRAPH: read_block(all, page, block, text_of(page, block, open, depth, kept)); /* fall through */
        default: kept = depth;
        }
    }
    free(open), free(blocks);
}

static int by_key(const void *one, const void *other) {
    struct text a = ((const struct entry *)one)->key, b = ((const struct entry *)other)->key;
    int order = (a.length > b.length) - (a.length < b.length);
    return order ? order : memcmp(a.bytes, b.bytes, a.length);
}

/* Prints each entry whose key is not among the known ones, and answers how many they are. */
static size_t print(struct entries entries, struct entries known, const char *after) {
    size_t printed = 0;
    for (size_t i = 0; i < entries.count; i++) {
        struct entry *entry = &entries.items[i];
        if (known.count > 0 && bsearch(entry, known.items, known.count, sizeof(*entry), by_key))
            continue;
        printf("%zu: [", entry->line);
        write_text(entry->label, after), write_text(entry->target, "\n");
        printed++;
    }
    return printed;
}

static struct text read_all(FILE *file, const char *name) {
    uint8_t *bytes = NULL;
    size_t length = 0, got = 1;
    for (errno = 0; got > 0; length += got) {
        bytes = grown(bytes, 2 * length + 4096);
        got = fread(bytes + length, 1, length + 4096, file);
    }
    if (ferror(file))
        fail(name, strerror(errno));
    return (struct text){bytes, length};
}

int main(int count, char **words) {
    bool asked = count == 2 && strcmp(words[1], "--help") == 0;
    if (asked || count > 2)
        return fputs(help, asked ? stdout : stderr) < 0 || fflush(stdout) || !asked ? 2 : 0;
    const char *name = count == 2 ? words[1] : "standard input";
    FILE *file = count == 2 ? fopen(name, "rb") : stdin;
    if (!file)
        fail(name, strerror(errno));
    struct text page = read_all(file, name);
    if (!mds_is_utf8(page.bytes, page.length))
        fail(name, "not UTF-8");
    struct found all = {0};
    read_page(&all, page);
    print(all.definitions, (struct entries){NULL, 0}, "]: ");
    if (all.definitions.count > 0)
        qsort(all.definitions.items, all.definitions.count, sizeof(struct entry), by_key);
    size_t missing = print(all.references, all.definitions, "] has no definition");
    if (fflush(stdout) || ferror(stdout))
        fail("standard output", strerror(errno));
    return missing > 0;
}
