/* Prints the headings of a page while it is read from the standard input: the line of each, `#` as often as its level says, and its
 * text. Its memory is that of the longest block and the deepest nesting.
 * cc -Ipackages/c/include packages/c/examples/stream.c out/libfillaqut.a -o stream */
#include "fillaqut.h"

#include <stdio.h>
#include <stdlib.h>
#include <string.h>

/* What is read of the page, of which so much is printed, and how many lines are; and the containers that are open. */
struct page {
    uint8_t *text;
    size_t printed, length, text_capacity, line;
    bool has_ended;
    struct mds_block *containers;
    size_t capacity;
    struct mds_open_blocks open;
};

static void stop(const char *why) {
    fprintf(stderr, "stream: %s\n", why);
    exit(2);
}

static void *grown(void *old, size_t size) {
    void *made = realloc(old, size > 0 ? size : 1);
    if (!made)
        stop("out of memory");
    return made;
}

/* Lets go what is printed, and reads until there is twice the text that is left, and more, or the input has ended. */
static void read_more(struct page *page) {
    page->length -= page->printed;
    memmove(page->text, page->text + page->printed, page->length);
    page->printed = 0;
    size_t needed = page->length + (page->length < 4096 ? 4096 : page->length);
    if (page->text_capacity < needed)
        page->text = grown(page->text, needed), page->text_capacity = needed;
    size_t count = fread(page->text + page->length, 1, needed - page->length, stdin);
    page->length += count, page->has_ended = page->length < needed;
    if (ferror(stdin))
        stop("the input can't be read");
}

/* Prints the text of a heading, whose lines stand at the front of what is not printed. */
static void print_heading(const struct page *page, const struct mds_block *block, size_t kept) {
    uint8_t *buffer = grown(NULL, block->bytes); /* the content of a heading is no longer than its lines */
    struct mds_text found = mds_block_content(
        page->text + page->printed, block->bytes, block, page->containers, page->open.depth, kept, buffer, block->bytes);
    if (found.status != MDS_OK)
        stop("out of memory");
    printf("%zu: %.*s ", page->line + 1, (int)block->number, "######");
    fwrite(buffer, 1, found.length, stdout);
    putchar('\n');
    free(buffer);
}

/* Prints the block at the front of what is not printed, or answers that more is needed. */
static bool tell_block(struct page *page) {
    struct mds_block block;
    struct mds_line_block found = mds_block_line(
        page->text + page->printed, page->length - page->printed, page->has_ended, page->containers, page->capacity, &page->open, &block);
    if (found.status == MDS_NOTHING)
        return false;
    if (found.status == MDS_TOO_SHORT) {
        page->capacity = 2 * found.depth;
        page->containers = grown(page->containers, page->capacity * sizeof(*page->containers));
        return true;
    }
    if (found.status != MDS_OK)
        stop("out of memory");
    if (block.kind == MDS_BLOCK_HEADING || block.kind == MDS_BLOCK_SETEXT)
        print_heading(page, &block, found.kept);
    page->line += block.lines, page->printed += block.bytes;
    return true;
}

int main(void) {
    struct page page = {.text = grown(NULL, 0), .open = {.extensions = MDS_TABLES}};
    read_more(&page);
    if (page.length >= 3 && memcmp(page.text, "\xef\xbb\xbf", 3) == 0)
        page.printed = 3; /* a byte order mark is no part of the first block */
    for (;;) {
        while (tell_block(&page)) {
        }
        if (page.has_ended)
            break;
        read_more(&page);
    }
    free(page.text), free(page.containers);
    if (fflush(stdout) || ferror(stdout))
        stop("the output can't be written");
    return 0;
}
