/* Prints the HTML of the page that it reads from the standard input, with tables, strikethrough and task lists: safe for
 * pages by others, or with `--unsafe` with all that a page of one's own says.
 * cc -Ipackages/c/include packages/c/examples/html.c out/libfillaqut.a -o html */
#include "fillaqut.h"

#include <stdio.h>
#include <stdlib.h>
#include <string.h>

enum { GITHUB = MDS_TABLES | MDS_STRIKETHROUGH | MDS_TASKS };

static void stop(const char *why) {
    fprintf(stderr, "html: %s\n", why);
    exit(2);
}

static uint8_t *grown(uint8_t *old, size_t size) {
    uint8_t *made = realloc(old, size);
    if (!made)
        stop("out of memory");
    return made;
}

/* All of the standard input, and in `*length` how many bytes it has. */
static uint8_t *read_page(size_t *length) {
    size_t capacity = 0;
    uint8_t *page = NULL;
    do {
        capacity = 2 * capacity + 4096;
        page = grown(page, capacity);
        *length += fread(page + *length, 1, capacity - *length, stdin);
    } while (*length == capacity);
    if (ferror(stdin))
        stop("the input can't be read");
    return page;
}

static struct mds_text html_of(const uint8_t *page, size_t length, bool is_unsafe, uint8_t *html, size_t capacity) {
    return is_unsafe ? mds_html_unsafe(page, length, GITHUB, html, capacity) : mds_html(page, length, GITHUB, html, capacity);
}

int main(int count, char **words) {
    bool is_unsafe = count == 2 && strcmp(words[1], "--unsafe") == 0;
    if (count > 1 && !is_unsafe)
        stop("usage: html [--unsafe] <page.md");
    size_t length = 0;
    uint8_t *page = read_page(&length), *html = grown(NULL, 2 * length + 64);
    struct mds_text found = html_of(page, length, is_unsafe, html, 2 * length + 64);
    if (found.status == MDS_TOO_SHORT) {
        html = grown(html, found.length);
        found = html_of(page, length, is_unsafe, html, found.length);
    }
    if (found.status != MDS_OK)
        stop(mds_status_name(found.status));
    fwrite(html, 1, found.length, stdout);
    if (fflush(stdout) || ferror(stdout))
        stop("the output can't be written");
    free(page), free(html);
    return 0;
}
