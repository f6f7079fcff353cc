/* Writes the HTML of a page by md4c, from standard input to standard output, for `bench/pages --html`; with --extensions, those that
   `bench/growth --memory` asks for. */
#include <md4c-html.h>
#include <stdio.h>
#include <stdlib.h>
#include <string.h>

#define EXTENSIONS (MD_FLAG_TABLES | MD_FLAG_STRIKETHROUGH | MD_FLAG_TASKLISTS | MD_FLAG_WIKILINKS)

struct page {
    char *bytes;
    size_t length;
};

/* The whole of a file; without bytes where memory or a read fails. */
static struct page read_page(FILE *file) {
    struct page page = {NULL, 0};
    size_t room = 1 << 16, found;
    do {
        room *= 2;
        char *larger = realloc(page.bytes, room);
        if (larger == NULL) {
            free(page.bytes);
            return (struct page){NULL, 0};
        }
        page.bytes = larger;
        found = fread(page.bytes + page.length, 1, room - page.length, file);
        page.length += found;
    } while (page.length == room);
    if (ferror(file)) {
        free(page.bytes);
        return (struct page){NULL, 0};
    }
    return page;
}

static void write_html(const MD_CHAR *html, MD_SIZE length, void *file) {
    fwrite(html, 1, length, file);
}

int main(int count, char **words) {
    unsigned flags = count > 1 && strcmp(words[1], "--extensions") == 0 ? EXTENSIONS : 0;
    struct page page = read_page(stdin);
    if (page.bytes == NULL)
        return EXIT_FAILURE;
    int refused = md_html(page.bytes, (MD_SIZE)page.length, write_html, stdout, flags, 0);
    free(page.bytes);
    return refused || fflush(stdout) || ferror(stdout) ? EXIT_FAILURE : EXIT_SUCCESS;
}
