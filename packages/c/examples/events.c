/* Prints the outline of the page that it reads from the standard input: of each heading its line, its level and its text.
 * cc -Ipackages/c/include packages/c/examples/events.c out/libfillaqut.a -o events */
#include "fillaqut_parser.h"

#include <stdio.h>

static void stop(const char *why) {
    fprintf(stderr, "events: %s\n", why);
    exit(2);
}

/* All of the standard input, and in `*length` how many bytes it has. */
static char *read_page(size_t *length) {
    size_t capacity = 0;
    char *page = NULL;
    do {
        capacity = 2 * capacity + 4096;
        page = realloc(page, capacity);
        if (!page)
            stop("out of memory");
        *length += fread(page + *length, 1, capacity - *length, stdin);
    } while (*length == capacity);
    if (ferror(stdin))
        stop("the input can't be read");
    return page;
}

int main(void) {
    size_t length = 0, line = 1, at = 0;
    char *page = read_page(&length);
    struct mds_parser parser;
    struct mds_item item;
    uint32_t status = mds_parser_new(&parser, page, length, MDS_TABLES | MDS_STRIKETHROUGH);
    if (status != MDS_OK)
        stop(mds_status_name(status));
    for (bool in_heading = false; mds_parser_next(&parser, &item) == MDS_OK;) {
        const struct mds_event *event = item.event;
        if (event->element == MDS_ELEMENT_HEADING && event->kind == MDS_EVENT_START) {
            for (size_t next; (next = at + mds_scan_line(page + at, length - at)) <= event->start; at = next)
                line++;
            printf("%zu: %.*s ", line, (int)event->detail, "######");
            in_heading = true;
        } else if (event->element == MDS_ELEMENT_HEADING) {
            puts("");
            in_heading = false;
        } else if (in_heading && (event->kind == MDS_EVENT_TEXT || event->kind == MDS_EVENT_CODE)) {
            fwrite(item.text.text, 1, item.text.length, stdout);
        } else if (in_heading && (event->kind == MDS_EVENT_SOFT_BREAK || event->kind == MDS_EVENT_HARD_BREAK)) {
            putchar(' ');
        }
    }
    mds_parser_free(&parser);
    free(page);
    if (fflush(stdout) || ferror(stdout))
        stop("the output can't be written");
    return 0;
}
