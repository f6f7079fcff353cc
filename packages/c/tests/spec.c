/* Prints the HTML of each page that the standard input has, with a zero byte after it, as pages have there. A page is read between pages
 * of memory that fault. */
#include "checks.h"

#include <stdio.h>
#include <string.h>

enum { MOST = 1 << 20 };

static char input[MOST];

int main(void) {
    size_t length = fread(input, 1, MOST, stdin);
    for (size_t at = 0; at < length; at += strlen(input + at) + 1) {
        const void *page = given(BYTES, input + at, strlen(input + at));
        uint8_t *html = writable(BUFFER, ROOM_SIZE);
        struct mds_text found = mds_html_unsafe(page, strlen(input + at), 0, html, ROOM_SIZE);
        if (found.status != MDS_OK || !is_left(BUFFER, found.length))
            return fprintf(stderr, "spec: %s\n", mds_status_name(found.status)), 1;
        fwrite(html, 1, found.length, stdout), putchar(0);
    }
    return length == MOST || ferror(stdin) || fflush(stdout) != 0;
}
