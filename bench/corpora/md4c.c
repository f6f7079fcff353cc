/* md4c: `html`, with tables where `+tables` follows. */
#include "side.h"

#include <md4c-html.h>
#include <string.h>

static void write_html(const MD_CHAR *bytes, MD_SIZE length, void *to) {
    struct text *html = to;
    if (html->capacity - html->length < length)
        reserve(html, 2 * html->capacity + length);
    memcpy(html->bytes + html->length, bytes, length);
    html->length += length;
}

size_t make(const char *what, const char *page, size_t length, struct text *html) {
    html->length = 0;
    if (md_html(page, (MD_SIZE)length, write_html, html, strstr(what, "+tables") ? MD_FLAG_TABLES : 0, 0))
        stop("md4c refuses the page");
    return 0;
}
