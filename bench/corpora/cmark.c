/* cmark: `html`, with raw HTML as it stands in the page. It gives the HTML in memory that it asks for itself. */
#include "side.h"

#include <cmark.h>
#include <stdlib.h>
#include <string.h>

size_t make(const char *what, const char *page, size_t length, struct text *html) {
    if (strcmp(what, "html"))
        stop("cmark makes HTML alone");
    free(html->bytes);
    html->bytes = cmark_markdown_to_html(page, length, CMARK_OPT_UNSAFE);
    html->length = html->capacity = strlen(html->bytes);
    return 0;
}
