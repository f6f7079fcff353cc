/* Fillaqut: `html` as the page says it, `safe` HTML, or its `events` with their ranges; each with tables where `+tables` follows. */
#include "fillaqut.h"
#include "side.h"

#include <stdlib.h>
#include <string.h>

/* The events of a page and their texts, in memory that is used again. */
static size_t make_events(const char *page, size_t length, uint32_t extensions) {
    static struct mds_event *events;
    static size_t capacity;
    static struct text texts;
    struct mds_events found = mds_events(page, length, extensions, events, capacity, (uint8_t *)texts.bytes, texts.capacity);
    if (found.status == MDS_TOO_SHORT) {
        reserve(&texts, found.length);
        events = realloc(events, (capacity = found.count) * sizeof *events);
        if (events == NULL)
            stop("out of memory");
        found = mds_events(page, length, extensions, events, capacity, (uint8_t *)texts.bytes, texts.capacity);
    }
    if (found.status != MDS_OK)
        stop(mds_status_name(found.status));
    return found.count;
}

size_t make(const char *what, const char *page, size_t length, struct text *html) {
    uint32_t extensions = strstr(what, "+tables") ? MDS_TABLES : 0;
    if (strncmp(what, "events", 6) == 0)
        return make_events(page, length, extensions);
    struct mds_text (*call)(const void *, size_t, uint32_t, uint8_t *, size_t) = strncmp(what, "safe", 4) ? mds_html_unsafe : mds_html;
    struct mds_text found = call(page, length, extensions, (uint8_t *)html->bytes, html->capacity);
    if (found.status == MDS_TOO_SHORT) {
        reserve(html, found.length);
        found = call(page, length, extensions, (uint8_t *)html->bytes, html->capacity);
    }
    if (found.status != MDS_OK)
        stop(mds_status_name(found.status));
    html->length = found.length;
    return 0;
}
