/* The events of a page, one after another, by a handle over mds_events of fillaqut.h, which is proved to answer those of the
 * page. The handle is written in C, in this header, and is compiled with the program that includes it: it is tested, and not proved.
 *
 *     struct mds_parser parser;
 *     struct mds_item item;
 *     uint32_t status = mds_parser_new(&parser, page, length, MDS_TABLES);
 *     while (mds_parser_next(&parser, &item) == MDS_OK)
 *         if (item.event->kind == MDS_EVENT_TEXT)
 *             fwrite(item.text.text, 1, item.text.length, stdout);
 *     mds_parser_free(&parser);
 *
 * Ownership. A handle is the caller's, as a variable, and so are its fields, which nobody but these functions writes. It keeps an array
 * of all events and a buffer of their texts, of the C library's memory, which mds_parser_free gives back. It keeps nothing of the page,
 * which may be changed or freed as soon as mds_parser_new has returned. What an item points to stays until mds_parser_free.
 *
 * Memory. mds_parser_new asks for all of it, and may be refused: MDS_NO_MEMORY. The handle is empty then, as after each other status but
 * MDS_OK: it has no events and keeps no memory, and may be begun anew. mds_parser_next asks for none, so it is never refused, and no
 * event is lost.
 *
 * Threads. Handles know nothing of one another. One handle may be passed from thread to thread, and is used by one at a time.
 */
#ifndef FILLAQUT_PARSER_H
#define FILLAQUT_PARSER_H

#include "fillaqut.h"

#include <stdlib.h>

#ifdef __cplusplus
extern "C" {
#endif

/* The events of a page, and how many of them have been given. */
struct mds_parser {
    struct mds_event *events;
    uint8_t *texts;
    size_t count, given;
};

/* An event, and its texts: those that it has not have the length 0. */
struct mds_item {
    const struct mds_event *event;
    struct mds_view text, title, label;
};

/* Gives the memory of a handle back, which is empty then. Of an empty one nothing is done. */
static inline void mds_parser_free(struct mds_parser *parser) {
    free(parser->events);
    free(parser->texts);
    parser->events = NULL;
    parser->texts = NULL;
    parser->count = parser->given = 0;
}

/* Makes the events of a page anew, where there is room for so many and for so many bytes of texts. */
static inline struct mds_events mds_parser_made(
    struct mds_parser *parser, const void *text, size_t length, uint32_t extensions, size_t events, size_t texts) {
    struct mds_events refused = {MDS_NO_MEMORY, 0, 0};
    mds_parser_free(parser);
    if (events > SIZE_MAX / 2 / sizeof(struct mds_event)) return refused;
    parser->events = (struct mds_event *)malloc(events * sizeof(struct mds_event));
    parser->texts = (uint8_t *)malloc(texts);
    if (!parser->events || !parser->texts) return refused;
    return mds_events(text, length, extensions, parser->events, events, parser->texts, texts);
}

/* Begins a handle, whatever it is before, with the events of a page; the rest is as of mds_events. MDS_OK, MDS_BAD_KIND, MDS_NOT_UTF8
 * or MDS_NO_MEMORY. */
static inline uint32_t mds_parser_new(struct mds_parser *parser, const void *text, size_t length, uint32_t extensions) {
    struct mds_parser empty = {NULL, NULL, 0, 0};
    struct mds_events made;
    *parser = empty;
    made = mds_parser_made(parser, text, length, extensions, length / 8 + 64, length + 64);
    if (made.status == MDS_TOO_SHORT) made = mds_parser_made(parser, text, length, extensions, made.count + 1, made.length + 1);
    if (made.status != MDS_OK) mds_parser_free(parser);
    else parser->count = made.count;
    return made.status;
}

/* The next event: MDS_OK; or MDS_NOTHING after the last one, as often as it is asked for, and then the item is left as it was. */
static inline uint32_t mds_parser_next(struct mds_parser *parser, struct mds_item *item) {
    const struct mds_event *it = parser->events + parser->given;
    if (parser->given == parser->count) return MDS_NOTHING;
    parser->given++;
    item->event = it;
    item->text.text = parser->texts + it->text_start, item->text.length = it->text_length;
    item->title.text = parser->texts + it->title_start, item->title.length = it->title_length;
    item->label.text = parser->texts + it->label_start, item->label.length = it->label_length;
    return MDS_OK;
}

#ifdef __cplusplus
}
#endif

#endif
