/* What the extensions of SQLite and PostgreSQL share: the HTML of a page, its plain text and its links, in memory of the database.
 *
 * Statuses are of enum mds_status of fillaqut.h: MDS_OK, MDS_NOT_UTF8 or MDS_NO_MEMORY. */
#ifndef FILLAQUT_MARKDOWN_PAGE_H
#define FILLAQUT_MARKDOWN_PAGE_H

#include "fillaqut.h"

#ifdef __GNUC__
#pragma GCC visibility push(hidden)
#endif

/* Memory of the database, as its own file defines it: NULL where it is refused, or no return at all. What is released may be NULL. */
void *database_memory(size_t size);
void database_release(void *memory);

/* What is said of a status that is no answer, and of no memory. */
const char *status_message(uint32_t status);

/* The extensions that a text asks for: names with commas between them, and spaces around them, or nothing. */
struct asked_extensions {
    uint32_t bits;
    const char *fault;    /* what is wrong with a name, or NULL */
    struct mds_view name; /* that name */
};

struct asked_extensions asked_extensions(struct mds_view names);

/* A text that is made: where the status is MDS_OK, `length` bytes in memory of the database, after as many as its maker was asked to
 * leave before it. Else there is no memory to release. */
struct made_text {
    uint32_t status;
    uint8_t *memory;
    size_t length;
};

/* The safe HTML of a page. */
struct made_text made_html(struct mds_view page, uint32_t extensions, size_t before);

/* The events of a page. All 0 it has none, and keeps no memory. */
struct page_events {
    struct mds_event *events;
    uint8_t *texts;
    size_t count;
};

/* Reads the events of a page. Without MDS_OK there are none, and no memory is kept; nor is a pointer to the page. */
uint32_t read_events(struct page_events *it, struct mds_view page, uint32_t extensions);

void release_events(struct page_events *it);

/* Which event is the first, from this one on, at which a link or an image begins; or how many there are. */
size_t next_link(const struct page_events *it, size_t at);

/* The texts that events have. Those of links are of the link or the image that begins at an event. */
enum part {
    PART_PAGE,        /* the plain text of all: see README.md */
    PART_DESTINATION, /* where it leads, with `mailto:` of an email address */
    PART_TITLE,
    PART_TEXT         /* its plain text; of an image without the images in it */
};

struct made_text made_part(const struct page_events *it, enum part part, size_t at, size_t before);

#ifdef __GNUC__
#pragma GCC visibility pop
#endif

#endif
