/* The page that a value of SQLite has, which may hold zero bytes. */
#ifndef FILLAQUT_GIVEN_PAGE_H
#define FILLAQUT_GIVEN_PAGE_H

#include "markdown_page.h"

/* A page as its events are read: with U+FFFD in place of each U+0000, as its HTML has it (2.3), in a copy where it has some. */
struct given_page {
    struct mds_view read;
    uint8_t *copy; /* NULL where `read` is the page itself */
    size_t *zeros; /* where its zero bytes stand, rising */
    size_t zero_count;
};

/* MDS_OK or MDS_NO_MEMORY, and then no memory is kept. */
uint32_t read_given(struct given_page *it, struct mds_view page);

/* Releases the copy. */
void release_copy(struct given_page *it);

/* Releases the rest of its memory too. */
void release_given(struct given_page *it);

/* The offset in the page of an offset in what is read of it. */
size_t given_offset(const struct given_page *it, size_t offset);

#endif
