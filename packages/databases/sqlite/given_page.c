/* Zero bytes in the pages of SQLite, and the offsets around them. */
#include "given_page.h"

#include <string.h>

static const char REPLACEMENT[] = "\xef\xbf\xbd";
enum { MORE_BYTES = 2 }; /* than a zero byte U+FFFD has */

static size_t count_zeros(struct mds_view page) {
    const char *text = page.text;
    size_t count = 0;
    for (const char *at = text; (at = memchr(at, 0, page.length - (size_t)(at - text))); at++) count++;
    return count;
}

/* Copies the page, and says where its zero bytes stand. */
static void fill(struct given_page *it, struct mds_view page) {
    const uint8_t *text = page.text;
    uint8_t *to = it->copy;
    it->zero_count = 0;
    for (size_t at = 0; at < page.length; at++) {
        if (text[at] != 0) {
            *to++ = text[at];
        } else {
            it->zeros[it->zero_count++] = at;
            memcpy(to, REPLACEMENT, 3);
            to += 3;
        }
    }
    it->read.text = it->copy, it->read.length = (size_t)(to - it->copy);
}

uint32_t read_given(struct given_page *it, struct mds_view page) {
    size_t count = page.length == 0 ? 0 : count_zeros(page);
    struct given_page empty = {{NULL, 0}, NULL, NULL, 0};
    *it = empty;
    it->read = page;
    if (count == 0) return MDS_OK;
    it->copy = database_memory(page.length + MORE_BYTES * count);
    it->zeros = database_memory(count * sizeof *it->zeros);
    if (it->copy && it->zeros) return fill(it, page), MDS_OK;
    release_given(it);
    return MDS_NO_MEMORY;
}

void release_copy(struct given_page *it) {
    database_release(it->copy);
    it->copy = NULL;
}

void release_given(struct given_page *it) {
    release_copy(it);
    database_release(it->zeros);
    it->zeros = NULL, it->zero_count = 0;
}

size_t given_offset(const struct given_page *it, size_t offset) {
    size_t before = 0, past = it->zero_count; /* so many zero bytes stand before it at least, and at most */
    while (before < past) {
        size_t middle = before + (past - before) / 2;
        if (it->zeros[middle] + MORE_BYTES * middle < offset) before = middle + 1;
        else past = middle;
    }
    return offset - MORE_BYTES * before;
}
