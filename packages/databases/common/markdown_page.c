/* The walk over the events of a page, for SQLite and for PostgreSQL: to its plain text and to its links. */
#include "markdown_page.h"

#include "extensions.h"

#include <string.h>

const char *status_message(uint32_t status) {
    switch (status) {
    case MDS_NOT_UTF8: return "the text is not UTF-8";
    case MDS_NO_MEMORY: return "out of memory";
    default: return mds_status_name(status);
    }
}

/* ---- Names of extensions ---- */

static struct mds_view trimmed(const char *text, size_t length) {
    struct mds_view made;
    while (length > 0 && text[0] == ' ') text++, length--;
    while (length > 0 && text[length - 1] == ' ') length--;
    made.text = text, made.length = length;
    return made;
}

/* Adds the extension of a name, or says what is wrong with it. */
static void add_extension(struct asked_extensions *asked, struct mds_view name) {
    size_t count = sizeof EXTENSIONS / sizeof *EXTENSIONS, at = 0;
    while (at < count && (strlen(EXTENSIONS[at].name) != name.length || memcmp(EXTENSIONS[at].name, name.text, name.length) != 0)) at++;
    if (at < count && EXTENSIONS[at].is_built) {
        asked->bits |= EXTENSIONS[at].bits;
        return;
    }
    asked->fault = at < count ? "not built yet is the extension" : "there is no extension";
    asked->name = name;
}

struct asked_extensions asked_extensions(struct mds_view names) {
    struct asked_extensions asked = {0, NULL, {NULL, 0}};
    const char *rest = names.text;
    size_t length = names.length;
    if (trimmed(rest, length).length == 0) return asked;
    for (;;) {
        const char *comma = memchr(rest, ',', length);
        size_t word = comma ? (size_t)(comma - rest) : length;
        add_extension(&asked, trimmed(rest, word));
        if (asked.fault || !comma) return asked;
        rest += word + 1, length -= word + 1;
    }
}

/* ---- HTML ---- */

/* The HTML of a page, where so many bytes are enough for it; where they aren't, how many are. */
static struct made_text html_within(struct mds_view page, uint32_t extensions, size_t before, size_t capacity) {
    struct made_text made = {MDS_NO_MEMORY, database_memory(before + capacity), 0};
    struct mds_text found;
    if (!made.memory) return made;
    found = mds_html(page.text, page.length, extensions, made.memory + before, capacity);
    made.status = found.status, made.length = found.length;
    if (made.status != MDS_OK) {
        database_release(made.memory);
        made.memory = NULL;
    }
    return made;
}

struct made_text made_html(struct mds_view page, uint32_t extensions, size_t before) {
    struct made_text made = html_within(page, extensions, before, 2 * page.length + 64);
    return made.status == MDS_TOO_SHORT ? html_within(page, extensions, before, made.length) : made;
}

/* ---- Events ---- */

static bool is_link(const struct mds_event *event) {
    return event->element == MDS_ELEMENT_LINK || event->element == MDS_ELEMENT_IMAGE;
}

/* Puts into `number` of each link and image that begins which event ends it: a number that is 0 there, in an array that is ours. So no
 * walk has to look for an end, and pages of images in images cost no more than others. */
static void pair_links(struct page_events *it) {
    size_t open = it->count; /* that begun last and not ended, whose `number` is the one around it */
    for (size_t at = 0; at < it->count; at++) {
        struct mds_event *event = &it->events[at];
        if (!is_link(event)) continue;
        if (event->kind == MDS_EVENT_START) {
            event->number = open;
            open = at;
        } else if (open < it->count) {
            size_t around = (size_t)it->events[open].number;
            it->events[open].number = at;
            open = around;
        }
    }
}

/* Reads the events, where there is room for so many and for so many bytes of texts. */
static struct mds_events events_within(
    struct page_events *it, struct mds_view page, uint32_t extensions, size_t events, size_t texts) {
    struct mds_events found = {MDS_NO_MEMORY, 0, 0};
    it->events = database_memory(events * sizeof *it->events);
    it->texts = it->events ? database_memory(texts) : NULL;
    if (it->texts) found = mds_events(page.text, page.length, extensions, it->events, events, it->texts, texts);
    if (found.status != MDS_OK) release_events(it);
    return found;
}

uint32_t read_events(struct page_events *it, struct mds_view page, uint32_t extensions) {
    struct mds_events found = events_within(it, page, extensions, page.length / 8 + 64, page.length + 64);
    if (found.status == MDS_TOO_SHORT) found = events_within(it, page, extensions, found.count + 1, found.length + 1);
    if (found.status != MDS_OK) return found.status;
    it->count = found.count;
    pair_links(it);
    return MDS_OK;
}

void release_events(struct page_events *it) {
    database_release(it->events);
    database_release(it->texts);
    it->events = NULL, it->texts = NULL, it->count = 0;
}

size_t next_link(const struct page_events *it, size_t at) {
    while (at < it->count && (it->events[at].kind != MDS_EVENT_START || !is_link(&it->events[at]))) at++;
    return at;
}

/* ---- Texts ---- */

/* A text as it is written: its length, and its bytes where there is memory for them. */
struct writer {
    uint8_t *bytes;
    size_t length;
    bool ends_line; /* nothing stands there, or a line feed is the last */
};

static void write_bytes(struct writer *to, const void *bytes, size_t length) {
    if (length == 0) return;
    if (to->bytes) memcpy(to->bytes + to->length, bytes, length);
    to->length += length;
    to->ends_line = ((const char *)bytes)[length - 1] == '\n';
}

static void end_line(struct writer *to) {
    if (!to->ends_line) write_bytes(to, "\n", 1);
}

/* Whether an element begins in a line of its own, and ends with one. */
static bool is_block(uint32_t element) {
    switch (element) {
    case MDS_ELEMENT_TABLE_CELL:
    case MDS_ELEMENT_EMPHASIS:
    case MDS_ELEMENT_STRONG:
    case MDS_ELEMENT_STRIKETHROUGH:
    case MDS_ELEMENT_SUPERSCRIPT:
    case MDS_ELEMENT_SUBSCRIPT:
    case MDS_ELEMENT_LINK:
    case MDS_ELEMENT_IMAGE: return false;
    default: return true;
    }
}

/* Where a cell of a table begins after another. */
static bool is_later_cell(const struct page_events *it, size_t at) {
    const struct mds_event *event = &it->events[at];
    return event->kind == MDS_EVENT_START && event->element == MDS_ELEMENT_TABLE_CELL && at > 0 &&
           event[-1].kind == MDS_EVENT_END && event[-1].element == MDS_ELEMENT_TABLE_CELL;
}

static void write_event(struct writer *to, const struct page_events *it, size_t at) {
    const struct mds_event *event = &it->events[at];
    switch (event->kind) {
    case MDS_EVENT_TEXT:
    case MDS_EVENT_CODE: write_bytes(to, it->texts + event->text_start, event->text_length); break;
    case MDS_EVENT_SOFT_BREAK:
    case MDS_EVENT_HARD_BREAK: write_bytes(to, "\n", 1); break;
    case MDS_EVENT_RULE: end_line(to); break;
    case MDS_EVENT_START:
    case MDS_EVENT_END:
        if (is_block(event->element)) end_line(to);
        if (is_later_cell(it, at)) write_bytes(to, "\t", 1);
        break;
    default: break; /* raw HTML, and the box of a task */
    }
}

static void write_link_text(struct writer *to, const struct page_events *it, size_t at) {
    bool is_image = it->events[at].element == MDS_ELEMENT_IMAGE;
    size_t end = (size_t)it->events[at].number;
    for (size_t inner = at + 1; inner < end; inner++) {
        const struct mds_event *event = &it->events[inner];
        if (is_image && event->kind == MDS_EVENT_START && event->element == MDS_ELEMENT_IMAGE) inner = (size_t)event->number;
        else write_event(to, it, inner);
    }
}

static void write_part(struct writer *to, const struct page_events *it, enum part part, size_t at) {
    const struct mds_event *event = it->events + at;
    switch (part) {
    case PART_PAGE:
        for (size_t each = 0; each < it->count; each++) write_event(to, it, each);
        break;
    case PART_DESTINATION:
        if (event->detail == MDS_LINK_EMAIL) write_bytes(to, "mailto:", 7);
        write_bytes(to, it->texts + event->text_start, event->text_length);
        break;
    case PART_TITLE: write_bytes(to, it->texts + event->title_start, event->title_length); break;
    case PART_TEXT: write_link_text(to, it, at); break;
    }
}

struct made_text made_part(const struct page_events *it, enum part part, size_t at, size_t before) {
    struct writer counted = {NULL, 0, true}, written = {NULL, 0, true};
    struct made_text made = {MDS_NO_MEMORY, NULL, 0};
    write_part(&counted, it, part, at);
    made.memory = database_memory(before + counted.length + 1);
    if (!made.memory) return made;
    written.bytes = made.memory + before;
    write_part(&written, it, part, at);
    made.status = MDS_OK, made.length = written.length;
    return made;
}
