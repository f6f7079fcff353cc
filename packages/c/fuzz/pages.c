/* Asks seven functions for what they write of made pages: their HTML, safe HTML, the same by a setting, events, blocks, lists and inlines.
 * A page is pieces that begin something, one after another, with parts of the texts of a file; or one of these texts, of which a few
 * places are changed.
 *
 * Of each call it holds that short buffers are left as they are and give the numbers that suffice, that a second call gives the same,
 * and what is promised of the answer. Pages and buffers stand beside memory that faults.
 *
 *     pages SEED SECONDS <TEXTS    TEXTS end in zero bytes */
#define _DEFAULT_SOURCE
#include "made_pages.h"

#include <sanitizer/common_interface_defs.h>
#include <sys/mman.h>
#include <time.h>
#include <unistd.h>

enum { ROOM = 1 << 23, UNTOUCHED = 'z' };

/* Memory between two pages that fault. */
struct room {
    uint8_t *front, *end;
};

/* What a call answers: of items and of bytes, how many there are. */
struct answer {
    uint32_t status;
    size_t items, bytes;
};

/* The buffers of a call, and how much they hold. */
struct buffers {
    void *items;
    size_t item_count;
    uint8_t *bytes;
    size_t byte_count;
};

/* A function of the library: the size of its items, 0 where it writes none; whether it reads what is not UTF-8; the call; and what is
 * promised of its answer. */
struct function {
    const char *name;
    size_t item_size;
    bool reads_bytes;
    struct answer (*call)(const struct buffers *into);
    void (*check)(const struct buffers *written);
};

static struct room text_room, item_room, byte_room, earlier_room;
static const uint8_t *text;
static uint32_t extensions, built; /* those that are asked for, and of them those that events and HTML are built of */
static const char *asked = "the page";
static unsigned long long calls;

/* What is asked of which page: said by stop, and where the sanitizers end the program. */
static void show(void) {
    fprintf(stderr, "pages: %s, with extensions %u, of this page:\n\"", asked, extensions);
    for (size_t i = 0; i < length; i++) {
        bool is_plain = page[i] >= ' ' && page[i] < 0x7F && page[i] != '\\' && page[i] != '"';
        fprintf(stderr, is_plain ? "%c" : "\\%03o", page[i]);
    }
    fprintf(stderr, "\"\n");
}

static void stop(const char *why) {
    fprintf(stderr, "pages: %s: %s\n", asked, why);
    show();
    exit(1);
}

static struct room made_room(size_t size) {
    uint8_t *all = mmap(NULL, size + 8192, PROT_READ | PROT_WRITE, MAP_PRIVATE | MAP_ANONYMOUS, -1, 0);
    if (all == MAP_FAILED || mprotect(all, 4096, PROT_NONE) || mprotect(all + 4096 + size, 4096, PROT_NONE)) stop("there is no room");
    return (struct room){all + 4096, all + 4096 + size};
}

/* So many bytes at an edge of the room. */
static uint8_t *placed(const struct room *room, size_t size) {
    return below(2) ? room->front : room->end - size;
}

/* ---- The calls ---- */

static struct answer of_text(struct mds_text found) {
    return (struct answer){found.status, 0, found.length};
}

static struct answer call_html_unsafe(const struct buffers *into) {
    return of_text(mds_html_unsafe(text, length, built, into->bytes, into->byte_count));
}

static struct answer call_html(const struct buffers *into) {
    return of_text(mds_html(text, length, built, into->bytes, into->byte_count));
}

static struct answer call_html_with(const struct buffers *into) {
    static const struct mds_html_setting setting = {.raw_html = MDS_RAW_HTML_OMITTED, .rel = MDS_REL_NONE, .images_as_links = 1};
    return of_text(mds_html_with(text, length, built, &setting, into->bytes, into->byte_count));
}

static struct answer call_events(const struct buffers *into) {
    struct mds_events found = mds_events(text, length, built, into->items, into->item_count, into->bytes, into->byte_count);
    return (struct answer){found.status, found.count, found.length};
}

static struct answer call_blocks(const struct buffers *into) {
    struct mds_blocks found = mds_scan_blocks(text, length, extensions, into->items, into->item_count);
    return (struct answer){found.status, found.count, 0};
}

static struct answer call_lists(const struct buffers *into) {
    struct mds_blocks found = mds_scan_lists(text, length, extensions, into->items, into->item_count);
    return (struct answer){found.status, found.count, 0};
}

static struct answer call_inlines(const struct buffers *into) {
    static const struct mds_view labels[] = {{"a", 1}, {"foo", 3}};
    struct mds_inlines found = mds_scan_inlines(text, length, labels, 2, extensions, into->items, into->item_count);
    return (struct answer){found.status, found.count, 0};
}

/* ---- What is promised of their answers ---- */

static void check_html(const struct buffers *html) {
    if (!mds_is_utf8(html->bytes, html->byte_count)) stop("HTML is not UTF-8");
}

/* Whether one of the tags that safe HTML may have begins here. */
static bool is_tag(const uint8_t *html, size_t left) {
    static const char *const tags[] = {
        "<p>", "<h1>", "<h2>", "<h3>", "<h4>", "<h5>", "<h6>", "<blockquote>", "<ul>", "<ol>", "<ol start=\"", "<li>", "<pre><code",
        "<code>", "<code class=\"language-", "<table>", "<thead>", "<tbody>", "<tr>", "<th>", "<th align=\"", "<td>", "<td align=\"", "<em>",
        "<strong>", "<del>", "<a href=\"", "<hr />", "<br />", "<img src=\"", "<input ", "</"};
    for (size_t i = 0; i < sizeof(tags) / sizeof(*tags); i++)
        if (strlen(tags[i]) <= left && !memcmp(html, tags[i], strlen(tags[i]))) return true;
    return false;
}

static void check_safe_html(const struct buffers *html) {
    check_html(html);
    for (size_t i = 0; i < html->byte_count; i++)
        if (html->bytes[i] == '<' && !is_tag(html->bytes + i, html->byte_count - i)) stop("safe HTML has another tag");
}

static bool is_boundary(size_t at) {
    return at == length || (at < length && (page[at] & 0xC0) != 0x80);
}

static bool is_inside(const struct mds_event *it, const struct mds_event *around) {
    return it->start >= around->start && it->end <= around->end;
}

static void check_events(const struct buffers *found) {
    static const struct mds_event *open[8 * MOST];
    const struct mds_event *events = found->items;
    size_t depth = 0;
    for (size_t i = 0; i < found->item_count; i++) {
        const struct mds_event *it = events + i;
        if (it->start > it->end || !is_boundary(it->start) || !is_boundary(it->end)) stop("a range cuts a character, or is not in the page");
        if (depth && !is_inside(it, open[depth - 1])) stop("a range is not in that around it");
        if (it->kind == MDS_EVENT_START) open[depth++] = it;
        if (it->kind == MDS_EVENT_END && (!depth || open[--depth]->element != it->element || open[depth]->start != it->start)) stop("an end is another");
    }
    if (depth) stop("an element does not end");
    if (!mds_is_utf8(found->bytes, found->byte_count)) stop("texts are not UTF-8");
}

static bool is_container(uint32_t kind) {
    return kind == MDS_BLOCK_QUOTE || kind == MDS_BLOCK_ITEM || kind == MDS_BLOCK_FOOTNOTE || kind == MDS_BLOCK_TERM_DEFINITION;
}

static void check_blocks(const struct buffers *found) {
    const struct mds_block *blocks = found->items;
    size_t depth = 0, end = 0, line = 0;
    for (size_t i = 0; i < found->item_count; i++) {
        const struct mds_block *it = blocks + i;
        if (it->kind == MDS_BLOCK_END && !depth--) stop("no container ends there");
        if (is_container(it->kind)) depth++;
        if (it->kind == MDS_BLOCK_END || is_container(it->kind)) continue;
        if (it->start != end || it->line != line) stop("a block does not begin where the one before it ends");
        end += it->bytes, line += it->lines;
    }
    if (depth) stop("a container does not end");
    if (end != length) stop("the blocks are not all of the page");
}

static void check_lists(const struct buffers *found) {
    const struct mds_list *lists = found->items;
    for (size_t i = 0; i < found->item_count; i++) {
        if (!memchr("-+*.)", lists[i].delimiter, 5) || lists[i].line >= lists[i].end) stop("a list has another delimiter, or no line");
        if (i && lists[i].end < lists[i - 1].end) stop("a list does not stand where it ends");
    }
}

/* The kind by which an inline that begins so ends; 0 of one that holds no others. */
static uint32_t end_of(uint32_t kind) {
    switch (kind) {
    case MDS_INLINE_EMPHASIS: return MDS_INLINE_EMPHASIS_END;
    case MDS_INLINE_STRONG: return MDS_INLINE_STRONG_END;
    case MDS_INLINE_LINK:
    case MDS_INLINE_IMAGE: return MDS_INLINE_LINK_END;
    case MDS_INLINE_STRIKETHROUGH: return MDS_INLINE_STRIKETHROUGH_END;
    default: return 0;
    }
}

static bool is_end(uint32_t kind) {
    return kind == MDS_INLINE_EMPHASIS_END || kind == MDS_INLINE_STRONG_END || kind == MDS_INLINE_LINK_END || kind == MDS_INLINE_STRIKETHROUGH_END;
}

static void check_inlines(const struct buffers *found) {
    static uint32_t ends[MOST];
    const struct mds_inline *inlines = found->items;
    size_t depth = 0, end = 0;
    if (found->item_count > length) stop("there are more inlines than bytes");
    for (size_t i = 0; i < found->item_count; i++) {
        if (inlines[i].start != end) stop("an inline does not begin where the one before it ends");
        end += inlines[i].length;
        if (end_of(inlines[i].kind)) ends[depth++] = end_of(inlines[i].kind);
        if (is_end(inlines[i].kind) && (!depth || ends[--depth] != inlines[i].kind)) stop("an end is another");
    }
    if (depth) stop("an inline does not end");
    if (end != length) stop("the inlines are not all of the text");
}

static const struct function functions[] = {
    {"mds_html_unsafe", 0, true, call_html_unsafe, check_html},
    {"mds_html", 0, true, call_html, check_safe_html},
    {"mds_html_with", 0, true, call_html_with, check_safe_html},
    {"mds_events", sizeof(struct mds_event), false, call_events, check_events},
    {"mds_scan_blocks", sizeof(struct mds_block), true, call_blocks, check_blocks},
    {"mds_scan_lists", sizeof(struct mds_list), true, call_lists, check_lists},
    {"mds_scan_inlines", sizeof(struct mds_inline), false, call_inlines, check_inlines}};

/* ---- How each is tried ---- */

/* Buffers of these sizes at the edges of their rooms, untouched. */
static struct buffers made_buffers(const struct function *it, size_t items, size_t bytes) {
    struct buffers made = {placed(&item_room, items * it->item_size), items, placed(&byte_room, bytes), bytes};
    memset(made.items, UNTOUCHED, items * it->item_size), memset(made.bytes, UNTOUCHED, bytes);
    return made;
}

static bool is_untouched(const uint8_t *bytes, size_t count) {
    for (size_t i = 0; i < count; i++)
        if (bytes[i] != UNTOUCHED) return false;
    return true;
}

static struct answer called(const struct function *it, const struct buffers *into) {
    struct answer found = it->call(into);
    calls++;
    if (memcmp(text, page, length)) stop("the page is changed");
    return found;
}

/* With buffers that are short of what is needed: both stay as they are, and the same is needed. */
static void try_short(const struct function *it, struct answer needed) {
    bool is_of_items = needed.items && (!needed.bytes || below(2));
    size_t items = is_of_items ? below(needed.items) : needed.items, bytes = is_of_items ? needed.bytes : below(needed.bytes);
    struct buffers into = made_buffers(it, items, bytes);
    struct answer found = called(it, &into);
    if (found.status != MDS_TOO_SHORT || found.items != needed.items || found.bytes != needed.bytes) stop("a short buffer is answered in another way");
    if (!is_untouched(into.items, items * it->item_size) || !is_untouched(into.bytes, bytes)) stop("a short buffer is written");
}

/* With buffers of what is needed, twice. */
static void try_whole(const struct function *it, struct answer needed) {
    size_t size = needed.items * it->item_size;
    for (int i = 0; i < 2; i++) {
        struct buffers into = made_buffers(it, needed.items, needed.bytes);
        struct answer found = called(it, &into);
        if (found.status != MDS_OK || found.items != needed.items || found.bytes != needed.bytes) stop("buffers that suffice are answered in another way");
        if (i && memcmp(earlier_room.front, into.items, size)) stop("a second call writes other items");
        if (i && memcmp(earlier_room.end - needed.bytes, into.bytes, needed.bytes)) stop("a second call writes other bytes");
        memcpy(earlier_room.front, into.items, size), memcpy(earlier_room.end - needed.bytes, into.bytes, needed.bytes);
        it->check(&into);
    }
}

static void try_function(const struct function *it, bool is_text) {
    static const struct buffers none = {NULL, 0, NULL, 0};
    struct answer needed = called(it, &none);
    if (!is_text && !it->reads_bytes) {
        if (needed.status != MDS_NOT_UTF8) stop("what is not UTF-8 has another status");
        return;
    }
    if (needed.status != (needed.items || needed.bytes ? MDS_TOO_SHORT : MDS_OK)) stop("no buffers are answered in another way");
    if (needed.items * it->item_size > ROOM / 2 || needed.bytes > ROOM / 2) return;
    if (needed.status == MDS_TOO_SHORT) try_short(it, needed);
    try_whole(it, needed);
}

/* Some of the extensions. */
static uint32_t chosen(void) {
    static const uint32_t bits[] = {MDS_TABLES, MDS_FOOTNOTES, MDS_STRIKETHROUGH, MDS_TASKS, MDS_DEFINITION_LISTS, MDS_WIKILINKS};
    uint32_t found = 0;
    for (size_t i = 0; i < sizeof(bits) / sizeof(*bits); i++) found |= below(2) ? bits[i] : 0;
    return found;
}

/* All functions on a page that is made; whether it is UTF-8. */
static bool try_page(void) {
    extensions = chosen(), built = extensions & ~(uint32_t)(MDS_FOOTNOTES | MDS_DEFINITION_LISTS);
    make_page();
    text = memcpy(placed(&text_room, length), page, length);
    bool is_text = mds_is_utf8(text, length);
    for (size_t i = 0; i < sizeof(functions) / sizeof(*functions); i++) asked = functions[i].name, try_function(functions + i, is_text);
    return is_text;
}

int main(int count, char **given) {
    if (count != 3) return fprintf(stderr, "usage: pages SEED SECONDS <TEXTS\n"), 2;
    __sanitizer_set_death_callback(show);
    begin(strtoull(given[1], NULL, 10), stdin);
    text_room = made_room(MOST), item_room = made_room(ROOM), byte_room = made_room(ROOM), earlier_room = made_room(ROOM);
    time_t until = time(NULL) + strtol(given[2], NULL, 10);
    unsigned long long tried = 0, texts = 0;
    for (; time(NULL) < until; tried++) texts += try_page();
    printf("%llu pages, of which %llu are UTF-8, in %llu calls: no fault\n", tried, texts, calls);
    return tried && texts ? 0 : 1;
}
