/* How pages are made: see made_pages.h. */
#include "made_pages.h"

enum { FILES = 1 << 20, TEXTS = 1 << 13, EDITS = 8, SPAN = 24 };

uint8_t page[MOST];
size_t length;
static uint8_t file[FILES];
static size_t file_size, starts[TEXTS], text_count;
static uint64_t state;

static const char *const pieces[] = {
    "*", "**", "_", "`", "``", "[a]", "[", "![", "](b)", "](javascript:b \"c\")", "[a]: data:b\n", "[foo]: /d\n", "\\", "&lt;", "&#0;", "<a>", "<script>",
    "<b@c>", "<d:e>", "<!-- ", "-->", "<![CDATA[", "]]>", "<?", "?>", "<", ">", "\"", "'", "\n", "  \n", "\n\n", "\r", "\r\n", "> ", "- ", "+ ",
    "1. ", "9) ", "# ", " #", "===\n", "---\n", "```\n", "~~~ a\n", "    ", "\t", "|", "|-|\n", "|:-:|\n", "~~", "~", "[[a|", "]]", "- [ ] ",
    "- [x] ", "[^a]: ", ": ", "a", " ", "\xc3\xa4", "\xe2\x82\xac", "\xf0\x9f\x8d\x94", "\xc2\xa0"};

size_t below(size_t bound) {
    state ^= state << 13, state ^= state >> 7, state ^= state << 17;
    return state % bound;
}

void begin(unsigned long long seed, FILE *texts) {
    state = seed * 0x9E3779B97F4A7C15 + 1;
    file_size = fread(file, 1, FILES, texts);
    for (size_t at = 0; at < file_size && text_count < TEXTS; at += strlen((const char *)file + at) + 1) starts[text_count++] = at;
    if (!text_count || file[file_size - 1]) fprintf(stderr, "pages: there are no texts that end in zero bytes\n"), exit(2);
}

/* Puts bytes at a place of the page, as many as there is room for. */
static void insert(size_t at, const void *bytes, size_t count) {
    if (count > MOST - length) count = MOST - length;
    memmove(page + at + count, page + at, length - at);
    memcpy(page + at, bytes, count);
    length += count;
}

static void insert_piece(size_t at) {
    const char *piece = pieces[below(sizeof(pieces) / sizeof(*pieces))];
    insert(at, piece, strlen(piece));
}

/* Puts a part of the file there, which may begin in one text and end in the next. */
static void insert_part(size_t at) {
    size_t from = below(file_size), count = below(60);
    insert(at, file + from, count < file_size - from ? count : file_size - from);
}

static void take_away(size_t at) {
    size_t count = 1 + below(SPAN);
    if (count > length - at) count = length - at;
    memmove(page + at, page + at + count, length - at - count);
    length -= count;
}

static void repeat(size_t at) {
    uint8_t copy[SPAN];
    size_t count = 1 + below(SPAN), times = 1 + below(4);
    if (count > length - at) count = length - at;
    memcpy(copy, page + at, count);
    for (; times; times--) insert(at, copy, count);
}

static void edit(void) {
    size_t at = below(length + 1), how = below(at < length ? 6 : 2);
    if (how == 0) insert_piece(at);
    else if (how == 1) insert_part(at);
    else if (how == 2) take_away(at);
    else if (how == 3) repeat(at);
    else if (how == 4) page[at] = page[below(length)];
    else page[at] ^= (uint8_t)(1 << below(8));
}

/* A text of the file, with a few places changed. */
static void change_text(void) {
    const char *taken = (const char *)file + starts[below(text_count)];
    insert(0, taken, strlen(taken));
    for (size_t left = 1 + below(EDITS); left; left--) edit();
}

/* Pieces and parts of the file, one after another; some pages are long. */
static void join_pieces(void) {
    size_t least = 1 + below(below(8) ? 200 : MOST);
    while (length < least) {
        if (below(3)) insert_piece(length);
        else insert_part(length);
    }
}

void make_page(void) {
    length = 0;
    if (below(2)) change_text();
    else join_pieces();
    if (length && !below(8)) page[below(length)] = (uint8_t)below(256);
    if (!below(4)) return; /* else a character that is cut would make most pages no UTF-8 */
    for (size_t i = 0; i < length; i++) page[i] = page[i] < 0x80 ? page[i] : 'a';
}
