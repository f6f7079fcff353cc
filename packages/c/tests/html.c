/* The HTML of pages, on the rows of packages/pages.tsv; extensions, texts, schemes and settings that are refused; and made pages, in whose
 * safe HTML no other tag begins. */
#include "tables.h"

#include <string.h>

enum { MOST = 64 };

/* How HTML is asked for; safe HTML by a setting where there is one. */
struct asked {
    bool is_safe;
    uint32_t extensions;
    const struct mds_html_setting *setting;
};

/* The HTML by a setting with one scheme at most. */
static struct mds_text html_with(const void *text, size_t length, const struct asked *asked, uint8_t *buffer, size_t capacity) {
    struct mds_html_setting setting = *asked->setting;
    if (setting.scheme_count) {
        struct mds_view scheme = setting.schemes[0];
        scheme.text = given(OTHER_BYTES, scheme.text, scheme.length);
        setting.schemes = given(LIST, &scheme, sizeof(scheme));
    }
    return mds_html_with(text, length, asked->extensions, given(REST, &setting, sizeof(setting)), buffer, capacity);
}

static struct mds_text html_of(const char *page, size_t length, const struct asked *asked, uint8_t *buffer, size_t capacity) {
    const void *text = given(BYTES, page, length);
    if (!asked->is_safe)
        return mds_html_unsafe(text, length, asked->extensions, buffer, capacity);
    if (!asked->setting)
        return mds_html(text, length, asked->extensions, buffer, capacity);
    return html_with(text, length, asked, buffer, capacity);
}

/* It is written where there is room for it, and nowhere else. */
static void is_html(const struct row *row, const struct asked *asked) {
    static struct text page, html;
    read_text(row->columns[1], 0, &page), read_text(row->columns[3], 0, &html);
    size_t needed = html.length;
    const size_t capacities[] = {needed, needed + 9, needed - 1};
    for (size_t i = 0; i < (needed > 0 ? 3 : 2); i++) {
        bool fits = capacities[i] >= needed;
        uint8_t *buffer = writable(BUFFER, capacities[i]);
        struct mds_text found = html_of((const char *)page.bytes, page.length, asked, buffer, capacities[i]);
        same(row->line, "status", found.status, fits ? MDS_OK : MDS_TOO_SHORT);
        same(row->line, "taken", found.taken, page.length);
        same(row->line, "length", found.length, needed);
        same(row->line, "is_left", is_left(BUFFER, fits ? needed : 0), true);
        same(row->line, row->columns[3], !fits || memcmp(buffer, html.bytes, needed) == 0, true);
    }
}

static void check_html_unsafe(const struct row *row) {
    is_html(row, &(struct asked){false, extensions_of(row->columns[2]), NULL});
}

static bool asks(const char *words, const char *field) {
    return strstr(words, field) != NULL;
}

/* The setting that a row asks for, with the one scheme that it names, if it does. */
static struct mds_html_setting setting_of(const char *words, struct mds_view *view, struct text *scheme) {
    struct mds_html_setting setting = {0};
    if (asks(words, "scheme=")) {
        read_text(field_of(words, "scheme"), ' ', scheme);
        *view = (struct mds_view){scheme->bytes, scheme->length};
        setting.schemes = view, setting.scheme_count = 1;
    }
    if (asks(words, "raw_html=omitted"))
        setting.raw_html = MDS_RAW_HTML_OMITTED;
    if (asks(words, "rel=none"))
        setting.rel = MDS_REL_NONE;
    setting.images_as_links = asks(words, "images_as_links=yes");
    return setting;
}

/* Where a row asks for the default, that is what is written without a setting. */
static void check_html(const struct row *row) {
    static struct text scheme;
    struct mds_view view;
    const char *words = row->columns[2];
    const struct mds_html_setting setting = setting_of(words, &view, &scheme);
    const uint32_t extensions = extensions_of(words);
    is_html(row, &(struct asked){true, extensions, &setting});
    if (!asks(words, "="))
        is_html(row, &(struct asked){true, extensions, NULL});
}

/* So many bytes are taken of what is refused. */
static void is_refused_at(int line, struct mds_text found, uint32_t status, size_t taken) {
    same(line, "status", found.status, status), same(line, "taken", found.taken, taken), same(line, "length", found.length, 0);
    same(line, "is_left", is_left(BUFFER, 0), true);
}

static void is_refused(int line, struct mds_text found, uint32_t status) {
    is_refused_at(line, found, status, 0);
}

/* What a setting with these schemes comes to. */
static struct mds_text with(const char *text, size_t length, uint32_t extensions, const struct mds_view *schemes, size_t count) {
    const struct mds_html_setting setting = {.schemes = schemes, .scheme_count = count};
    return mds_html_with(given(BYTES, text, length), length, extensions, &setting, writable(BUFFER, MOST), MOST);
}

/* What a strict setting comes to. */
static struct mds_text strict(const char *text, size_t length, uint32_t extensions) {
    const struct mds_html_setting setting = {.strict = 1};
    return mds_html_with(given(BYTES, text, length), length, extensions, &setting, writable(BUFFER, MOST), MOST);
}

/* An extension that is unknown or not built is refused before a text or a scheme that is not UTF-8. */
static void refusals(void) {
    uint8_t *buffer = writable(BUFFER, MOST);
    const struct mds_view other[] = {{"http", 4}, {"\xff", 1}};
    const struct mds_html_setting both = {.schemes = other, .scheme_count = 2, .strict = 1};
    for (uint32_t bit = 1; bit != 0; bit <<= 1) {
        bool is_built = (bit & EVERY_BUILT) != 0;
        SAME(mds_html_unsafe(OF(""), bit, NULL, 0).status, is_built ? MDS_OK : MDS_BAD_KIND);
        SAME(mds_html(OF(""), bit | EVERY_BUILT, NULL, 0).status, is_built ? MDS_OK : MDS_BAD_KIND);
        if (!is_built) {
            is_refused(__LINE__, mds_html_unsafe(OF("\xff"), bit, buffer, MOST), MDS_BAD_KIND);
            is_refused(__LINE__, mds_html(OF("\xff"), bit, buffer, MOST), MDS_BAD_KIND);
        }
        is_refused_at(__LINE__, strict("a\xff", 2, bit), is_built ? MDS_NOT_UTF8 : MDS_BAD_KIND, is_built ? 1 : 0);
        is_refused_at(__LINE__, with("\xff", 1, bit, other, 2), is_built ? MDS_NOT_UTF8 : MDS_BAD_KIND, is_built ? MDS_NONE : 0);
    }
    is_refused_at(__LINE__, strict("ab\xe2\x82", 4, 0), MDS_NOT_UTF8, 2), is_refused_at(__LINE__, strict("\xed\xa0\x80", 3, 0), MDS_NOT_UTF8, 0);
    is_refused_at(__LINE__, mds_html_with(OF("ab\xff"), 0, &both, writable(BUFFER, MOST), MOST), MDS_NOT_UTF8, 2);
    is_refused_at(__LINE__, mds_html_with(OF("ab"), 0, &both, writable(BUFFER, MOST), MOST), MDS_NOT_UTF8, MDS_NONE);
    SAME(strict("\xf0\x9f\x8d\x94", 4, 0).length, 12), SAME(strict("", 0, 0).status, MDS_OK);
    SAME(mds_html_unsafe(NULL, 0, 0, NULL, 0).status, MDS_OK), SAME(mds_html(NULL, 0, 0, NULL, 0).status, MDS_OK);
    SAME(mds_html_unsafe(OF("a"), 0, NULL, 0).length, 9), SAME(mds_html(OF("a"), 0, NULL, 0).length, 9);
    SAME(with("a", 1, 0, other, 1).length, 9);
}

/* A text, and what it is read as where it is not UTF-8: by the decoder of the Encoding standard, as Python's `bytes.decode` has it with the
 * error handler "replace". */
static const struct mended {
    const char *page, *text;
} mended[] = {
    {"\xff", "\xef\xbf\xbd"},
    {"a\x80z", "a\xef\xbf\xbdz"},
    {"a\xc3", "a\xef\xbf\xbd"},
    {"\xc3(", "\xef\xbf\xbd("},
    {"\xe2\x82z", "\xef\xbf\xbdz"},
    {"\xe2\x28\xa1", "\xef\xbf\xbd(\xef\xbf\xbd"},
    {"\xc0\x80", "\xef\xbf\xbd\xef\xbf\xbd"},
    {"\xed\xa0\x80", "\xef\xbf\xbd\xef\xbf\xbd\xef\xbf\xbd"},
    {"\xf0\x9f\x8d", "\xef\xbf\xbd"},
    {"\xf4\x90\x80\x80", "\xef\xbf\xbd\xef\xbf\xbd\xef\xbf\xbd\xef\xbf\xbd"},
    {"\xf0\x80\x80z", "\xef\xbf\xbd\xef\xbf\xbd\xef\xbf\xbdz"},
    {"# \xf0\x9f\x8d\x94\xf0\x9f\n- [\xfe](b)", "# \xf0\x9f\x8d\x94\xef\xbf\xbd\n- [\xef\xbf\xbd](b)"},
    {"[a\xff]\n\n[a\xef\xbf\xbd]: /b", "[a\xef\xbf\xbd]\n\n[a\xef\xbf\xbd]: /b"},
};

/* The same HTML is written of both, where there is room for it, and so much is needed where there is none. */
static void is_mended(const struct mended *row, const struct asked *asked) {
    uint8_t html[256];
    const size_t page = strlen(row->page), text = strlen(row->text);
    const struct mds_text expected = html_of(row->text, text, asked, html, sizeof(html));
    uint8_t *buffer = writable(BUFFER, expected.length);
    const struct mds_text found = html_of(row->page, page, asked, buffer, expected.length);
    SAME(expected.status, MDS_OK), SAME(found.status, MDS_OK), SAME(found.taken, page), SAME(found.length, expected.length);
    SAME(memcmp(buffer, html, expected.length), 0);
    const struct mds_text none = html_of(row->page, page, asked, NULL, 0);
    SAME(none.status, MDS_TOO_SHORT), SAME(none.taken, page), SAME(none.length, expected.length);
}

static void mended_pages(void) {
    const struct mds_html_setting setting = {.rel = MDS_REL_NONE};
    for (size_t i = 0; i < sizeof(mended) / sizeof(*mended); i++) {
        is_mended(mended + i, &(struct asked){false, 0, NULL});
        is_mended(mended + i, &(struct asked){true, MDS_TABLES, NULL});
        is_mended(mended + i, &(struct asked){true, 0, &setting});
    }
}

/* A number that a setting has, here the one at this place, is refused where it is none of those with a meaning, before the text is looked
 * at. */
static void refused_numbers(void) {
    enum { NUMBERS = 12, KNOWN = 4 };
    static const uint32_t others[] = {1, 2, 3, 1u << 31, UINT32_MAX};
    const struct mds_html_setting none = {0};
    SAME(sizeof(none), sizeof(void *) + sizeof(size_t) + NUMBERS * sizeof(uint32_t));
    for (size_t place = 0; place < NUMBERS; place++)
        for (size_t i = 0; i < sizeof(others) / sizeof(*others); i++) {
            struct mds_html_setting setting = none;
            memcpy((char *)&setting + offsetof(struct mds_html_setting, raw_html) + place * sizeof(uint32_t), &others[i], sizeof(uint32_t));
            const bool is_known = place < KNOWN && others[i] == 1;
            struct mds_text found = mds_html_with(OF("\xff"), 0, &setting, writable(BUFFER, MOST), MOST);
            if (!is_known) is_refused(__LINE__, found, MDS_BAD_KIND);
            else SAME(found.status, setting.strict ? MDS_NOT_UTF8 : MDS_OK);
            SAME(mds_html_with(OF("a"), 0, &setting, NULL, 0).status, is_known ? MDS_TOO_SHORT : MDS_BAD_KIND);
        }
    SAME(mds_html_with(NULL, 0, 0, &none, NULL, 0).status, MDS_OK);
}

static uint64_t seed = 7;

static size_t made(size_t below) {
    seed ^= seed << 13, seed ^= seed >> 7, seed ^= seed << 17;
    return seed % below;
}

/* A page of what begins something. */
static size_t make_page(char *page) {
    static const char *const pieces[] = {
        "*", "**", "_", "`", "[a]", "[", "![", "](b)", "](javascript:b \"c\")", "[a]: data:b\n", "\\", "&lt;", "<a>", "<script>", "<b@c>",
        "<d:e>", "<!-- ", "-->", "<", ">", "\"", "\n", "  \n", "\n\n", "> ", "- ", "1. ", "# ", "```\n", "    ", "|", "|-|\n", "~~", "[[a|", "]]",
        "- [ ] ", "a", "\xc3\xa4"};
    size_t length = 0, most = made(MOST);
    for (;;) {
        const char *piece = pieces[made(sizeof(pieces) / sizeof(*pieces))];
        if (length + strlen(piece) > most)
            return length;
        memcpy(page + length, piece, strlen(piece)), length += strlen(piece);
    }
}

/* Whether one of the tags that safe HTML may have begins here. */
static bool is_tag(const char *html) {
    static const char *const tags[] = {
        "<p>", "<h1>", "<h2>", "<blockquote>", "<ul>", "<ol>", "<li>", "<pre><code", "<code>", "<code class=\"language-", "<table>",
        "<thead>", "<tbody>", "<tr>", "<th", "<td", "<em>", "<strong>", "<del>", "<a href=\"", "<hr />", "<br />", "<img src=\"",
        "<input ", "</"};
    for (size_t i = 0; i < sizeof(tags) / sizeof(*tags); i++)
        if (!strncmp(html, tags[i], strlen(tags[i])))
            return true;
    return false;
}

static void made_pages(void) {
    char page[MOST], html[4096];
    for (size_t i = 0; i < 20000; i++) {
        at_front = i % 2;
        const struct mds_view http = {"http", 4};
        const struct mds_html_setting setting = {
            .schemes = &http, .scheme_count = 1, .raw_html = (uint32_t)made(2), .rel = (uint32_t)made(2), .images_as_links = (uint32_t)made(2)};
        struct asked asked = {true, made(2) ? EVERY_BUILT : 0, made(2) ? &setting : NULL};
        size_t length = make_page(page);
        struct mds_text found = html_of(page, length, &asked, (uint8_t *)html, sizeof(html) - 1);
        SAME(found.status, MDS_OK), html[found.length] = 0;
        for (const char *tag = html; (tag = strchr(tag, '<')) != NULL; tag++)
            SAME(is_tag(tag), true);
        SAME(strstr(html, "\"javascript:") || strstr(html, "\"data:"), false);
        asked.is_safe = false;
        SAME(html_of(page, length, &asked, (uint8_t *)html, sizeof(html)).status, MDS_OK);
    }
}

int main(void) {
    each_row("pages.tsv", 5, "html_unsafe", check_html_unsafe);
    each_row("pages.tsv", 5, "html", check_html);
    refusals(), refused_numbers(), mended_pages();
    at_front = true;
    refusals(), refused_numbers(), mended_pages();
    made_pages();
    return report("html");
}
