/* The inlines of texts, on the rows of packages/pages.tsv; refused texts, labels and extensions; and made texts, whose inlines nest and,
 * joined, are the text, whatever the order of the labels. */
#include "tables.h"

#include <stdio.h>
#include <string.h>

enum { MOST = 46, LONGEST = 64, LABELS = 2 };

struct definition {
    struct text label, destination, title;
};

static char said[4096];

static void say(const char *text, size_t length) {
    size_t at = strlen(said);
    memcpy(said + at, text, length), said[at + length] = 0;
}

static void say_word(const char *word) {
    say(word, strlen(word));
}

/* A text without its escapes and references. */
static void say_meaning(const char *text, size_t length) {
    uint8_t buffer[2 * LONGEST];
    struct mds_text meaning = mds_unescape(text, length, false, buffer, sizeof(buffer));
    say((const char *)buffer, meaning.length);
}

/* The text of a code span: line endings are spaces, and one space at each end is left out, unless all are spaces. (6.1) */
static void say_code(const char *text, size_t length) {
    char code[2 * LONGEST];
    bool is_blank = true;
    for (size_t i = 0; i < length; i++) {
        code[i] = text[i] == '\n' ? ' ' : text[i];
        is_blank &= code[i] == ' ';
    }
    bool is_padded = !is_blank && code[0] == ' ' && code[length - 1] == ' ';
    say_word("<code>"), say(code + is_padded, length - 2 * is_padded), say_word("</code>");
}

static void say_address(const char *scheme, const char *text, size_t length) {
    say_word("<a "), say_word(scheme), say(text, length), say_word("|>"), say(text, length), say_word("</>");
}

/* The definitions of a row. */
static struct definition definitions[LABELS];
static size_t defined;

/* The first definition whose label matches the one at the offset, which is as long as the link says. */
static const struct definition *defined_as(int example, const char *text, const struct mds_inline *it) {
    uint8_t buffer[LONGEST];
    struct mds_label label = mds_scan_link_label(text, strlen(text), it->label_start, false, NULL, 0, buffer, LONGEST);
    same(example, "label", label.status, MDS_OK), same(example, "its end", label.end, it->label_start + it->label_length + 1);
    for (size_t i = 0; i < defined; i++)
        if (mds_labels_match(buffer, label.length, definitions[i].label.bytes, definitions[i].label.length) == MDS_OK)
            return &definitions[i];
    same(example, "definition", false, true);
    return definitions;
}

static void say_target(int example, const char *text, const struct mds_inline *it) {
    say_word(it->kind == MDS_INLINE_IMAGE ? "<img " : "<a ");
    if (it->target == MDS_TARGET_WIKI) {
        say(text + it->destination_start, it->destination_length), say_word("|");
    } else if (it->target == MDS_TARGET_INLINE) {
        say_meaning(text + it->destination_start, it->destination_length), say_word("|");
        if (it->title_start != MDS_NONE)
            say_meaning(text + it->title_start, it->title_length);
    } else {
        const struct definition *found = defined_as(example, text, it);
        say_meaning((const char *)found->destination.bytes, found->destination.length), say_word("|");
        say_meaning((const char *)found->title.bytes, found->title.length);
    }
    say_word(">");
}

static void say_inline(int example, const char *text, const struct mds_inline *it) {
    const char *bytes = text + it->start;
    switch (it->kind) {
    case MDS_INLINE_ESCAPE:
    case MDS_INLINE_REFERENCE: say_meaning(bytes, it->length); break;
    case MDS_INLINE_CODE: say_code(bytes + it->count, it->length - 2 * it->count); break;
    case MDS_INLINE_URI: say_address("", bytes + 1, it->length - 2); break;
    case MDS_INLINE_EMAIL: say_address("mailto:", bytes + 1, it->length - 2); break;
    case MDS_INLINE_HTML: say_word("<html>"), say(bytes, it->length), say_word("</html>"); break;
    case MDS_INLINE_SOFT_BREAK: say_word("\n"); break;
    case MDS_INLINE_HARD_BREAK: say_word("<br>"); break;
    case MDS_INLINE_EMPHASIS: say_word("<em>"); break;
    case MDS_INLINE_EMPHASIS_END: say_word("</em>"); break;
    case MDS_INLINE_STRONG: say_word("<strong>"); break;
    case MDS_INLINE_STRONG_END: say_word("</strong>"); break;
    case MDS_INLINE_STRIKETHROUGH: say_word("<del>"); break;
    case MDS_INLINE_STRIKETHROUGH_END: say_word("</del>"); break;
    case MDS_INLINE_LINK:
    case MDS_INLINE_IMAGE: say_target(example, text, it); break;
    case MDS_INLINE_LINK_END: say_word("</>"); break;
    default: same(example, "kind", it->kind, MDS_INLINE_TEXT), say(bytes, it->length);
    }
}

/* What is asked for. */
static uint32_t extensions;

/* The inlines of the text, which are written where there is room for all of them, and nowhere else. */
static size_t inlines_of(
    int example, const char *text, size_t length, const struct mds_view *views, size_t count, struct mds_inline *inlines) {
    const void *bytes = given(BYTES, text, length);
    const struct mds_view *labels = given(LIST, views, count * sizeof(*views));
    size_t found = mds_scan_inlines(bytes, length, labels, count, extensions, NULL, 0).count, size = found * sizeof(*inlines);
    same(example, "fits", found <= MOST && found <= length, true);
    for (size_t less = 0; less < 2 && less <= found; less++) {
        void *buffer = writable(BUFFER, size);
        struct mds_inlines returned = mds_scan_inlines(bytes, length, labels, count, extensions, buffer, found - less);
        same(example, "status", returned.status, less ? MDS_TOO_SHORT : MDS_OK);
        same(example, "count", returned.count, found);
        same(example, "is_left", is_left(BUFFER, less ? 0 : size), true);
        if (!less)
            memcpy(inlines, buffer, size);
    }
    return found;
}

/* What is asked for: extensions, and definitions of three fields each. */
static void read_asked(const struct row *row) {
    extensions = 0, defined = 0;
    for (const char *word = *row->columns[2] ? row->columns[2] : NULL; word; word = after(word, ' ')) {
        if (extension_of(word)) {
            extensions |= extension_of(word);
        } else {
            if (defined == LABELS)
                stop_at_row("it has more definitions than there is space for");
            struct definition *definition = &definitions[defined++];
            read_text(field_of(word, "label"), ' ', &definition->label);
            read_text(field_of(word, "destination"), ' ', &definition->destination);
            read_text(field_of(word, "title"), ' ', &definition->title);
            word = field_of(word, "title");
        }
    }
}

/* Where something begins and ends: a link or an image with its destination and its title, as it leads there. */
static void check(const struct row *row) {
    static struct text given_text, answer;
    struct mds_inline inlines[MOST];
    struct mds_view views[LABELS];
    read_text(row->columns[1], 0, &given_text), read_text(row->columns[3], 0, &answer);
    read_asked(row);
    const char *text = (const char *)given_text.bytes;
    for (size_t i = 0; i < defined; i++)
        views[i] = (struct mds_view){definitions[i].label.bytes, definitions[i].label.length};
    size_t count = inlines_of(row->line, text, given_text.length, views, defined, inlines);
    said[0] = 0;
    for (size_t i = 0; i < count; i++)
        say_inline(row->line, text, &inlines[i]);
    same(row->line, said, strcmp(said, (const char *)answer.bytes) == 0, true);
}

/* One inline with these numbers; all other numbers are 0. */
static void is_inline(int line, const struct mds_inline *found, struct mds_inline expected) {
    same(line, "kind", found->kind, expected.kind), same(line, "target", found->target, expected.target);
    same(line, "start", found->start, expected.start), same(line, "length", found->length, expected.length);
    same(line, "count", found->count, expected.count), same(line, "end", found->end, expected.end);
    same(line, "destination_start", found->destination_start, expected.destination_start);
    same(line, "destination_length", found->destination_length, expected.destination_length);
    same(line, "title_start", found->title_start, expected.title_start);
    same(line, "title_length", found->title_length, expected.title_length);
    same(line, "label_start", found->label_start, expected.label_start);
    same(line, "label_length", found->label_length, expected.label_length);
}

#define IS(found, ...) is_inline(__LINE__, &(found), (struct mds_inline){__VA_ARGS__})

/* Places are those of the bytes that they name. */
static void places(void) {
    static const char links[] = "![a](<b> 'c') [d]( e )", references[] = "![a][b c] [B  C][] [b c]", others[] = "``a`` **b** \\*";
    static const struct mds_view labels[] = {{"b c", 3}};
    struct mds_inline it[MOST];
    SAME(inlines_of(0, links, sizeof(links) - 1, NULL, 0, it), 7);
    IS(it[0], MDS_INLINE_IMAGE, MDS_TARGET_INLINE, 0, 2, 0, 13, 6, 1, 10, 1, 0, 0);
    IS(it[1], .start = 2, .length = 1);
    IS(it[2], MDS_INLINE_LINK_END, .start = 3, .length = 10);
    IS(it[4], MDS_INLINE_LINK, MDS_TARGET_INLINE, 14, 1, 0, 22, 19, 1, MDS_NONE, 0, 0, 0);
    IS(it[6], MDS_INLINE_LINK_END, .start = 16, .length = 6);
    SAME(inlines_of(0, references, sizeof(references) - 1, labels, 1, it), 11);
    IS(it[0], MDS_INLINE_IMAGE, MDS_TARGET_FULL, 0, 2, .end = 9, .label_start = 5, .label_length = 3);
    IS(it[2], MDS_INLINE_LINK_END, .start = 3, .length = 6);
    IS(it[4], MDS_INLINE_LINK, MDS_TARGET_COLLAPSED, 10, 1, .end = 18, .label_start = 11, .label_length = 4);
    IS(it[6], MDS_INLINE_LINK_END, .start = 15, .length = 3);
    IS(it[8], MDS_INLINE_LINK, MDS_TARGET_SHORTCUT, 19, 1, .end = 24, .label_start = 20, .label_length = 3);
    IS(it[10], MDS_INLINE_LINK_END, .start = 23, .length = 1);
    SAME(inlines_of(0, others, sizeof(others) - 1, NULL, 0, it), 7);
    IS(it[0], MDS_INLINE_CODE, .length = 5, .count = 2);
    IS(it[2], MDS_INLINE_STRONG, .start = 6, .length = 2);
    IS(it[4], MDS_INLINE_STRONG_END, .start = 9, .length = 2);
    IS(it[6], MDS_INLINE_ESCAPE, .start = 12, .length = 2);
}

/* (GFM 6.5) */
static void places_of_strikethrough(void) {
    struct mds_inline it[MOST];
    extensions = MDS_STRIKETHROUGH;
    SAME(inlines_of(0, "~~a~~ ~b~", 9, NULL, 0, it), 7);
    IS(it[0], MDS_INLINE_STRIKETHROUGH, .length = 2);
    IS(it[2], MDS_INLINE_STRIKETHROUGH_END, .start = 3, .length = 2);
    IS(it[4], MDS_INLINE_STRIKETHROUGH, .start = 6, .length = 1);
    IS(it[6], MDS_INLINE_STRIKETHROUGH_END, .start = 8, .length = 1);
    extensions = 0;
}

/* By their grammar: two brackets, a target of some bytes without a bracket, a pipe or a line ending, perhaps a pipe and a text. */
static void places_of_wikilinks(void) {
    struct mds_inline it[MOST];
    extensions = MDS_WIKILINKS;
    SAME(inlines_of(0, "![[ab|c]][[d]]", 14, NULL, 0, it), 5);
    IS(it[0], MDS_INLINE_IMAGE, MDS_TARGET_WIKI, .length = 6, .end = 9, .destination_start = 3, .destination_length = 2);
    IS(it[2], MDS_INLINE_LINK_END, .start = 7, .length = 2);
    IS(it[3], MDS_INLINE_LINK, MDS_TARGET_WIKI, 9, 3, .end = 14, .destination_start = 11, .destination_length = 1);
    IS(it[4], MDS_INLINE_LINK_END, .start = 12, .length = 2);
    extensions = 0;
}

static void is_refused(int line, const char *text, size_t length, const char *label, size_t label_length) {
    struct mds_view view = {given(OTHER_BYTES, label, label_length), label_length};
    const struct mds_view *labels = given(LIST, &view, sizeof(view));
    struct mds_inlines found =
        mds_scan_inlines(given(BYTES, text, length), length, labels, 1, 0, writable(BUFFER, 880), 10);
    same(line, "status", found.status, MDS_NOT_UTF8), same(line, "count", found.count, 0);
    same(line, "is_left", is_left(BUFFER, 0), true);
}

static void refusals(void) {
    static const struct mds_view empty[] = {{NULL, 0}, {"", 0}};
    static const uint32_t others[] = {1, 3, 32, EVERY_EXTENSION + 1, 0x80000000, 0x80000002, UINT32_MAX};
    is_refused(__LINE__, "a\xff", 2, "b", 1), is_refused(__LINE__, "\xc3", 1, "b", 1);
    is_refused(__LINE__, "a", 1, "b\xff", 2), is_refused(__LINE__, "[b]", 3, "\xe1\xba", 2);
    SAME(mds_scan_inlines(NULL, 0, NULL, 0, 0, NULL, 0).status, MDS_OK), SAME(mds_scan_inlines(NULL, 0, NULL, 0, 0, NULL, 0).count, 0);
    SAME(mds_scan_inlines(OF("[]"), empty, 2, 0, NULL, 0).count, 2);
    SAME(mds_scan_inlines(OF("[]"), empty, 2, 0, NULL, 0).status, MDS_TOO_SHORT);
    for (size_t i = 0; i < sizeof(others) / sizeof(*others); i++) {
        SAME(mds_scan_inlines(OF("a"), NULL, 0, others[i], writable(BUFFER, 880), 10).status, MDS_BAD_KIND);
        SAME(is_left(BUFFER, 0), true);
        SAME(mds_scan_inlines(OF("\xff"), NULL, 0, others[i], NULL, 0).status, MDS_BAD_KIND);
        SAME(mds_scan_inlines(NULL, 0, NULL, 0, others[i], NULL, 0).count, 0);
    }
}

static uint64_t seed = 9;

static size_t made(size_t below) {
    seed ^= seed << 13, seed ^= seed >> 7, seed ^= seed << 17;
    return seed % below;
}

/* A text of the pieces that inlines begin with. */
static size_t make_text(char *text) {
    static const char *const pieces[] = {
        "*", "**", "_", "`", "``", "[", "![", "]", "](b)", "[a]", "][a]", "[]", "\\", "&amp;", "<a>", "<b@c>", "\n", "  \n", "a", " ",
        "\xc3\xa4", "~", "~~", "[[a|", "]]"};
    size_t length = 0, most = made(MOST);
    for (;;) {
        const char *piece = pieces[made(sizeof(pieces) / sizeof(*pieces))];
        if (length + strlen(piece) > most)
            return length;
        memcpy(text + length, piece, strlen(piece)), length += strlen(piece);
    }
}

/* The inlines, joined, are the text, and they nest. */
static void are_whole(const struct mds_inline *inlines, size_t count, size_t length) {
    uint32_t open[MOST];
    size_t place = 0, depth = 0;
    for (size_t i = 0; i < count; i++) {
        uint32_t kind = inlines[i].kind;
        SAME(inlines[i].start, place), SAME(inlines[i].length > 0, true);
        place += inlines[i].length;
        if (kind == MDS_INLINE_EMPHASIS || kind == MDS_INLINE_STRONG || kind == MDS_INLINE_STRIKETHROUGH)
            open[depth++] = kind + 1;
        else if (kind == MDS_INLINE_LINK || kind == MDS_INLINE_IMAGE)
            SAME(inlines[i].end <= length, true), open[depth++] = MDS_INLINE_LINK_END;
        else if (kind > MDS_INLINE_HARD_BREAK)
            SAME(depth > 0 && open[depth - 1] == kind, true), depth -= depth > 0;
    }
    SAME(place, length), SAME(depth, 0);
}

/* Labels match in any case, and neither a label that is not in the text nor an empty one changes anything; nor do extensions of blocks. */
static void made_texts(void) {
    static const struct mds_view one[] = {{"a", 1}}, others[] = {{"c", 1}, {"A", 1}, {"", 0}, {"a", 1}};
    struct mds_inline inlines[MOST], same_ones[MOST];
    char text[LONGEST];
    for (size_t i = 0; i < 20000; i++) {
        size_t length = make_text(text), labels = made(2);
        at_front = i % 2, extensions = (made(2) ? MDS_STRIKETHROUGH : 0) | (made(2) ? MDS_WIKILINKS : 0);
        size_t count = inlines_of(0, text, length, one, labels, inlines);
        are_whole(inlines, count, length);
        extensions |= EVERY_EXTENSION & ~(MDS_STRIKETHROUGH | MDS_WIKILINKS);
        SAME(inlines_of(0, text, length, one, labels, same_ones), count);
        SAME(memcmp(inlines, same_ones, count * sizeof(*inlines)), 0);
        if (labels) {
            SAME(inlines_of(0, text, length, others, 3, same_ones), count);
            SAME(memcmp(inlines, same_ones, count * sizeof(*inlines)), 0);
            SAME(inlines_of(0, text, length, others + 2, 2, same_ones), count);
            SAME(memcmp(inlines, same_ones, count * sizeof(*inlines)), 0);
        }
    }
}

static void others(void) {
    extensions = 0;
    places(), places_of_strikethrough(), places_of_wikilinks(), refusals();
}

int main(void) {
    each_row("pages.tsv", 5, "scan_inlines", check);
    others();
    at_front = true;
    others();
    made_texts();
    return report("inlines");
}
