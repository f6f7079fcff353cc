/* Scans of inline HTML on made texts: what section 6.6 of CommonMark 0.31.2 says of each place, found here by a plain search;
 * a million guards that no call has left; and how many bytes the calls of a text pass over under a guard that is all 0 at first. */
#include "checks.h"

#include <stdlib.h>
#include <string.h>

enum { LONGEST = 48, NONE = LONGEST + 1 };

static uint64_t seed = 6;

static size_t made(size_t below) {
    seed ^= seed << 13, seed ^= seed >> 7, seed ^= seed << 17;
    return seed % below;
}

/* A text of the pieces that comments, CDATA sections, declarations and instructions are made of. */
static size_t make_text(char *text) {
    static const char *const pieces[] = {"<!", "<?", "--", "-", ">", "[CDATA[", "]]>", "]", "?>", "a", "\n", "\xC3\xA9"};
    size_t length = 0, most = made(LONGEST);
    for (;;) {
        const char *piece = pieces[made(sizeof pieces / sizeof *pieces)];
        if (length + strlen(piece) > most)
            return length;
        memcpy(text + length, piece, strlen(piece)), length += strlen(piece);
    }
}

static bool stands(const char *text, size_t length, size_t place, const char *bytes) {
    return place <= length && length - place >= strlen(bytes) && memcmp(text + place, bytes, strlen(bytes)) == 0;
}

/* The end of the first one of these bytes at the place or after it. */
static size_t closed(const char *text, size_t length, size_t place, const char *bytes) {
    for (; place <= length; place++)
        if (stands(text, length, place, bytes))
            return place + strlen(bytes);
    return NONE;
}

static bool is_letter(uint8_t byte) {
    return (byte >= 'a' && byte <= 'z') || (byte >= 'A' && byte <= 'Z');
}

/* The end of what begins with the `<!` or `<?` after which the place is. */
static size_t plain_end(const char *text, size_t length, size_t place) {
    if (text[place - 1] == '?')
        return closed(text, length, place, "?>");
    if (stands(text, length, place, "--"))
        return closed(text, length, place, "-->");
    if (stands(text, length, place, "[CDATA["))
        return closed(text, length, place + 7, "]]>");
    return place < length && is_letter((uint8_t)text[place]) ? closed(text, length, place + 1, ">") : NONE;
}

static bool is_opener(const char *text, size_t length, size_t place) {
    return place >= 2 && place <= length && (stands(text, length, place - 2, "<!") || stands(text, length, place - 2, "<?"));
}

static bool is_unchanged(struct mds_html_guard one, struct mds_html_guard other) {
    return one.comment == other.comment && one.cdata == other.cdata && one.declaration == other.declaration
        && one.processing == other.processing;
}

/* 0, 1, the length, one more, the largest number, or any. */
static size_t number(size_t length) {
    const size_t numbers[] = {0, 1, length, length + 1, SIZE_MAX, made(length + 2)};
    return numbers[made(sizeof numbers / sizeof *numbers)];
}

/* Whatever the guard: no opener, nothing, or the end that a plain search finds, and at most eight bytes more than there are. */
static bool is_safe(const char *text, size_t length, const void *bytes) {
    const struct mds_html_guard before = {number(length), number(length), number(length), number(length)};
    const size_t place = made(8) ? made(length + 1) : number(length);
    struct mds_html_guard guard = before;
    const struct mds_end found = mds_scan_inline_html(bytes, length, place, &guard);
    if (!is_opener(text, length, place))
        return found.status == MDS_NO_OPENER && found.end == 0 && found.passed == 0 && is_unchanged(guard, before);
    if (found.passed > length + 8)
        return false;
    return found.status == MDS_NOTHING ? found.end == 0 : found.status == MDS_OK && found.end == plain_end(text, length, place);
}

static void wrong_guards(void) {
    char text[LONGEST];
    for (size_t i = 0; i < 10000; i++) {
        const size_t length = make_text(text);
        at_front = i % 2;
        const void *bytes = given(BYTES, text, length);
        for (size_t j = 0; j < 100; j++)
            SAME(is_safe(text, length, bytes), true);
    }
}

/* Under a guard that is all 0 at first each opener outside earlier finds has the end of a plain search. */
static void scan_text(const char *text, size_t length, const void *bytes) {
    struct mds_html_guard guard = {0};
    size_t passed = 0, calls = 0;
    for (size_t place = 2; place <= length; place++) {
        if (!is_opener(text, length, place))
            continue;
        const size_t expected = plain_end(text, length, place);
        const struct mds_end found = mds_scan_inline_html(bytes, length, place, &guard);
        SAME(found.status, expected == NONE ? MDS_NOTHING : MDS_OK);
        SAME(found.end, expected == NONE ? 0 : expected);
        passed += found.passed, calls++;
        if (found.status == MDS_OK)
            place = found.end - 1;
    }
    SAME(passed <= 4 * length + 8 * calls, true);
}

static void whole_texts(void) {
    char text[LONGEST];
    for (size_t i = 0; i < 100000; i++) {
        const size_t length = make_text(text);
        at_front = i % 2;
        scan_text(text, length, given(BYTES, text, length));
    }
}

static const struct mds_html_guard zero = {0, 0, 0, 0};

static void guard_is(int line, struct mds_html_guard found, struct mds_html_guard expected) {
    same(line, "guard", memcmp(&found, &expected, sizeof(found)), 0);
}

static void ends_under_a_guard(void) {
    struct mds_html_guard guard = zero;
    static const char text[] = "<!-- a --> <!b> <![CDATA[c]]> <?d?> <!-- e";
    static const size_t places[][2] = {{2, 10}, {13, 15}, {18, 29}, {32, 35}};
    size_t length = sizeof(text) - 1, passed = 0;
    for (size_t i = 0; i < 4; i++) {
        struct mds_end found = mds_scan_inline_html(given(BYTES, text, length), length, places[i][0], &guard);
        SAME(found.status, MDS_OK), SAME(found.end, places[i][1]), passed += found.passed;
    }
    struct mds_end found = mds_scan_inline_html(given(BYTES, text, length), length, 38, &guard);
    SAME(found.status, MDS_NOTHING), SAME(found.end, 0), SAME(guard.comment, length);
    SAME(passed + found.passed <= 4 * length + 8 * 5, true);
    guard = (struct mds_html_guard){1, 2, 3, SIZE_MAX};
    found = mds_scan_inline_html(given(BYTES, text, length), length, 3, &guard);
    SAME(found.status, MDS_NO_OPENER), SAME(found.end, 0), SAME(found.passed, 0);
    guard_is(__LINE__, guard, (struct mds_html_guard){1, 2, 3, SIZE_MAX});
}

/* Whatever numbers the guard has, what is returned is the find or nothing. */
static void any_guard(void) {
    static const char text[] = "<!-- a --><![CDATA[b]]><!c><?d?>";
    static const size_t places[][2] = {{2, 10}, {12, 23}, {25, 27}, {29, 32}};
    size_t length = sizeof(text) - 1;
    const size_t numbers[] = {0, 1, length, length + 1, SIZE_MAX};
    const uint8_t *bytes = given(BYTES, text, length);
    for (size_t i = 0; i < 5 * 5 * 5 * 5; i++)
        for (size_t j = 0; j < 4; j++) {
            struct mds_html_guard guard = {numbers[i % 5], numbers[i / 5 % 5], numbers[i / 25 % 5], numbers[i / 125]};
            struct mds_end found = mds_scan_inline_html(bytes, length, places[j][0], &guard);
            bool is_found = found.status == MDS_OK && found.end == places[j][1];
            SAME(is_found || (found.status == MDS_NOTHING && found.end == 0), true);
            SAME(found.passed <= length + 8, true);
        }
}

enum { MEGABYTE = 1 << 20 };

/* One guard for a megabyte of lines that open what nothing closes. */
static void many_openers(const char *line) {
    size_t size = strlen(line), length = MEGABYTE / size * size, count = 0, passed = 0, found = 0;
    struct mds_html_guard guard = zero;
    uint8_t *bytes = malloc(length);
    SAME(bytes != NULL, true);
    if (!bytes)
        return;
    for (size_t i = 0; i < length; i++)
        bytes[i] = (uint8_t)line[i % size];
    for (size_t i = 0; i < length; i++)
        if (bytes[i] == '<') {
            struct mds_end end = mds_scan_inline_html(bytes, length, i + 2, &guard);
            count++, passed += end.passed, found += end.status != MDS_NOTHING;
        }
    SAME(found, 0), SAME(passed >= length - 2, true), SAME(passed <= 4 * length + 8 * count, true);
    free(bytes);
}

static void budgets(void) {
    many_openers("<!-- a\n");
    many_openers("<![CDATA[\n");
    many_openers("<!A\n");
    many_openers("<?\n");
    many_openers("<!-- a\n<![CDATA[\n<!A\n<?\n");
}

int main(void) {
    ends_under_a_guard(), any_guard();
    at_front = true;
    ends_under_a_guard(), any_guard(), budgets();
    wrong_guards();
    whole_texts();
    return report("guards");
}
