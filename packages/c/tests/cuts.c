/* Cuts hostile texts near their ends, scans the parts, and prints what the answers add up to. tests/differential/cuts.py counts the
 * same without the library. Bracketed sections are of CommonMark 0.31.2. */
#include "fillaqut.h"

#include <stdio.h>
#include <stdlib.h>
#include <string.h>

typedef unsigned long long number;

enum { MOST = 200, BULLETS = 10000, TABS = 100000, DEPTH = 1000, LONGEST = 100001 };

/* The parts of a text that is cut: what is left of it, or what is cut off. */
enum side { SUFFIX, PREFIX, FIRST, LAST, SIDES };

static const char *const SIDE_NAMES[SIDES] = {"without its first", "without its last", "only its first", "only its last"};

struct part {
    const char *bytes;
    size_t length;
};

static struct part part_of(const char *text, size_t length, enum side side, size_t count) {
    const size_t cut = count < length ? count : length;
    const bool is_at_end = side == SUFFIX || side == LAST, is_short = side == FIRST || side == LAST;
    const size_t taken = is_short ? cut : length - cut;
    return (struct part){is_at_end ? text + (length - taken) : text, taken};
}

/* Writes these bytes so often, and answers how many there are then. */
static size_t repeat(char *text, const char *bytes, size_t count) {
    const size_t length = strlen(bytes);
    for (size_t i = 0; i < count; i++)
        memcpy(text + i * length, bytes, length);
    return count * length;
}

/* ---- Inline HTML (6.6): a scan at each opener outside earlier finds ---- */

struct scans {
    number steps, finds, ends, passed, bound, breaches, differences;
};

static size_t places[LONGEST], ends[LONGEST], found_ends[LONGEST];

/* Adds the scans of a part, and answers how many there are. */
static size_t add_scans(struct part part, struct scans *sums) {
    struct mds_html_guard guard = {0, 0, 0, 0};
    size_t steps = 0, passed = 0, find_end = 0;
    for (size_t place = 0; place <= part.length; place++) {
        if (place < find_end)
            continue;
        const struct mds_end found = mds_scan_inline_html(part.bytes, part.length, place, &guard);
        if (found.status == MDS_NO_OPENER)
            continue;
        const bool is_found = found.status == MDS_OK;
        places[steps] = place, ends[steps] = is_found ? found.end : MDS_NONE;
        steps++, passed += found.passed;
        find_end = is_found ? found.end : find_end;
        sums->finds += is_found, sums->ends += is_found ? found.end : 0;
        sums->breaches += passed > 4 * part.length + 8 * steps;
    }
    sums->steps += steps, sums->passed += passed, sums->bound += 4 * part.length + 8 * steps;
    return steps;
}

/* Whether a run over the same places finds the same. */
static bool is_run_so(struct part part, size_t steps) {
    const struct mds_html_run run = mds_run_inline_html(part.bytes, part.length, places, steps, found_ends, steps);
    return run.status == MDS_OK && run.count == steps && memcmp(ends, found_ends, steps * sizeof *ends) == 0;
}

static void print_openers(char *text, const char *opener, size_t count) {
    const size_t length = repeat(text, opener, count);
    for (enum side side = SUFFIX; side < SIDES; side++) {
        struct scans sums = {0, 0, 0, 0, 0, 0, 0};
        for (size_t cut = 1; cut <= MOST; cut++) {
            const struct part part = part_of(text, length, side, cut);
            sums.differences += !is_run_so(part, add_scans(part, &sums));
        }
        printf("%zu times %s, %s 1 to %d bytes: %llu steps, %llu finds that end at %llu, passed %llu of %llu, %llu above the bound, %llu differ\n",
               count, opener, SIDE_NAMES[side], MOST, sums.steps, sums.finds, sums.ends, sums.passed, sums.bound, sums.breaches, sums.differences);
    }
}

/* ---- Lines: bullets (5.2) and tabs (2.2) ---- */

struct lines {
    number answers, columns, scanned, rest, stops;
};

static struct mds_line_answer answers[BULLETS];

/* Adds what these calls come to on a part. */
static void add_line(struct part part, const struct mds_line_call *calls, size_t count, struct lines *sums) {
    struct mds_line_start start = {0};
    const struct mds_line_run run = mds_run_line(part.bytes, part.length, &start, calls, count, answers, BULLETS);
    for (size_t i = 0; i < run.count; i++) {
        const bool is_item = answers[i].found && answers[i].delimiter == '-' && answers[i].start == 0;
        if (calls[i].kind == MDS_UPTO || is_item)
            sums->answers++, sums->columns += answers[i].number;
    }
    sums->scanned += start.place, sums->rest += part.length - start.place, sums->stops += run.status != MDS_OK;
}

static struct lines lines_of(const char *text, size_t length, enum side side, const struct mds_line_call *calls, size_t count) {
    struct lines sums = {0, 0, 0, 0, 0};
    for (size_t cut = 1; cut <= MOST; cut++)
        add_line(part_of(text, length, side, cut), calls, count, &sums);
    return sums;
}

static void print_bullets(char *text) {
    static struct mds_line_call calls[BULLETS];
    size_t length = repeat(text, "- ", BULLETS);
    text[length++] = 'x';
    for (size_t i = 0; i < BULLETS; i++)
        calls[i] = (struct mds_line_call){MDS_LIST, 0};
    for (enum side side = SUFFIX; side < SIDES; side++) {
        const struct lines sums = lines_of(text, length, side, calls, BULLETS);
        printf("%d bullets, %s 1 to %d bytes, %d calls: %llu answers of %llu columns, scanned %llu, rest %llu, %llu stops\n", BULLETS,
               SIDE_NAMES[side], MOST, BULLETS, sums.answers, sums.columns, sums.scanned, sums.rest, sums.stops);
    }
}

static void print_tabs(char *text) {
    const struct mds_line_call call = {MDS_UPTO, SIZE_MAX};
    size_t length = repeat(text, "\t", TABS);
    text[length++] = 'x';
    for (enum side side = SUFFIX; side < SIDES; side++) {
        const struct lines sums = lines_of(text, length, side, &call, 1);
        printf("%d tabs, %s 1 to %d bytes: %llu answers of %llu columns, scanned %llu, rest %llu, %llu stops\n", TABS, SIDE_NAMES[side], MOST,
               sums.answers, sums.columns, sums.scanned, sums.rest, sums.stops);
    }
}

/* ---- Link destinations (6.3), of parentheses alone ---- */

static void print_destinations(const char *text, size_t length, enum side side, size_t max_next) {
    number finds = 0, taken = 0;
    for (size_t cut = 1; cut <= MOST; cut++) {
        const struct part part = part_of(text, length, side, cut);
        const struct mds_part found = mds_scan_link_dest(part.bytes, part.length, 0, max_next);
        if (found.status == MDS_OK && found.start == 0 && found.length == found.end)
            finds++, taken += found.end;
    }
    printf("%d parentheses, %s 1 to %d bytes, most %zu: %llu finds of %llu bytes\n", DEPTH, SIDE_NAMES[side], MOST, max_next, finds, taken);
}

static void print_parentheses(char *text) {
    const size_t half = repeat(text, "(", DEPTH), length = half + repeat(text + half, ")", DEPTH);
    for (enum side side = SUFFIX; side < SIDES; side++) {
        print_destinations(text, length, side, DEPTH - 1);
        print_destinations(text, length, side, DEPTH - 2);
    }
}

/* ---- Short texts over lines (6.3, 6.6): what is left out after each line ending; and blank lines (2.2) ---- */

enum call { LABEL, LABEL_AFTER_LETTER, LABEL_SKIPPED, TAG_SKIPPED, BLANK_LINE };

/* The table of what is left out of a page: of each line after the first nothing, a leading X, or all that follows. */
static size_t skips_of(const char *page, size_t length, enum call call, struct mds_skip *skips) {
    size_t count = 0;
    for (size_t place = 1; place < length; place++) {
        const bool is_line = page[place - 1] == '\n' || (page[place - 1] == '\r' && page[place] != '\n');
        if (is_line && call == LABEL_AFTER_LETTER && page[place] == 'X')
            skips[count++] = (struct mds_skip){place, 1};
        if (is_line && (call == LABEL_SKIPPED || call == TAG_SKIPPED)) {
            skips[count++] = (struct mds_skip){place, length - place};
            return count;
        }
    }
    return count;
}

/* The label of which the part is what stands after its opening bracket. */
static void print_label(struct part part, enum call call) {
    char page[16] = "[", label[16];
    struct mds_skip skips[16];
    memcpy(page + 1, part.bytes, part.length);
    const size_t length = part.length + 1, count = skips_of(page, length, call, skips);
    const struct mds_label found = mds_scan_link_label(page, length, 1, false, skips, count, (uint8_t *)label, sizeof label);
    if (found.status == MDS_OK)
        printf("%zu %s %.*s\n", found.end - 1, found.start == MDS_NONE ? "built" : "lent", (int)found.length, label);
    else
        puts("none");
}

static void print_tag(struct part part) {
    struct mds_skip skips[16];
    uint8_t tag[16];
    const size_t count = skips_of(part.bytes, part.length, TAG_SKIPPED, skips);
    const struct mds_tag found = mds_scan_html_tag_over_lines(part.bytes, part.length, 0, skips, count, tag, sizeof tag);
    if (found.status == MDS_OK)
        printf("%zu\n", found.end);
    else
        puts("none");
}

static void print_answer(struct part part, enum call call) {
    if (call == TAG_SKIPPED) {
        print_tag(part);
    } else if (call == BLANK_LINE) {
        const size_t length = mds_scan_blank_line(part.bytes, part.length);
        length == MDS_NONE ? puts("none") : printf("%zu\n", length);
    } else {
        print_label(part, call);
    }
}

static void print_short(const char *name, const char *text, enum call call) {
    for (enum side side = SUFFIX; side <= PREFIX; side++)
        for (size_t cut = 0; cut <= strlen(text); cut++) {
            printf("%s, %s %zu bytes: ", name, SIDE_NAMES[side], cut);
            print_answer(part_of(text, strlen(text), side, cut), call);
        }
}

int main(void) {
    char *text = malloc(LONGEST);
    if (!text)
        return 3;
    print_openers(text, "<!--", 5000);
    print_openers(text, "<![CDATA[", 5000);
    print_openers(text, "<!a", 5000);
    print_openers(text, "<?", 5000);
    print_openers(text, "<!--<![CDATA[<!a<?", 1000);
    print_openers(text, "<!-->", 5000);
    print_bullets(text);
    print_tabs(text);
    print_parentheses(text);
    print_short("label over CR LF", "a\r\nb]", LABEL);
    print_short("label over LF, CR", "a\n\rb]", LABEL);
    print_short("label over CR, X, LF", "a\rX\nb]", LABEL_AFTER_LETTER);
    print_short("label of which all is skipped", "a\n]", LABEL_SKIPPED);
    print_short("tag of which all is skipped", "<a\n>", TAG_SKIPPED);
    print_short("blank line", "\r\r\n", BLANK_LINE);
    free(text);
    return 0;
}
