/* Line starts: what is known of thematic breaks, numbers that no call has left, lines that are scanned call by call, by one run and by
 * two, and how far a line of many bullets is read. The rows of their calls are in packages/rows.tsv and packages/lines.tsv. */
#include "checks.h"
#include "machine.h"

#include <stdlib.h>
#include <string.h>

/* What one bullet shows of those after it. (5.2) */
static void items(void) {
    const uint8_t *bytes = given(BYTES, "- - foo", 7);
    struct mds_line_start start = {0};
    SAME(mds_line_list(bytes, 7, &start, 0).status, MDS_OK), SAME(mds_line_list(bytes, 7, &start, 2).status, MDS_OK);
    SAME(start.none_before > 2, true), SAME(start.behind_break, 0);
}

/* Section 4.1: a thematic break is not an item, and its offset is kept. */
static void breaks(void) {
    const uint8_t *bytes = given(BYTES, "*\t*\t*\t", 6);
    struct mds_line_start start = {0};
    SAME(mds_line_list(bytes, 6, &start, 0).status, MDS_NOTHING);
    SAME(start.behind_break, 1);
    SAME(mds_line_list(bytes, 6, &start, 0).status, MDS_NOTHING);
    SAME(start.behind_break, 1), SAME(start.none_before, 0);
}

/* The bytes of the longest line that is made, and room for what is left of it. */
enum { LONGEST = 40, AMPLE = 4 * LONGEST + 4 };

/* The calls by their number, as mds_run_line has them and then the others: what the status is, and whether the other fields
 * of the answer are 0. */
enum { RUN = 9, REST_OF, KINDS };

/* A run, with room for its answers. */
static struct mds_line_run run_of(const uint8_t *bytes, size_t length, struct mds_line_start *start, size_t number) {
    const struct mds_line_call calls[] = {{MDS_UPTO, number}, {MDS_LIST, number}, {MDS_QUOTE, 0}};
    struct mds_line_answer answers[3];
    return mds_run_line(bytes, length, start, calls, 3, answers, 3);
}

/* What is left, in a buffer that may be too short; MDS_NOTHING where what is returned is no answer. */
static struct mds_text rest_of(const uint8_t *bytes, size_t length, const struct mds_line_start *start, size_t number) {
    uint8_t buffer[AMPLE];
    size_t capacity = number % (AMPLE + 1);
    struct mds_text text = mds_line_rest(bytes, length, start, buffer, capacity);
    if (text.status == MDS_BAD_STATE)
        return text;
    bool is_within = text.taken == length - start->place && text.length <= start->pending + 4 * text.taken;
    if (!is_within || text.status != (text.length <= capacity ? MDS_OK : MDS_TOO_SHORT))
        text.status = MDS_NOTHING;
    return text;
}

struct refusal {
    uint32_t status;
    bool is_zero;
};

static struct refusal call(size_t kind, const uint8_t *bytes, size_t length, struct mds_line_start *start, size_t number) {
    struct mds_columns columns;
    struct mds_line_item item;
    struct mds_task task;
    struct mds_text text;
    struct mds_line_run run;
    struct mds_alert alert;
    switch (kind) {
    case 0: return (struct refusal){mds_line_space(bytes, length, start, number), true};
    case 1: columns = mds_line_space_up_to(bytes, length, start, number); return (struct refusal){columns.status, columns.columns == 0};
    case 2: return (struct refusal){mds_line_is_at_end(bytes, length, start), true};
    case 3: return (struct refusal){mds_line_quote(bytes, length, start), true};
    case 4:
        item = mds_line_list(bytes, length, start, number);
        return (struct refusal){item.status, item.delimiter == 0 && item.start == 0 && item.indent == 0};
    case 5:
        columns = mds_line_definition(bytes, length, start, number);
        return (struct refusal){columns.status, columns.columns == 0};
    case 6: return (struct refusal){mds_line_all_space(bytes, length, start), true};
    case 7: task = mds_line_task(bytes, length, start); return (struct refusal){task.status, !task.checked};
    case 8: alert = mds_line_alert(bytes, length, start); return (struct refusal){alert.status, alert.kind == 0};
    case RUN: run = run_of(bytes, length, start, number); return (struct refusal){run.status, run.count == 0};
    default:
        text = rest_of(bytes, length, start, number);
        return (struct refusal){text.status, text.taken == 0 && text.length == 0};
    }
}

/* Whether it is one of the statuses of a call on a state that is not wrong. */
static bool is_returned(size_t kind, struct refusal returned) {
    if (kind == RUN)
        return returned.status == MDS_OK || returned.status == MDS_SPACE_PENDING || returned.status == MDS_TOO_LARGE;
    if (kind == REST_OF)
        return returned.status == MDS_OK || returned.status == MDS_TOO_SHORT;
    return returned.status == MDS_OK || (returned.status == MDS_NOTHING && returned.is_zero);
}

/* Whether the numbers are refused where they have to be, and what is left is never refused. */
static bool is_safe(size_t kind, const uint8_t *bytes, size_t length, struct mds_line_start old, size_t number) {
    struct mds_line_start start = old;
    struct refusal returned = call(kind, bytes, length, &start, number);
    bool is_bad = old.place > length || old.pending > 3 || old.phase > 3;
    bool is_left = !memcmp(&start, &old, sizeof(start));
    if (is_bad || returned.status == MDS_BAD_STATE)
        return is_bad && returned.status == MDS_BAD_STATE && returned.is_zero && is_left;
    if ((kind == 4 || kind == 5) && number > SIZE_MAX - 16)
        return returned.status == MDS_TOO_LARGE && returned.is_zero && is_left;
    return is_returned(kind, returned) && start.place >= old.place && start.place <= length && start.pending <= 3 && start.phase <= 3;
}

/* Made numbers, the same in each run (xorshift). */
static uint64_t seed = 28;

static uint64_t made(uint64_t below) {
    seed ^= seed << 13, seed ^= seed >> 7, seed ^= seed << 17;
    return seed % below;
}

/* A line of bytes that the calls look at. */
static size_t make_line(char *text) {
    static const char parts[] = "  \t\t>>--*+1209.):x[]![ ] [x] [!TIP]\n\r\v\f~";
    size_t length = made(LONGEST + 1);
    for (size_t i = 0; i < length; i++)
        text[i] = parts[made(sizeof(parts) - 1)];
    return length;
}

static size_t edge(size_t which, size_t length) {
    const size_t edges[] = {0, 1, length, length + 1, SIZE_MAX};
    return edges[which];
}

/* Each field at each edge. */
static void edges(const char *text, size_t length) {
    const uint8_t *bytes = given(BYTES, text, length);
    for (size_t i = 0; i < 3125; i++) {
        const struct mds_line_start start = {
            edge(i % 5, length), edge(i / 5 % 5, length), edge(i / 25 % 5, length), edge(i / 125 % 5, length), edge(i / 625, length)};
        for (size_t kind = 0; kind < KINDS; kind++)
            for (size_t which = 0; which < 5; which++)
                SAME(is_safe(kind, bytes, length, start, edge(which, length)), true);
    }
}

static size_t field(size_t length) {
    switch (made(4)) {
    case 0: return made(4);
    case 1: return edge(made(5), length);
    case 2: return made(1 << 16) ? made(length + 2) : seed;
    default: return made(length + 1);
    }
}

/* A million made ones. */
static void wrong_states(void) {
    char text[LONGEST];
    for (size_t i = 0; i < 10000; i++) {
        size_t length = make_line(text);
        at_front = i % 2;
        const uint8_t *bytes = given(BYTES, text, length);
        for (size_t j = 0; j < 100; j++) {
            const struct mds_line_start start = {field(length), made(5), made(5), field(length), field(length)};
            SAME(is_safe(made(KINDS), bytes, length, start, field(length)), true);
        }
    }
}

/* One call of a run, as mds_run_line answers it. */
static struct mds_line_answer answer_of(
    struct mds_line_call called, const uint8_t *bytes, size_t length, struct mds_line_start *start) {
    struct mds_columns columns;
    struct mds_line_item item;
    switch (called.kind) {
    case MDS_SPACE: return (struct mds_line_answer){mds_line_space(bytes, length, start, called.number) == MDS_OK, 0, 0, 0};
    case MDS_UPTO:
        columns = mds_line_space_up_to(bytes, length, start, called.number);
        return (struct mds_line_answer){columns.status == MDS_OK, 0, 0, columns.columns};
    case MDS_EOL: return (struct mds_line_answer){mds_line_is_at_end(bytes, length, start) == MDS_OK, 0, 0, 0};
    case MDS_QUOTE: return (struct mds_line_answer){mds_line_quote(bytes, length, start) == MDS_OK, 0, 0, 0};
    case MDS_LIST:
        item = mds_line_list(bytes, length, start, called.number);
        return (struct mds_line_answer){item.status == MDS_OK, item.delimiter, item.start, item.indent};
    default:
        columns = mds_line_definition(bytes, length, start, called.number);
        return (struct mds_line_answer){columns.status == MDS_OK, 0, 0, columns.columns};
    }
}

/* What is left of the line: pending columns as spaces, then the bytes, tabs before a line ending written out. */
static size_t write_rest(const uint8_t *bytes, size_t length, struct mds_line_start start, uint8_t *rest) {
    size_t written = 0, column = start.phase;
    bool is_head = true;
    for (; written < start.pending; written++)
        rest[written] = ' ';
    for (size_t i = start.place; i < length; i++) {
        is_head = is_head && bytes[i] != '\n' && bytes[i] != '\r';
        size_t width = is_head && bytes[i] == '\t' ? 4 - column % 4 : 1;
        column += width;
        if (is_head && bytes[i] == '\t')
            memset(rest + written, ' ', width);
        else
            rest[written] = bytes[i];
        written += width;
    }
    return written;
}

enum { CALLS = 8 };

static bool are_equal(struct mds_line_answer one, struct mds_line_answer other) {
    return one.found == other.found && one.delimiter == other.delimiter && one.start == other.start && one.number == other.number;
}

/* What a run came to, with its answers and what it has left. */
struct ran {
    struct mds_line_run run;
    struct mds_line_answer answers[CALLS];
    struct mds_line_start start;
};

/* A run in parts, of which the first has so many calls. */
static struct ran ran_in(const uint8_t *bytes, size_t length, const struct mds_line_call *calls, size_t first) {
    struct ran ran = {.start = {0}};
    ran.run = mds_run_line(bytes, length, &ran.start, calls, first, ran.answers, first);
    if (ran.run.status == MDS_OK && first < CALLS) {
        ran.run = mds_run_line(bytes, length, &ran.start, calls + first, CALLS - first, ran.answers + first, CALLS - first);
        ran.run.count += first;
    }
    return ran;
}

/* A line call by call, as far as the run came; and both have left the same. */
static bool is_as_run(const uint8_t *bytes, size_t length, const struct mds_line_call *calls, const struct ran *ran) {
    static uint8_t left[AMPLE], rest[AMPLE];
    struct mds_line_start start = {0};
    for (size_t i = 0; i < ran->run.count; i++)
        if (!are_equal(answer_of(calls[i], bytes, length, &start), ran->answers[i]))
            return false;
    if ((ran->run.status == MDS_SPACE_PENDING) != (ran->run.count < CALLS && start.pending > 0))
        return false;
    size_t count = write_rest(bytes, length, start, left);
    struct mds_text text = mds_line_rest(bytes, length, &ran->start, rest, AMPLE);
    return !memcmp(&start, &ran->start, sizeof(start)) && text.status == MDS_OK && text.length == count && !memcmp(left, rest, count);
}

/* Both have made the same of the calls. */
static bool is_same_run(const struct ran *one, const struct ran *other) {
    bool is_same = one->run.status == other->run.status && one->run.count == other->run.count;
    for (size_t i = 0; is_same && i < one->run.count; i++)
        is_same = are_equal(one->answers[i], other->answers[i]);
    return is_same && !memcmp(&one->start, &other->start, sizeof(one->start));
}

/* A hundred thousand made lines. Most of the calls are of a parser that looks for containers. */
static void as_runs(void) {
    char text[LONGEST];
    for (size_t i = 0; i < 100000; i++) {
        struct mds_line_call calls[CALLS];
        size_t length = make_line(text);
        for (size_t j = 0; j < CALLS; j++)
            calls[j] = (struct mds_line_call){j % 2 ? (uint32_t)made(6) : MDS_UPTO, made(5)};
        at_front = i % 2;
        const uint8_t *bytes = given(BYTES, text, length);
        const struct ran ran = ran_in(bytes, length, calls, CALLS), parts = ran_in(bytes, length, calls, made(CALLS));
        SAME(is_as_run(bytes, length, calls, &ran), true), SAME(is_same_run(&ran, &parts), true);
    }
}

/* A line of bullets with spaces between, and how far a call at one of them may read: to the end of the page that its
 * bytes and the next few stand in. */
enum { BULLETS = 10000, EACH = 2, ALL = EACH * BULLETS + 1, NEAR = 16 };

static uint8_t *many_bullets(uint8_t bullet, uint8_t last) {
    uint8_t *line = reserved(ALL);
    if (!line || !allow(line, ALL, USABLE))
        abort();
    for (size_t i = 0; i < BULLETS; i++)
        line[EACH * i] = bullet, line[EACH * i + 1] = ' ';
    line[ALL - 1] = last;
    return line;
}

/* No bytes can be read but those of the pages that what is near to the place stands in. */
static void show_near(uint8_t *line, size_t place) {
    size_t page = page_size(), begin = place / page * page, end = (place + NEAR + page - 1) / page * page;
    if (!allow(line, ALL, UNUSABLE) || !allow(line + begin, (end < ALL ? end : ALL) - begin, READABLE))
        abort();
}

/* Each bullet in turn, after a first call that may read the whole line; what is known is kept, or forgotten. */
static bool are_items(uint8_t *line, bool is_kept) {
    struct mds_line_start start = {0};
    for (size_t i = 0; i < BULLETS; i++) {
        if (i > 0)
            show_near(line, start.place);
        if (!is_kept)
            start.none_before = start.behind_break = 0;
        struct mds_line_item item = mds_line_list(line, ALL, &start, start.place);
        if (item.status != MDS_OK || item.delimiter != '-' || start.place != EACH * (i + 1))
            return false;
    }
    return start.none_before <= ALL;
}

/* A thematic break, asked of again and again. */
static bool is_break(uint8_t *line, bool is_kept) {
    struct mds_line_start start = {0};
    for (size_t i = 0; i < BULLETS; i++) {
        if (i == 1)
            show_near(line, 0);
        if (!is_kept)
            start.behind_break = 0;
        if (mds_line_list(line, ALL, &start, 0).status != MDS_NOTHING || start.place != 0)
            return false;
    }
    return start.behind_break == 1;
}

typedef bool reading(uint8_t *line, bool is_kept);

/* How a line is read. */
struct line {
    reading *read;
    uint8_t bullet, last;
    bool is_kept;
};

static bool is_read(void *of) {
    const struct line *line = of;
    return line->read(many_bullets(line->bullet, line->last), line->is_kept);
}

static enum ending ending(reading *read, uint8_t bullet, uint8_t last, bool is_kept) {
    struct line line = {read, bullet, last, is_kept};
    return ending_of(is_read, &line);
}

static void many_are_read_once(void) {
    SAME(ending(are_items, '-', 'x', true), HOLDS), SAME(ending(are_items, '-', 'x', false), FAULTS);
    SAME(ending(is_break, '*', '*', true), HOLDS), SAME(ending(is_break, '*', '*', false), FAULTS);
}

static void rows(void) {
    items(), breaks();
    edges("", 0), edges(">\t- [x] :", 9), edges("* * *", 5);
}

int main(void) {
    rows();
    at_front = true;
    rows();
    wrong_states(), as_runs();
    many_are_read_once();
    return report("line_starts");
}
