/* The rows of packages/runs.tsv, and runs on hostile input. Each row is run with buffers of every capacity from none to one more than
 * what is made needs, and with all that a run is given at the one edge of its room and at the other. */
#include "tables.h"

#include <string.h>

/* No row has more offsets, calls or answers. */
enum { MOST = 8 };

/* Of inline HTML, with the ends that it finds. */
static void html_run(
    int line, const struct text *text, const size_t *places, size_t place_count, uint32_t status, const size_t *ends, size_t count) {
    size_t length = text->length;
    const uint8_t *bytes = given(BYTES, text->bytes, length);
    const size_t *list = given(LIST, places, place_count * sizeof(size_t));
    for (size_t capacity = 0; capacity < count + 2; capacity++) {
        size_t *buffer = writable(BUFFER, capacity * sizeof(size_t));
        struct mds_html_run run = mds_run_inline_html(bytes, length, list, place_count, buffer, capacity);
        bool has_room = capacity >= count;
        size_t written = has_room ? count * sizeof(size_t) : 0;
        same(line, "status", run.status, has_room ? status : (uint32_t)MDS_TOO_SHORT);
        same(line, "count", run.count, count);
        same(line, "the ends are there", written == 0 || !memcmp(buffer, ends, written), true);
        same(line, "the rest is left", is_left(BUFFER, written), true);
    }
}

static void answers_are(int line, const struct mds_line_answer *found, const struct mds_line_answer *expected, size_t count) {
    for (size_t i = 0; i < count; i++) {
        same(line, "found", found[i].found, expected[i].found);
        same(line, "delimiter", found[i].delimiter, expected[i].delimiter);
        same(line, "start", found[i].start, expected[i].start);
        same(line, "number", found[i].number, expected[i].number);
    }
}

/* What a run from the front of a line is given. */
struct line {
    const uint8_t *bytes;
    size_t length;
    const struct mds_line_call *calls;
    size_t call_count;
};

/* What it comes to, and what it leaves. */
struct made {
    struct mds_line_run run;
    const struct mds_line_answer *answers;
    size_t place;
    const char *rest;
    size_t rest_length;
};

static bool is_front(struct mds_line_start start) {
    const struct mds_line_start front = {0};
    return !memcmp(&start, &front, sizeof(start));
}

/* With room for so many answers. */
static void line_run_in(int line, struct line of, struct made made, size_t capacity) {
    struct mds_line_answer *answers = writable(BUFFER, capacity * sizeof(*answers));
    struct mds_line_start start = {0};
    struct mds_line_run run = mds_run_line(of.bytes, of.length, &start, of.calls, of.call_count, answers, capacity);
    bool is_short = capacity < of.call_count && made.run.status != MDS_BAD_KIND;
    size_t count = is_short ? 0 : made.run.count;
    same(line, "status", run.status, is_short ? (uint32_t)MDS_TOO_SHORT : made.run.status);
    same(line, "count", run.count, count);
    same(line, "place", start.place, is_short ? 0 : made.place);
    same(line, "the line start is left", !is_short || is_front(start), true);
    answers_are(line, answers, made.answers, count);
    same(line, "the other answers are left", is_left(BUFFER, count * sizeof(*answers)), true);
}

/* What is left, with buffers of each capacity. */
static void rest_is(
    int line, const uint8_t *bytes, size_t length, const struct mds_line_start *start, const char *rest, size_t rest_length) {
    for (size_t capacity = 0; capacity < rest_length + 2; capacity++) {
        uint8_t *buffer = writable(REST, capacity);
        struct mds_text text = mds_line_rest(bytes, length, start, buffer, capacity);
        bool has_room = capacity >= rest_length;
        size_t written = has_room ? rest_length : 0;
        same(line, "status", text.status, has_room ? MDS_OK : MDS_TOO_SHORT);
        same(line, "taken", text.taken, length - start->place);
        same(line, "length", text.length, rest_length);
        same(line, "what is left is there", written == 0 || !memcmp(buffer, rest, written), true);
        same(line, "the rest of the buffer is left", is_left(REST, written), true);
    }
}

/* The first so many calls in one run, and the others in a second one. */
static void line_run_in_parts(int line, struct line of, struct made made, size_t first) {
    struct mds_line_answer *answers = writable(BUFFER, of.call_count * sizeof(*answers));
    struct mds_line_start start = {0};
    struct mds_line_run run = mds_run_line(of.bytes, of.length, &start, of.calls, first, answers, first);
    if (run.status == MDS_OK) {
        size_t others = of.call_count - first;
        run = mds_run_line(of.bytes, of.length, &start, of.calls + first, others, answers + first, others);
        run.count += first;
    }
    same(line, "status in parts", run.status, made.run.status);
    same(line, "count in parts", run.count, made.run.count);
    same(line, "place in parts", start.place, made.place);
    answers_are(line, answers, made.answers, made.run.count);
    rest_is(line, of.bytes, of.length, &start, made.rest, made.rest_length);
}

/* The numbers of words between spaces. Answers how many there are. */
static size_t numbers_of(const char *words, size_t *numbers) {
    size_t count = 0;
    for (const char *word = *words ? words : NULL; word; word = after(word, ' ')) {
        if (count == MOST)
            stop_at_row("it has more numbers than there is space for");
        numbers[count++] = number_of(word);
    }
    return count;
}

static void check_html(const struct row *row) {
    static struct text text;
    size_t places[MOST], ends[MOST];
    read_text(row->columns[1], 0, &text);
    size_t place_count = numbers_of(row->columns[2], places), count = numbers_of(row->columns[5], ends);
    html_run(row->line, &text, places, place_count, status_of(row->columns[6]), ends, count);
}

/* The kind that a call of a run has, by its name, or the number that stands in its place. */
static uint32_t kind_of(const char *word) {
    static const char *const names[] = {"space", "space_up_to", "is_at_end", "quote", "list", "definition"};
    for (uint32_t kind = 0; kind < sizeof(names) / sizeof(*names); kind++)
        if (strncmp(word, names[kind], strlen(names[kind])) == 0 && word[strlen(names[kind])] == '=')
            return kind;
    return (uint32_t)number_of(word);
}

static size_t calls_of(const char *words, struct mds_line_call *calls) {
    size_t count = 0;
    for (const char *word = *words ? words : NULL; word; word = after(word, ' ')) {
        const char *number = after(word, '=');
        if (count == MOST || !number)
            stop_at_row("it has more calls than there is space for, or one without a number");
        calls[count++] = (struct mds_line_call){kind_of(word), number_of(number)};
    }
    return count;
}

static size_t answers_of(const char *words, struct mds_line_answer *answers) {
    size_t count = 0;
    for (const char *word = *words ? words : NULL; word; word = after(word, ' ')) {
        size_t numbers[4];
        for (size_t i = 0; i < 4; i++) {
            if (count == MOST || !word)
                stop_at_row("it has more answers than there is space for, or one without four numbers");
            numbers[i] = number_of(word), word = i < 3 ? after(word, ',') : word;
        }
        answers[count++] = (struct mds_line_answer){numbers[0] != 0, (uint8_t)numbers[1], numbers[2], numbers[3]};
    }
    return count;
}

static void check_run(const struct row *row) {
    static struct text text, rest;
    struct mds_line_call calls[MOST];
    struct mds_line_answer answers[MOST];
    read_text(row->columns[1], 0, &text), read_text(row->columns[4], 0, &rest);
    size_t call_count = calls_of(row->columns[2], calls), count = answers_of(row->columns[5], answers);
    const struct line of = {
        given(BYTES, text.bytes, text.length), text.length, given(LIST, calls, call_count * sizeof(*calls)), call_count};
    uint32_t status = status_of(row->columns[6]);
    const struct made made = {{status, count}, answers, number_of(row->columns[3]), (const char *)rest.bytes, rest.length};
    for (size_t capacity = 0; capacity < call_count + 2; capacity++)
        line_run_in(row->line, of, made, capacity);
    for (size_t first = 0; first <= call_count && status != MDS_BAD_KIND; first++)
        line_run_in_parts(row->line, of, made, first);
}

/* What is left from an offset with these columns pending, where the column of the offset modulo four is the phase. */
static void check_rest(const struct row *row) {
    static struct text text, rest;
    size_t numbers[MOST];
    read_text(row->columns[1], 0, &text), read_text(row->columns[4], 0, &rest);
    if (numbers_of(row->columns[2], numbers) != 3 || status_of(row->columns[6]) != MDS_OK)
        stop_at_row("a line start is not three numbers, or is refused");
    const struct mds_line_start start = {numbers[0], numbers[1], numbers[2], 0, 0};
    const uint8_t *bytes = given(BYTES, text.bytes, text.length);
    rest_is(row->line, bytes, text.length, given(LIST, &start, sizeof(start)), (const char *)rest.bytes, rest.length);
}

static void check(const struct row *row) {
    const char *call = row->columns[0];
    if (strcmp(call, "run_inline_html") == 0)
        check_html(row);
    else if (strcmp(call, "run_line") == 0)
        check_run(row);
    else if (strcmp(call, "line_rest") == 0)
        check_rest(row);
    else
        stop_at_row("no such call");
}

static void null_pointers(void) {
    struct mds_html_run ends = mds_run_inline_html(NULL, 0, NULL, 0, NULL, 0);
    SAME(ends.status, MDS_OK), SAME(ends.count, 0);
    struct mds_line_start start = {0};
    struct mds_line_run run = mds_run_line(NULL, 0, &start, NULL, 0, NULL, 0);
    SAME(run.status, MDS_OK), SAME(run.count, 0), SAME(is_front(start), true);
}

/* A run from the front of a line of which these things are known, true or not: what comes before the first MDS_LIST is answered as
 * where nothing is known, and MDS_LIST is made. */
static void untrue_breaks(size_t none_before, size_t behind_break) {
    const struct mds_line_call calls[] = {{MDS_QUOTE, 0}, {MDS_UPTO, 3}, {MDS_EOL, 0}, {MDS_LIST, 0}};
    const struct mds_line_answer expected[] = {{true, 0, 0, 0}, {true, 0, 0, 2}, {false, 0, 0, 0}};
    struct mds_line_answer answers[4] = {{0}};
    struct mds_line_start start = {0, 0, 0, none_before, behind_break};
    struct mds_line_run run = mds_run_line(OF(">\t- x"), &start, calls, 3, answers, 3);
    SAME(run.status, MDS_OK), SAME(run.count, 3);
    SAME(start.place, 2), SAME(start.pending, 0), SAME(start.phase, 0);
    answers_are(__LINE__, answers, expected, 3);
    start = (struct mds_line_start){0, 0, 0, none_before, behind_break};
    run = mds_run_line(OF(">\t- x"), &start, calls, 4, answers, 4);
    SAME(run.status, MDS_OK), SAME(run.count, 4);
    answers_are(__LINE__, answers, expected, 3);
}

static void all_untrue_breaks(void) {
    untrue_breaks(0, 1), untrue_breaks(5, 0), untrue_breaks(1, 3);
    untrue_breaks(6, 6), untrue_breaks(0, SIZE_MAX), untrue_breaks(SIZE_MAX, SIZE_MAX);
}

/* A line start whose offset is past the end. */
static void refusals(void) {
    struct mds_line_start bad = {2, 0, 0, 0, 0};
    SAME(mds_line_rest(OF("x"), &bad, NULL, 0).status, MDS_BAD_STATE);
    struct mds_line_run run = mds_run_line(OF("x"), &bad, (const struct mds_line_call[]){{6, 0}}, 1, NULL, 0);
    SAME(run.status, MDS_BAD_STATE), SAME(run.count, 0), SAME(bad.place, 2);
}

int main(void) {
    each_row("runs.tsv", 7, NULL, check);
    null_pointers(), all_untrue_breaks(), refusals();
    at_front = true;
    null_pointers(), all_untrue_breaks(), refusals();
    return report("runs");
}
