/* The rows of packages/lines.tsv, calls on line starts one after the other, with the line at both edges of its room; an empty line is
 * also given as a null pointer. */
#include "tables.h"

#include <string.h>

static struct text line;
static struct mds_line_start start, kept;
static const uint8_t *bytes;

/* What the line start has come to: its offset, its pending columns and its phase. */
static void is_at(const struct row *row) {
    const char *state = row->columns[4];
    const size_t numbers[] = {start.place, start.pending, start.phase};
    for (size_t i = 0; i < 3; i++) {
        if (!state)
            stop_at_row("the state is not three numbers");
        same(row->line, row->columns[4], numbers[i], number_of(state));
        state = after(state, ' ');
    }
}

static void check(const struct row *row) {
    const char *call = row->columns[1], *number = row->columns[2];
    if (strcmp(row->columns[0], "+") != 0) {
        read_text(row->columns[0], 0, &line);
        bytes = line.length || !at_front ? given(BYTES, line.bytes, line.length) : NULL;
        start = (struct mds_line_start){0};
    }
    begin_answer();
    if (strcmp(call, "copy") == 0)
        kept = start;
    else if (strcmp(call, "resume") == 0)
        start = kept;
    else if (!answers_line(row, call, bytes, line.length, &start, *number ? number_of(number) : 0))
        stop_at_row("no such call");
    is_answer(row, row->columns[3]);
    is_at(row);
}

int main(void) {
    check_rooms();
    each_row("lines.tsv", 5, NULL, check);
    return report("lines");
}
