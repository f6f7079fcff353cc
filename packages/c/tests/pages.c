/* Scans each tag and label of a long page over one table, and says what it found: packages/c/run counts the instructions. The
 * page is made of so many units, whose lines begin with the marker of a block quote, which the table leaves out.
 *
 * pages UNIT COUNT TAGS LABELS: how many tags and labels a unit has; the status is 1 where more or fewer are found.
 *
 * pages UNIT COUNT: the units are bullets of one line, and one run passes them all but the last, after which no space
 * stands. */
#include "fillaqut.h"
#include <stdio.h>
#include <stdlib.h>
#include <string.h>

static uint8_t *bytes;
static struct mds_skip *skips;
static size_t length, count;

static void *memory(size_t size) {
    void *made = malloc(size);
    if (!made)
        exit(2);
    return made;
}

/* The page, and its table: a skip for each line. */
static void make_page(const char *unit, size_t units) {
    size_t size = strlen(unit);
    length = units * size, bytes = memory(length), skips = memory(length * sizeof(*skips));
    for (size_t i = 0; i < units; i++)
        memcpy(bytes + i * size, unit, size);
    for (size_t i = 0; i < length; i++)
        if (i == 0 || bytes[i - 1] == '\n')
            skips[count++] = (struct mds_skip){i, bytes[i] == '>' ? 2 : 0};
}

static bool are_items(const char *unit, size_t units) {
    struct mds_line_call *calls = memory(units * sizeof(*calls));
    struct mds_line_answer *answers = memory(units * sizeof(*answers));
    struct mds_line_start start = {0};
    make_page(unit, units), bytes[length - 1] = 'x';
    for (size_t i = 0; i < units; i++)
        calls[i] = (struct mds_line_call){MDS_LIST, i};
    struct mds_line_run run = mds_run_line(bytes, length, &start, calls, units, answers, units);
    for (size_t i = 0; i < units; i++)
        if (answers[i].found != (i + 1 < units))
            return false;
    printf("%zu calls\n", run.count);
    return run.status == MDS_OK && run.count == units && start.place == (units - 1) * strlen(unit);
}

int main(int words, char **word) {
    if (words == 3)
        return are_items(word[1], strtoul(word[2], NULL, 10)) ? 0 : 1;
    if (words != 5)
        return 2;
    size_t units = strtoul(word[2], NULL, 10), tags = 0, labels = 0;
    uint8_t buffer[64];
    make_page(word[1], units);
    if (mds_check_skips(bytes, length, skips, count) != MDS_OK)
        return 1;
    for (size_t i = 0; i < length; i++)
        if (bytes[i] == '<')
            tags += mds_scan_html_tag_over_lines(bytes, length, i, skips, count, buffer, sizeof(buffer)).status == MDS_OK;
        else if (bytes[i] == '[')
            labels += mds_scan_link_label(bytes, length, i + 1, false, skips, count, buffer, sizeof(buffer)).status == MDS_OK;
    printf("%zu tags, %zu labels\n", tags, labels);
    return tags != units * strtoul(word[3], NULL, 10) || labels != units * strtoul(word[4], NULL, 10);
}
