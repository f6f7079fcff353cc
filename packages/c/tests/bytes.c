/* What takes any bytes and answers by offsets in them, on all short strings over a few bytes, and on long ones of which only the
 * front can be read. The rows of these functions are in packages/rows.tsv. The expected values are worked out by hand from
 * CommonMark 0.31.2, or computed here in its words. */
#include "checks.h"
#include "machine.h"

#include <stdio.h>
#include <stdlib.h>
#include <string.h>

/* A line: what stands before the first LF or CR, and that ending; CR LF is one. (2.1) */
static size_t length_of_line(const char *bytes, size_t length) {
    size_t end = 0;
    while (end < length && bytes[end] != '\n' && bytes[end] != '\r')
        end++;
    if (end == length)
        return length;
    bool is_cr_lf = bytes[end] == '\r' && end + 1 < length && bytes[end + 1] == '\n';
    return end + (is_cr_lf ? 2 : 1);
}

/* A thematic break: three or more of one marker, with nothing but spaces and tabs between and after them. (4.1) */
static bool is_break(const char *bytes, size_t length) {
    size_t markers = 0;
    if (length == 0 || !strchr("*-_", bytes[0]))
        return false;
    for (size_t i = 0; i < length && bytes[i] != '\n' && bytes[i] != '\r'; i++) {
        if (bytes[i] == bytes[0])
            markers++;
        else if (bytes[i] != ' ' && bytes[i] != '\t')
            return false;
    }
    return markers >= 3;
}

/* Whether one of the lines is blank: it has nothing but spaces and tabs before its ending. (2.1) */
static bool has_blank_line(const char *bytes, size_t length) {
    for (size_t place = 0, line; place < length; place += line) {
        line = length_of_line(bytes + place, length - place);
        size_t blank = 0;
        while (blank < line && strchr(" \t\n\r", bytes[place + blank]))
            blank++;
        if (blank == line)
            return true;
    }
    return false;
}

/* A link title: straight quotes or parentheses, and between them neither of the two but after a backslash; it may go on over
 * lines, and not contain a blank one. (6.3) */
static size_t length_of_title(const char *bytes, size_t length) {
    size_t end = 1;
    if (length == 0 || !strchr("\"'(", bytes[0]))
        return MDS_NONE;
    char closing = bytes[0] == '(' ? ')' : bytes[0];
    while (end < length && bytes[end] != closing) {
        if (bytes[end] == bytes[0])
            return MDS_NONE;
        end += bytes[end] == '\\' && end + 1 < length && strchr("\\\"'()", bytes[end + 1]) ? 2 : 1;
    }
    return end < length && !has_blank_line(bytes, end + 1) ? end + 1 : MDS_NONE;
}

static void check_line(const char *bytes, size_t length) {
    size_t place = 0;
    const uint8_t *put = given(BYTES, bytes, length);
    while (place < length) {
        size_t line = mds_scan_line(put + place, length - place);
        SAME(line, length_of_line(bytes + place, length - place));
        place += line ? line : length;
    }
    SAME(place, length);
}

static void check_break(const char *bytes, size_t length) {
    const uint8_t *put = given(BYTES, bytes, length);
    struct mds_break found = mds_scan_hrule(put, length);
    SAME(found.length, is_break(bytes, length) ? length_of_line(bytes, length) : MDS_NONE);
    SAME(found.none_before <= (found.length == MDS_NONE ? length : 0), true);
    for (size_t place = 0; place < found.none_before && place < length; place++)
        SAME(is_break(bytes + place, length - place), false);
}

/* How many backticks stand at the front. */
static size_t backticks(const char *bytes, size_t length) {
    size_t count = 0;
    while (count < length && bytes[count] == '`')
        count++;
    return count;
}

/* A code span: a string of backticks, up to the first later one that is as long. (6.1) */
static size_t length_of_code(const char *bytes, size_t length) {
    size_t first = backticks(bytes, length), place = first;
    while (first > 0 && place < length) {
        size_t run = backticks(bytes + place, length - place);
        if (run == first)
            return place + run;
        place += run + (run == 0);
    }
    return MDS_NONE;
}

static void check_code(const char *bytes, size_t length) {
    struct mds_part found = mds_scan_code_span(given(BYTES, bytes, length), length, 0);
    SAME(found.status == MDS_OK ? found.end : MDS_NONE, length_of_code(bytes, length));
}

static void check_title(const char *bytes, size_t length) {
    struct mds_part found = mds_scan_link_title(given(BYTES, bytes, length), length, 0);
    SAME(found.status == MDS_OK ? found.end : MDS_NONE, length_of_title(bytes, length));
}

/* Each string of so many of the letters. */
static void each_string(const char *letters, size_t length, void check(const char *bytes, size_t length)) {
    size_t count = strlen(letters), strings = 1;
    char bytes[16];
    for (size_t i = 0; i < length; i++)
        strings *= count;
    for (size_t number = 0; number < strings; number++) {
        size_t rest = number;
        for (size_t i = 0; i < length; i++, rest /= count)
            bytes[i] = letters[rest % count];
        check(bytes, length);
    }
}

static void short_strings(void) {
    for (size_t length = 0; length <= 6; length++)
        each_string("a\n\r", length, check_line);
    for (size_t length = 0; length <= 5; length++)
        each_string("*- x\n", length, check_break);
    for (size_t length = 0; length <= 5; length++) {
        each_string("\"()\\ \n", length, check_title);
        each_string("'\\a\r\n", length, check_title);
    }
    for (size_t length = 0; length <= 10; length++)
        each_string("`a", length, check_code);
}

static void break_is(int line, struct mds_break found, size_t length, size_t none_before) {
    same(line, "length", found.length, length);
    same(line, "none before", found.none_before, none_before);
}

#define NO_BREAK(found, none_before) break_is(__LINE__, found, MDS_NONE, none_before)

static void part_is(int line, struct mds_part part, size_t end, size_t start, size_t length) {
    same(line, "status", part.status, MDS_OK);
    same(line, "end", part.end, end);
    same(line, "start", part.start, start);
    same(line, "length", part.length, length);
}

static void no_part(int line, struct mds_part part, uint32_t status) {
    same(line, "status", part.status, status);
    same(line, "end", part.end, 0);
    same(line, "start", part.start, 0);
    same(line, "length", part.length, 0);
}

#define PART(part, end, start, length) part_is(__LINE__, part, end, start, length)
#define NO_PART(part, status) no_part(__LINE__, part, status)

static void definition_is(
    int line, struct mds_reference_definition found, size_t end, size_t label_start, size_t label_length,
    size_t destination_start, size_t destination_length, size_t title_start, size_t title_length) {
    same(line, "status", found.status, MDS_OK), same(line, "end", found.end, end);
    same(line, "label start", found.label_start, label_start), same(line, "label length", found.label_length, label_length);
    same(line, "destination start", found.destination_start, destination_start);
    same(line, "destination length", found.destination_length, destination_length);
    same(line, "title start", found.title_start, title_start), same(line, "title length", found.title_length, title_length);
}

static void no_definition(int line, struct mds_reference_definition found, uint32_t status) {
    same(line, "status", found.status, status), same(line, "end", found.end, 0);
    same(line, "label", found.label_start + found.label_length, 0);
    same(line, "destination", found.destination_start + found.destination_length, 0);
    same(line, "title", found.title_start + found.title_length, 0);
}

#define DEFINITION(found, end, label, label_length, destination, length, title, title_length)                                  \
    definition_is(__LINE__, found, end, label, label_length, destination, length, title, title_length)
#define NO_DEFINITION(found, status) no_definition(__LINE__, found, status)

static void run_is(int line, struct mds_delimiter_run run, uint8_t byte, size_t count, bool can_open, bool can_close) {
    same(line, "status", run.status, MDS_OK), same(line, "byte", run.byte, byte), same(line, "count", run.count, count);
    same(line, "can open", run.can_open, can_open), same(line, "can close", run.can_close, can_close);
}

static void no_run(int line, struct mds_delimiter_run run, uint32_t status) {
    same(line, "status", run.status, status), same(line, "byte", run.byte, 0), same(line, "count", run.count, 0);
    same(line, "can open", run.can_open, false), same(line, "can close", run.can_close, false);
}

#define RUN(run, byte, count, can_open, can_close) run_is(__LINE__, run, byte, count, can_open, can_close)
#define NO_RUN(run, status) no_run(__LINE__, run, status)

/* What stands in front of a mebibyte that can't be read. Whoever reads a byte of that is ended. */
enum { FAR = 1 << 20 };

static const uint8_t *before_far(const char *front, size_t length) {
    uint8_t *pages = reserved(ROOM_SIZE + FAR);
    if (length > ROOM_SIZE || !pages || !allow(pages, ROOM_SIZE, USABLE)) {
        fprintf(stderr, "bytes: there is no room\n");
        exit(2);
    }
    return memcpy(pages + ROOM_SIZE - length, front, length);
}

/* Each link of a page of more than a mebibyte in one line: what stands after the link is not read, so k links of n bytes cost
 * k and not k n. */
static void long_lines(void) {
    static const char links[] = "[a](b) <ab:c> [[d|e]] [f](<g h>)";
    enum { EACH = sizeof(links) - 1, COUNT = ROOM_SIZE / EACH, READ = EACH * COUNT };
    static char front[READ];
    for (size_t i = 0; i < COUNT; i++)
        memcpy(front + i * EACH, links, EACH);
    const uint8_t *page = before_far(front, READ);
    for (size_t at = 0; at < READ; at += EACH) {
        PART(mds_scan_link_dest(page, READ + FAR, at + 4, 31), at + 5, at + 4, 1);
        PART(mds_scan_autolink(page, READ + FAR, at + 8), at + 13, at + 8, 4);
        PART(mds_scan_wikilink_pipe(page, READ + FAR, at + 16, 3), at + 18, at + 16, 1);
        PART(mds_scan_link_dest(page, READ + FAR, at + 26, 31), at + 31, at + 27, 3);
    }
}

/* The byte that decides is the last that can be read. */
static void last_bytes(void) {
    NO_PART(mds_scan_link_dest(before_far("<a<", 3), FAR, 0, 31), MDS_NOTHING);
    NO_PART(mds_scan_link_dest(before_far("<a\n", 3), FAR, 0, 31), MDS_NOTHING);
    NO_PART(mds_scan_link_dest(before_far("((", 2), FAR, 0, 0), MDS_NOTHING);
    PART(mds_scan_link_dest(before_far(")", 1), FAR, 0, 31), 0, 0, 0);
    PART(mds_scan_link_dest(before_far("<>", 2), FAR, 0, 31), 2, 1, 0);
    PART(mds_scan_link_title(before_far("'a\n b'", 6), FAR, 0), 6, 1, 4);
    NO_PART(mds_scan_link_title(before_far("(a(", 3), FAR, 0), MDS_NOTHING);
    NO_PART(mds_scan_link_title(before_far("\"a\n \n", 5), FAR, 0), MDS_NOTHING);
    NO_PART(mds_scan_link_title(before_far("\"a\r\r", 4), FAR, 0), MDS_NOTHING);
    NO_PART(mds_scan_link_title(before_far("a", 1), FAR, 0), MDS_NOTHING);
    NO_PART(mds_scan_autolink(before_far("a b", 2), FAR, 0), MDS_NOTHING);
    NO_PART(mds_scan_autolink(before_far("ab: ", 4), FAR, 0), MDS_NOTHING);
    NO_PART(mds_scan_autolink(before_far("abcdefghijklmnopqrstuvwxyzabcdefg", 33), FAR, 0), MDS_NOTHING);
    NO_BREAK(mds_scan_hrule(before_far("* * x", 5), FAR), 4);
    PART(mds_scan_email_autolink(before_far("a@b>", 4), FAR, 0), 4, 0, 3);
    NO_PART(mds_scan_email_autolink(before_far("a@b ", 4), FAR, 0), MDS_NOTHING);
    NO_DEFINITION(mds_scan_reference_definition(before_far("[a] ", 4), FAR, 0, 31), MDS_NOTHING);
    DEFINITION(mds_scan_reference_definition(before_far("[a]: b\nc", 8), FAR, 0, 31), 7, 1, 1, 5, 1, MDS_NONE, 0);
    RUN(mds_scan_delimiter_run(before_far("**abcd", 6), FAR, 0), '*', 2, true, false);
    NO_RUN(mds_scan_delimiter_run(before_far("a", 1), FAR, 0), MDS_NOTHING);
}

static void parts(void) {
    check_rooms();
    short_strings();
}

int main(void) {
    parts();
    at_front = true;
    parts();
    long_lines(), last_bytes();
    return report("bytes");
}
