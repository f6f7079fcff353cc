#include "tables.h"

#include <inttypes.h>
#include <stdio.h>
#include <stdlib.h>
#include <string.h>

enum { LONGEST_LINE = 4 * LONGEST_TEXT, LONGEST_ANSWER = 512 };

static char line[LONGEST_LINE], path[64], answer[LONGEST_ANSWER];
static struct row row;

void stop_at_row(const char *why) {
    fprintf(stderr, "%s, line %d: %s\n", path, row.line, why);
    exit(2);
}

/* The line in its columns. */
static void split(size_t columns) {
    char *column = line;
    for (size_t i = 0; i < columns; i++) {
        char *tab = strchr(column, '\t');
        if ((tab == NULL) != (i + 1 == columns))
            stop_at_row("it has more columns or fewer");
        row.columns[i] = column;
        if (tab)
            *tab = 0, column = tab + 1;
    }
}

/* Whether there is a next row, which is read then. */
static bool is_next(FILE *file, size_t columns) {
    do {
        if (!fgets(line, sizeof(line), file))
            return false;
        row.line++;
        char *end = strchr(line, '\n');
        if (!end)
            stop_at_row("it is too long, or has no end");
        *end = 0;
    } while (*line == '#');
    split(columns);
    return true;
}

/* Checks the rows at one edge. Answers how many there are. */
static size_t rows_of(FILE *file, size_t columns, const char *call, void check(const struct row *row)) {
    size_t count = 0;
    rewind(file), row.line = 0;
    while (is_next(file, columns))
        if (!call || strcmp(row.columns[0], call) == 0)
            check(&row), count++;
    return count;
}

void each_row(const char *table, size_t columns, const char *call, void check(const struct row *row)) {
    snprintf(path, sizeof(path), "packages/%s", table);
    FILE *file = fopen(path, "r");
    if (!file)
        stop_at_row("the table can't be opened");
    size_t count = 0;
    bool edge = at_front;
    checked_file = path;
    for (at_front = false; !at_front; at_front = true)
        count = rows_of(file, columns, call, check);
    rows_of(file, columns, call, check);
    checked_file = NULL, at_front = edge;
    fclose(file);
    if (count == 0)
        stop_at_row("the table has no such row");
    printf("%s%s%s: %zu rows\n", table, call ? " " : "", call ? call : "", count);
}

/* The byte that an escape stands for, of which `from` is after the backslash. */
static uint8_t escaped(const char **from) {
    unsigned byte;
    int taken = 0;
    char kind = *(*from)++;
    if (kind == 'x' && sscanf(*from, "%2x%n", &byte, &taken) == 1 && taken == 2)
        return *from += 2, (uint8_t)byte;
    if (!kind || !strchr("nrt\\", kind))
        stop_at_row("no such escape");
    return kind == 'n' ? '\n' : kind == 'r' ? '\r' : kind == 't' ? '\t' : '\\';
}

const char *read_text(const char *from, char end, struct text *text) {
    size_t length = 0;
    while (*from && *from != end) {
        uint8_t byte = (uint8_t)*from++;
        if (length + 1 == LONGEST_TEXT)
            stop_at_row("a text is too long");
        text->bytes[length++] = byte == '\\' ? escaped(&from) : byte;
    }
    text->length = length, text->bytes[length] = 0;
    return from;
}

static bool is_word(const char *word, const char *name) {
    size_t length = strlen(name);
    return strncmp(word, name, length) == 0 && (!word[length] || strchr(" ,=", word[length]));
}

size_t number_of(const char *word) {
    char *end;
    if (is_word(word, "max") || is_word(word, "none"))
        return SIZE_MAX;
    if (is_word(word, "true") || is_word(word, "false"))
        return *word == 't';
    size_t number = (size_t)strtoumax(word, &end, 10);
    if (end == word || (*end && !strchr(" ,=", *end)))
        stop_at_row("a word is not a number");
    return number;
}

const char *after(const char *words, char byte) {
    const char *found = strchr(words, byte);
    return found ? found + 1 : NULL;
}

const char *field_of(const char *fields, const char *name) {
    for (const char *field = fields; field; field = after(field, ' '))
        if (is_word(field, name))
            return field + strlen(name) + 1;
    stop_at_row("the answer has no such field");
    return NULL;
}

uint32_t status_of(const char *name) {
    for (uint32_t status = MDS_OK; status <= MDS_BAD_STATE; status++)
        if (strcmp(mds_status_name(status), name) == 0)
            return status;
    stop_at_row("there is no such status");
    return MDS_OK;
}

uint32_t extension_of(const char *words) {
    static const char *const names[] = {"tables", "footnotes", "strikethrough", "tasks", "definition-lists", "wikilinks"};
    static const uint32_t bits[] = {MDS_TABLES, MDS_FOOTNOTES, MDS_STRIKETHROUGH, MDS_TASKS, MDS_DEFINITION_LISTS, MDS_WIKILINKS};
    for (size_t i = 0; i < sizeof(names) / sizeof(*names); i++)
        if (is_word(words, names[i]))
            return bits[i];
    return 0;
}

/* Whether the word in front is a field of the setting of HTML. */
static bool is_of_setting(const char *words) {
    static const char *const names[] = {"scheme", "raw_html", "rel", "images_as_links"};
    for (size_t i = 0; i < sizeof(names) / sizeof(*names); i++)
        if (is_word(words, names[i]))
            return true;
    return false;
}

uint32_t extensions_of(const char *words) {
    uint32_t asked = 0;
    for (const char *word = *words ? words : NULL; word; word = after(word, ' ')) {
        if (!extension_of(word) && !is_of_setting(word))
            stop_at_row("there is no such extension");
        asked |= extension_of(word);
    }
    return asked;
}

void begin_answer(void) {
    *answer = 0;
}

void add(const char *name, size_t number) {
    size_t end = strlen(answer);
    snprintf(answer + end, sizeof(answer) - end, "%s%s%s", end ? " " : "", name, *name ? "=" : "");
    end = strlen(answer);
    if (number == MDS_NONE)
        snprintf(answer + end, sizeof(answer) - end, "none");
    else
        snprintf(answer + end, sizeof(answer) - end, "%zu", number);
}

void add_status(uint32_t status) {
    snprintf(answer, sizeof(answer), "%s", mds_status_name(status));
}

bool is_ok(const struct row *of, uint32_t status, size_t all_fields) {
    if (status == MDS_OK)
        return true;
    add_status(status);
    same(of->line, "the fields of a refusal", all_fields, 0);
    return false;
}

void is_answer(const struct row *of, const char *expected) {
    bool is_same = strcmp(answer, expected) == 0;
    if (!is_same)
        fprintf(stderr, "%s, line %d: the answer is %s, expected: %s\n", path, of->line, answer, expected);
    same(of->line, "the answer", is_same, true);
}

static void add_item(const struct row *of, struct mds_line_item item) {
    if (is_ok(of, item.status, item.delimiter | item.start | item.indent))
        add("delimiter", item.delimiter), add("start", item.start), add("indent", item.indent);
}

/* An answer of one number. */
static void add_found(const struct row *of, const char *name, uint32_t status, size_t number) {
    if (is_ok(of, status, number))
        add(name, number);
}

/* A call whose answer is a number. */
static bool answers_line_number(
    const struct row *of, const char *call, const void *bytes, size_t length, struct mds_line_start *start, size_t number) {
    if (strcmp(call, "line_space_up_to") == 0) {
        struct mds_columns found = mds_line_space_up_to(bytes, length, start, number);
        add_found(of, "columns", found.status, found.columns);
    } else if (strcmp(call, "line_definition") == 0) {
        struct mds_columns found = mds_line_definition(bytes, length, start, number);
        add_found(of, "columns", found.status, found.columns);
    } else if (strcmp(call, "line_task") == 0) {
        struct mds_task found = mds_line_task(bytes, length, start);
        add_found(of, "checked", found.status, found.checked);
    } else if (strcmp(call, "line_alert") == 0) {
        struct mds_alert found = mds_line_alert(bytes, length, start);
        add_found(of, "kind", found.status, found.kind);
    } else {
        return false;
    }
    return true;
}

bool answers_line(
    const struct row *of, const char *call, const void *bytes, size_t length, struct mds_line_start *start, size_t number) {
    if (strcmp(call, "line_space") == 0)
        add_status(mds_line_space(bytes, length, start, number));
    else if (strcmp(call, "line_all_space") == 0)
        add_status(mds_line_all_space(bytes, length, start));
    else if (strcmp(call, "line_is_at_end") == 0)
        add_status(mds_line_is_at_end(bytes, length, start));
    else if (strcmp(call, "line_quote") == 0)
        add_status(mds_line_quote(bytes, length, start));
    else if (strcmp(call, "line_list") == 0)
        add_item(of, mds_line_list(bytes, length, start, number));
    else
        return answers_line_number(of, call, bytes, length, start, number);
    return true;
}
