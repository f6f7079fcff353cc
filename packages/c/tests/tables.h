/* The tables of packages, files *.tsv, which the tests of all packages share. A program that reads one is run at the top of the tree;
 * what it can't read ends it. */
#ifndef TABLES_H
#define TABLES_H

#include "checks.h"

enum { MOST_COLUMNS = 7, LONGEST_TEXT = 2048 };

/* A row: its line in the file, and its columns as the file has them. */
struct row {
    int line;
    const char *columns[MOST_COLUMNS];
};

/* The bytes of a text, after which a zero byte stands. */
struct text {
    size_t length;
    uint8_t bytes[LONGEST_TEXT];
};

/* Checks each row of a table, such as "lines.tsv", with what calls are given at the end of its room, and then each with it at the front;
 * of the calls of that name alone, where one is named. Prints how many rows there are, and ends the program where there are none. */
void each_row(const char *table, size_t columns, const char *call, void check(const struct row *row));

/* Ends the program, since the row can't be read. */
void stop_at_row(const char *why);

/* The bytes of a text as the file has it, up to a byte that ends it. Answers where that stands. */
const char *read_text(const char *from, char end, struct text *text);

/* The number that a word is, or stands for: `max`, `none`, `true` and `false`. */
size_t number_of(const char *word);

/* What stands after the next such byte, or NULL where there is none. */
const char *after(const char *words, char byte);

/* What stands after the `=` of a field of an answer. */
const char *field_of(const char *answer, const char *name);

/* The status of that name. */
uint32_t status_of(const char *name);

/* The extensions of packages/extensions.tsv. */
enum { EVERY_EXTENSION = MDS_TABLES | MDS_FOOTNOTES | MDS_STRIKETHROUGH | MDS_TASKS | MDS_DEFINITION_LISTS | MDS_WIKILINKS };

/* Those that events and HTML are built of. */
enum { EVERY_BUILT = MDS_TABLES | MDS_STRIKETHROUGH | MDS_TASKS | MDS_WIKILINKS };

/* The extension that the word in front names, or 0. */
uint32_t extension_of(const char *words);

/* The extensions that these words ask for; a field of the setting of HTML is not one. */
uint32_t extensions_of(const char *words);

/* ---- What a call answers, as the tables have it ---- */

/* From here on it is empty. */
void begin_answer(void);

/* Adds a number, by its name where it is a field. */
void add(const char *name, size_t number);

/* Whether the status is MDS_OK. Any other is the answer, and then all fields are 0. */
bool is_ok(const struct row *row, uint32_t status, size_t all_fields);

void add_status(uint32_t status);

/* Checks that it is this one. */
void is_answer(const struct row *row, const char *expected);

/* Answers a call on a line start, without `mds_`, with its number where it takes one; false where there is no such call. */
bool answers_line(
    const struct row *row, const char *call, const void *bytes, size_t length, struct mds_line_start *start, size_t number);

#endif
