/* Prints what each line of the input means, as packages/entities/meanings has it of packages/entities/asked: of a name its
 * meaning in HTML, or `none`; of a line that begins with `text `, the rest with its references resolved. Each call has the
 * room that the header says is enough, and no more. */
#include "fillaqut.h"

#include <stdio.h>
#include <stdlib.h>
#include <string.h>

static const char mark[] = "text ";
enum { MARK_LENGTH = sizeof(mark) - 1, REFERENCE_ROOM = 6 };

static void stop(const char *why) {
    fprintf(stderr, "entities: %s\n", why);
    exit(1);
}

static void *grown(void *old, size_t size) {
    void *memory = realloc(old, size);
    if (!memory)
        stop("memory is refused");
    return memory;
}

static void print(const uint8_t *text, size_t length) {
    if (fwrite(text, 1, length, stdout) != length || putchar('\n') == EOF)
        stop("the output can't be written");
}

/* The meaning of the reference `&name;`, which fills its memory. */
static void look_up(const uint8_t *name, size_t length) {
    size_t reference_length = length + 2;
    uint8_t *reference = grown(NULL, reference_length), meaning[REFERENCE_ROOM];
    reference[0] = '&';
    memcpy(reference + 1, name, length);
    reference[length + 1] = ';';
    struct mds_text found = mds_scan_entity(reference, reference_length, meaning, REFERENCE_ROOM);
    free(reference);
    if (found.status == MDS_NOTHING)
        print((const uint8_t *)"none", 4);
    else if (found.status == MDS_OK && found.taken == reference_length)
        print(meaning, found.length);
    else
        stop("a reference has another status or length");
}

static void resolve(const uint8_t *text, size_t length) {
    size_t capacity = length + length / 5;
    uint8_t *buffer = grown(NULL, capacity ? capacity : 1);
    struct mds_text made = mds_unescape(text, length, false, buffer, capacity);
    if (made.status != MDS_OK || made.taken != length)
        stop("a text has another status or length");
    print(buffer, made.length);
    free(buffer);
}

static void answer(const uint8_t *line, size_t length) {
    if (length >= MARK_LENGTH && !memcmp(line, mark, MARK_LENGTH))
        resolve(line + MARK_LENGTH, length - MARK_LENGTH);
    else
        look_up(line, length);
}

/* All of the input, in memory that it fills. */
static uint8_t *read_all(size_t *length) {
    size_t capacity = 1 << 16, count = 0;
    uint8_t *all = grown(NULL, capacity);
    for (size_t got; (got = fread(all + count, 1, capacity - count, stdin)) > 0;) {
        count += got;
        if (count == capacity)
            all = grown(all, capacity *= 2);
    }
    if (ferror(stdin) || count == 0)
        stop("the input can't be read");
    *length = count;
    return grown(all, count);
}

int main(void) {
    size_t length, place = 0;
    uint8_t *all = read_all(&length);
    while (place < length) {
        size_t next = place + mds_scan_nextline(all + place, length - place);
        answer(all + place, next - place - 1);
        place = next;
    }
    free(all);
    if (fflush(stdout))
        stop("the output can't be written");
    return 0;
}
