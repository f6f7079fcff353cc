/* What a program of `bench/corpora/run` makes of a page: each side has a `make` of its own, and main.c makes it again and again. */
#ifndef SIDE_H
#define SIDE_H
#include <stddef.h>

/* HTML in memory, which is used again from round to round. */
struct text {
    char *bytes;
    size_t length, capacity;
};

/* Room for so many bytes; the program ends where memory is refused. */
void reserve(struct text *text, size_t capacity);

void stop(const char *why);

/* Makes `what` of a page: its HTML in `html`, or its events, of which it returns how many they are, and 0 for HTML. */
size_t make(const char *what, const char *page, size_t length, struct text *html);
#endif
