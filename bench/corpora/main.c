/* WHAT FILE ROUNDS: makes WHAT of the page of FILE, so many times, and prints how many bytes of HTML or how many events that are, and the
 * nanoseconds of a round. With 0 rounds it writes the HTML. */
#include "side.h"

#include <stdio.h>
#include <stdlib.h>
#include <string.h>
#include <time.h>

void stop(const char *why) {
    fprintf(stderr, "%s\n", why);
    exit(EXIT_FAILURE);
}

void reserve(struct text *text, size_t capacity) {
    if (capacity <= text->capacity)
        return;
    text->bytes = realloc(text->bytes, capacity);
    if (text->bytes == NULL)
        stop("out of memory");
    text->capacity = capacity;
}

static struct text page_of(const char *path) {
    struct text page = {NULL, 0, 0};
    FILE *file = fopen(path, "rb");
    if (file == NULL)
        stop("there is no such page");
    do {
        reserve(&page, 2 * page.capacity + 4096);
        page.length += fread(page.bytes + page.length, 1, page.capacity - page.length, file);
    } while (page.length == page.capacity);
    if (ferror(file))
        stop("the page can't be read");
    fclose(file);
    return page;
}

static double nanoseconds(void) {
    struct timespec now;
    clock_gettime(CLOCK_MONOTONIC, &now);
    return 1e9 * (double)now.tv_sec + (double)now.tv_nsec;
}

int main(int count, char **words) {
    if (count != 4)
        stop("usage: WHAT FILE ROUNDS");
    struct text page = page_of(words[2]), html = {NULL, 0, 0};
    long rounds = atol(words[3]);
    if (rounds == 0) {
        make(words[1], page.bytes, page.length, &html);
        fwrite(html.bytes, 1, html.length, stdout);
        return fflush(stdout) || ferror(stdout) ? EXIT_FAILURE : EXIT_SUCCESS;
    }
    size_t events = 0;
    double begin = nanoseconds();
    for (long round = 0; round < rounds; round++)
        events = make(words[1], page.bytes, page.length, &html);
    printf("%zu %.0f\n", events ? events : html.length, (nanoseconds() - begin) / (double)rounds);
    free(page.bytes), free(html.bytes);
    return EXIT_SUCCESS;
}
