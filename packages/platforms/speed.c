/* speed FILE: how many milliseconds of the processor the HTML of the file takes, the least of 15 calls. */
#include "fillaqut.h"

#include <stdio.h>
#include <stdlib.h>
#include <time.h>

enum { MOST = 1 << 26, CALLS = 15 };

static void stop(const char *why) {
    fprintf(stderr, "speed: %s\n", why);
    exit(2);
}

int main(int count, char **words) {
    char *page = malloc(MOST);
    uint8_t *html = malloc(4 * (size_t)MOST);
    FILE *file = count == 2 ? fopen(words[1], "rb") : NULL;
    if (!page || !html || !file)
        stop("usage: speed FILE");
    size_t length = fread(page, 1, MOST, file);
    double least = 0;
    for (int call = 0; call < CALLS; call++) {
        clock_t begun = clock();
        if (mds_html(page, length, MDS_TABLES, html, 4 * (size_t)MOST).status != MDS_OK)
            stop("the page has no HTML");
        double took = 1e3 * (double)(clock() - begun) / CLOCKS_PER_SEC;
        least = call == 0 || took < least ? took : least;
    }
    printf("%.1f\n", least);
    return 0;
}
