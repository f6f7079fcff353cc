/* Pages that are made at random, the same for a seed each time. */
#ifndef MADE_PAGES_H
#define MADE_PAGES_H

#include "fillaqut.h"

#include <stdio.h>
#include <stdlib.h>
#include <string.h>

/* The longest page. */
enum { MOST = 1 << 12 };

/* The page that was made last. */
extern uint8_t page[MOST];
extern size_t length;

/* Begins with this seed, and the texts of this file, which end in zero bytes. */
void begin(unsigned long long seed, FILE *texts);

/* A number below the bound, which is not 0. */
size_t below(size_t bound);

void make_page(void);

#endif
