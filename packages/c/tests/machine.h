/* Memory by pages, and calls that may fault in it: what is not the same under POSIX and under Windows. */
#ifndef MACHINE_H
#define MACHINE_H

#include <stdbool.h>
#include <stddef.h>
#include <stdint.h>

/* How memory may be used. */
enum access { UNUSABLE, READABLE, USABLE };

size_t page_size(void);

/* So many bytes that are UNUSABLE, from the beginning of a page on; or null. */
uint8_t *reserved(size_t size);

/* Whether the pages with these bytes may be used so from here on. */
bool allow(uint8_t *at, size_t size, enum access access);

/* How a call ends: it is true, or not, or reads or writes what it must not. */
enum ending { HOLDS, FAILS, FAULTS, LOST };

enum ending ending_of(bool call(void *of), void *of);

#endif
