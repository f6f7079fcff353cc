/* Requests to callgrind, which do nothing outside it, and the counters of count_allocations.so where it is preloaded. */
#define _GNU_SOURCE
#include <dlfcn.h>
#include <stddef.h>
#ifdef WITH_CALLGRIND
#include <valgrind/callgrind.h>
#else
#define CALLGRIND_ZERO_STATS
#define CALLGRIND_DUMP_STATS_AT(name) (void)(name)
#endif

void zero_instructions(void) { CALLGRIND_ZERO_STATS; }
void dump_instructions(const char *name) { CALLGRIND_DUMP_STATS_AT(name); }

static unsigned long counter(const char *name) {
  unsigned long *at = (unsigned long *)dlsym(RTLD_DEFAULT, name);
  return at ? *at : 0;
}

unsigned long allocations(void) { return counter("count_of_allocations"); }
unsigned long growths(void) { return counter("count_of_growths"); }
