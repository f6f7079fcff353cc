/* Counts what a program asks the heap for; preloaded. */
#include <errno.h>
#include <stddef.h>

extern void *__libc_malloc(size_t);
extern void *__libc_calloc(size_t, size_t);
extern void *__libc_realloc(void *, size_t);
extern void *__libc_memalign(size_t, size_t);

unsigned long count_of_allocations, count_of_growths;

void *malloc(size_t size) {
  count_of_allocations++;
  return __libc_malloc(size);
}

void *calloc(size_t count, size_t size) {
  count_of_allocations++;
  return __libc_calloc(count, size);
}

void *realloc(void *old, size_t size) {
  count_of_growths++;
  return __libc_realloc(old, size);
}

void *aligned_alloc(size_t alignment, size_t size) {
  count_of_allocations++;
  return __libc_memalign(alignment, size);
}

int posix_memalign(void **out, size_t alignment, size_t size) {
  count_of_allocations++;
  *out = __libc_memalign(alignment, size);
  return *out ? 0 : ENOMEM;
}
