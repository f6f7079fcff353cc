/* Refuses one request for memory, of those that the library and the extension make, and counts the library's that are not given back. It is
 * linked into an extension with --wrap of the four functions below. */
#include <stddef.h>

#define EXPORTED __attribute__((visibility("default")))

void *__real_malloc(size_t size);
void *__real_realloc(void *memory, size_t size);
void __real_free(void *memory);
void *__real_database_memory(size_t size);

void *__wrap_malloc(size_t size);
void *__wrap_realloc(void *memory, size_t size);
void __wrap_free(void *memory);
void *__wrap_database_memory(size_t size);
EXPORTED int refuse_memory(long after);
EXPORTED long held_memory(void);

static long left = -1, held;
static int was_refused;

/* Refuses the request after so many others, or with -1 none; and whether one has been refused since it was last called. */
int refuse_memory(long after) {
    int was = was_refused;
    left = after, was_refused = 0;
    return was;
}

long held_memory(void) { return held; }

static int is_refused(void) {
    int is = left == 0;
    if (left >= 0) left--;
    was_refused |= is;
    return is;
}

void *__wrap_malloc(size_t size) {
    void *made = is_refused() ? NULL : __real_malloc(size);
    held += made != NULL;
    return made;
}

void *__wrap_realloc(void *memory, size_t size) {
    void *made = is_refused() ? NULL : __real_realloc(memory, size);
    held += !memory && made;
    return made;
}

void __wrap_free(void *memory) {
    held -= memory != NULL;
    __real_free(memory);
}

void *__wrap_database_memory(size_t size) { return is_refused() ? NULL : __real_database_memory(size); }
