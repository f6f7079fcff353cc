/* Checks that are counted, and rooms in memory between pages that can't be read or written. What a call is given stands at
 * an edge of such a room, after the page before it or before the page after it, so that a byte read or written past
 * that edge is a fault. What a call only reads can't be written; what it may write is UNTOUCHED at first. */
#ifndef CHECKS_H
#define CHECKS_H

#include "fillaqut.h"

/* A room for each thing that one call may be given. */
enum room { BYTES, OTHER_BYTES, LIST, BUFFER, REST, ROOMS };

enum { ROOM_SIZE = 4096, UNTOUCHED = 'z' };

/* At which edge things are put: after the page before the room, or before the page after it. */
extern bool at_front;

/* The file that has the lines of checks, where it is not the program's own. */
extern const char *checked_file;

/* Notes whether what was found is what was expected. */
void same(int line, const char *what, unsigned long long found, unsigned long long expected);

#define SAME(found, expected) same(__LINE__, #found, (unsigned long long)(found), (unsigned long long)(expected))

/* Prints how many checks have passed and failed, and answers the status of the program. */
int report(const char *name);

/* A copy of the bytes, which can't be written. */
const void *given(enum room room, const void *bytes, size_t size);

/* So many bytes that can be written. The whole room is UNTOUCHED. */
void *writable(enum room room, size_t size);

/* Whether the room is UNTOUCHED but for so many bytes from the front of what was last put there. */
bool is_left(enum room room, size_t written);

/* All bytes of the room. */
const uint8_t *whole(enum room room);

/* Checks that the edges are guarded, and that writing is seen. */
void check_rooms(void);

#define OF(literal) given(BYTES, literal, sizeof(literal) - 1), sizeof(literal) - 1
#define OTHER(literal) given(OTHER_BYTES, literal, sizeof(literal) - 1), sizeof(literal) - 1

#endif
