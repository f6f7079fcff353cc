#include "checks.h"
#include "machine.h"

#include <stdio.h>
#include <stdlib.h>
#include <string.h>

bool at_front;
const char *checked_file;

static unsigned long long passed, failed;
static uint8_t *rooms[ROOMS];
static size_t puts_at[ROOMS];

void same(int line, const char *what, unsigned long long found, unsigned long long expected) {
    if (found == expected) {
        passed++;
        return;
    }
    failed++;
    const char *edge = at_front ? "front" : "end", *file = checked_file ? checked_file : "";
    fprintf(stderr, "%s%sline %d, at the %s: %s is %llu and not %llu\n", file, *file ? ", " : "", line, edge, what, found, expected);
}

int report(const char *name) {
    printf("%s: %llu passed, %llu failed\n", name, passed, failed);
    return failed != 0;
}

static void stop(const char *why) {
    fprintf(stderr, "checks: %s\n", why);
    exit(2);
}

static void protect(uint8_t *room, enum access access) {
    if (!allow(room, ROOM_SIZE, access))
        stop("a room can't be protected");
}

/* A room that can be written, between two pages that are no one's. */
static uint8_t *new_room(void) {
    size_t page = page_size();
    if (ROOM_SIZE % page)
        stop("a room is not made of whole pages");
    uint8_t *pages = reserved(ROOM_SIZE + 2 * page);
    if (!pages)
        stop("memory is refused");
    return pages + page;
}

/* The place of so many bytes in the room, all of which can be written. */
static uint8_t *place_in(enum room room, size_t size) {
    if (size > ROOM_SIZE)
        stop("what is put in a room is larger");
    if (!rooms[room])
        rooms[room] = new_room();
    protect(rooms[room], USABLE);
    memset(rooms[room], UNTOUCHED, ROOM_SIZE);
    puts_at[room] = at_front ? 0 : ROOM_SIZE - size;
    return rooms[room] + puts_at[room];
}

const void *given(enum room room, const void *bytes, size_t size) {
    uint8_t *place = place_in(room, size);
    if (size)
        memcpy(place, bytes, size);
    protect(rooms[room], READABLE);
    return place;
}

void *writable(enum room room, size_t size) {
    return place_in(room, size);
}

bool is_left(enum room room, size_t written) {
    size_t begin = puts_at[room], end = begin + written;
    for (size_t i = 0; i < ROOM_SIZE; i++)
        if ((i < begin || i >= end) && rooms[room][i] != UNTOUCHED)
            return false;
    return true;
}

const uint8_t *whole(enum room room) {
    return rooms[room];
}

static bool reads(void *byte) {
    (void)*(volatile uint8_t *)byte;
    return true;
}

static bool writes(void *byte) {
    *(volatile uint8_t *)byte = 0;
    return true;
}

/* Whether it is a fault to read or write the byte. What is written there is mended. */
static bool is_guarded(uint8_t *byte, bool call(void *byte)) {
    uint8_t before = ending_of(reads, byte) == HOLDS ? *byte : 0;
    enum ending ending = ending_of(call, byte);
    if (ending == LOST)
        stop("a call is lost");
    if (call == writes && ending == HOLDS)
        *byte = before;
    return ending == FAULTS;
}

void check_rooms(void) {
    uint8_t *buffer = writable(BUFFER, 8), *input = (uint8_t *)given(BYTES, "12345678", 8);
    uint8_t *past_buffer = at_front ? buffer - 1 : buffer + 8, *past_input = at_front ? input - 1 : input + 8;
    SAME(is_guarded(past_buffer, reads), true), SAME(is_guarded(past_buffer, writes), true);
    SAME(is_guarded(buffer, reads), false), SAME(is_guarded(buffer, writes), false);
    SAME(is_guarded(past_input, reads), true);
    SAME(is_guarded(input, reads), false), SAME(is_guarded(input, writes), true);
    SAME(is_left(BUFFER, 0), true), buffer[3] = 0;
    SAME(is_left(BUFFER, 3), false), SAME(is_left(BUFFER, 4), true);
}
