/* fillaqut @VERSION@: all functions of fillaqut.h, as one file of C99, for 64-bit machines whose numbers have their lowest byte first.
 *
 *     cc -O2 -c fillaqut.c
 *
 * packages/platforms/source has written it, of the LLVM code of the functions that are proved: a variable for each value, a statement for
 * each instruction. An address is a number of 64 bits. What is wrong in it is to be mended there, and not here.
 *
@LICENCE@
 */
#include "fillaqut.h"

#include <stdlib.h>
#include <string.h>

#if defined(__BYTE_ORDER__) && defined(__ORDER_BIG_ENDIAN__) && __BYTE_ORDER__ == __ORDER_BIG_ENDIAN__
#error "fillaqut.c is for machines whose numbers have their lowest byte first"
#endif

#if defined(__GNUC__)
#define INLINE static inline __attribute__((unused))
#else
#define INLINE static inline
#endif

#define AT(pointer) ((uint64_t)(uintptr_t)(pointer))
#define TO(address) ((void *)(uintptr_t)(address))

#define ACCESS(bits) \
    INLINE uint##bits##_t load_##bits(uint64_t address) { \
        uint##bits##_t value; \
        memcpy(&value, TO(address), sizeof value); \
        return value; \
    } \
    INLINE void store_##bits(uint64_t address, uint##bits##_t value) { memcpy(TO(address), &value, sizeof value); }
ACCESS(8)
ACCESS(16)
ACCESS(32)
ACCESS(64)

/* Numbers of fewer than eight bytes. */
INLINE uint64_t load_part(uint64_t address, unsigned size) {
    uint64_t value = 0;
    memcpy(&value, TO(address), size);
    return value;
}
INLINE void store_part(uint64_t address, uint64_t value, unsigned size) { memcpy(TO(address), &value, size); }

/* Numbers of 128 bits. */
typedef struct { uint64_t low; uint64_t high; } n128;
INLINE n128 wide_128(uint64_t high, uint64_t low) {
    n128 made;
    made.low = low;
    made.high = high;
    return made;
}
INLINE n128 add_128(n128 one, n128 other) { return wide_128(one.high + other.high + (one.low + other.low < one.low), one.low + other.low); }
INLINE n128 sub_128(n128 one, n128 other) { return wide_128(one.high - other.high - (one.low < other.low), one.low - other.low); }
INLINE int less_128(n128 one, n128 other) { return one.high < other.high || (one.high == other.high && one.low < other.low); }
INLINE int same_128(n128 one, n128 other) { return one.high == other.high && one.low == other.low; }

/* Of no bytes the addresses may be any. */
INLINE void fill(uint64_t to, uint8_t byte, uint64_t size) { if (size) memset(TO(to), byte, size); }
INLINE void copy(uint64_t to, uint64_t from, uint64_t size) { if (size) memcpy(TO(to), TO(from), size); }
INLINE void move(uint64_t to, uint64_t from, uint64_t size) { if (size) memmove(TO(to), TO(from), size); }

/* How many bits of a number of so many are 1; are 0 below its lowest 1; are 0 above its highest. */
INLINE uint8_t ones(uint64_t value, unsigned bits) {
    (void)bits;
    value -= value >> 1 & UINT64_C(0x5555555555555555);
    value = (value & UINT64_C(0x3333333333333333)) + (value >> 2 & UINT64_C(0x3333333333333333));
    value = (value + (value >> 4)) & UINT64_C(0x0f0f0f0f0f0f0f0f);
    return (uint8_t)(value * UINT64_C(0x0101010101010101) >> 56);
}
INLINE uint8_t zeros_below(uint64_t value, unsigned bits) {
    if (!value) return (uint8_t)bits;
#if defined(__GNUC__)
    return (uint8_t)__builtin_ctzll(value);
#else
    return ones((value & (~value + 1)) - 1, 64);
#endif
}
INLINE uint8_t zeros_above(uint64_t value, unsigned bits) {
    unsigned shift;
    for (shift = 1; shift < 64; shift *= 2) value |= value >> shift;
    return (uint8_t)(bits - ones(value, 64));
}
INLINE uint64_t swapped(uint64_t value, unsigned bits) {
    uint64_t made = 0;
    for (; bits; bits -= 8, value >>= 8) made = made << 8 | (value & 255);
    return made;
}
INLINE uint64_t shifted_l64(uint64_t high, uint64_t low, uint64_t by) { return by & 63 ? high << (by & 63) | low >> (64 - (by & 63)) : high; }
INLINE uint64_t shifted_r64(uint64_t high, uint64_t low, uint64_t by) { return by & 63 ? high << (64 - (by & 63)) | low >> (by & 63) : low; }
INLINE uint32_t shifted_l32(uint32_t high, uint32_t low, uint32_t by) { return by & 31 ? high << (by & 31) | low >> (32 - (by & 31)) : high; }
INLINE uint32_t shifted_r32(uint32_t high, uint32_t low, uint32_t by) { return by & 31 ? high << (32 - (by & 31)) | low >> (by & 31) : low; }

/* The number whose bits are these bytes, each of which is 0 or 1: of each eight the product has them in its highest byte. */
INLINE uint64_t bits_of(const uint8_t *at, unsigned count) {
    uint64_t made = 0, eight;
    unsigned from;
    for (from = 0; from < count; from += 8) {
        memcpy(&eight, at + from, sizeof eight);
        made |= (eight * UINT64_C(0x0102040810204080) >> 56) << from;
    }
    return made;
}

/* The heap: no bytes are asked for as as many as their alignment, and a refused block is an address that is not null. */
typedef struct { uint64_t f0; uint64_t f1; } s_64_64;
static const uint64_t refused[2] = {0, 0};
INLINE s_64_64 answered(void *block) {
    s_64_64 answer;
    answer.f0 = block != NULL;
    answer.f1 = block ? AT(block) : AT(refused);
    return answer;
}
static s_64_64 rattle_alloc(uint64_t size, uint64_t alignment) { return answered(malloc(size ? size : alignment)); }
static s_64_64 rattle_realloc(uint64_t old, uint64_t old_size, uint64_t size, uint64_t alignment) {
    (void)old_size;
    return answered(realloc(TO(old), size ? size : alignment));
}
static void rattle_dealloc(uint64_t block) { free(TO(block)); }
