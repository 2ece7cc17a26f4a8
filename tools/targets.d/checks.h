/* What the C programs of several tools share: checks that end a program, a count of the library's calls, random bytes, and
 * buffers between canaries. With FUZZED, the random bytes are the input of a target of tools/fuzz, and each buffer is beside a
 * page without access. */
#ifndef CHECKS_H
#define CHECKS_H

#include <stdbool.h>
#include <stddef.h>
#include <stdint.h>
#include <stdio.h>
#include <stdlib.h>
#include <string.h>

enum { TAG = 16, NONCE = 12, XAES_NONCE = 24, CANARY = 32, UNTOUCHED = 7 };

/* Where a check fails, a program says what it is trying, and how many calls it has made. */
static const char *trying = "";
static unsigned long calls_made;

#define CHECK(is)                                                                                                    \
    do {                                                                                                             \
        if (!(is)) {                                                                                                 \
            fprintf(stderr, "failed: %s:%d: %s, call %lu %s\n", __FILE__, __LINE__, #is, calls_made, trying);        \
            exit(1);                                                                                                 \
        }                                                                                                            \
    } while (0)

/* A call of the library, counted. */
#define CALL(call) (calls_made++, (call))

#define SAME(a, b) (memcmp(&(a), &(b), sizeof(a)) == 0)

static uint64_t random_state = 1;

/* Marsaglia's xorshift of 64 bits. */
static inline uint64_t xorshift(void) {
    random_state ^= random_state << 13;
    random_state ^= random_state >> 7;
    random_state ^= random_state << 17;
    return random_state;
}

#ifdef FUZZED
#include "../fuzz.d/input.h"
#else
static inline uint64_t next_random(void) { return xorshift(); }

static inline size_t below(size_t n) { return (size_t)(next_random() >> 11) % n; }

static inline void fill(uint8_t *bytes, size_t len) {
    for (size_t i = 0; i < len; i++) bytes[i] = (uint8_t)(next_random() >> 24);
}

/* A copy of bytes, between canaries. */
static inline uint8_t *guarded(const void *bytes, size_t len) {
    uint8_t *block = (uint8_t *)malloc(len + 2 * CANARY);
    CHECK(block);
    memset(block, 0xc3, len + 2 * CANARY);
    if (len) memcpy(block + CANARY, bytes, len);
    return block + CANARY;
}

static inline void release(uint8_t *copy, size_t len) {
    for (size_t i = 0; i < CANARY; i++) CHECK(copy[len + i] == 0xc3 && *(copy - 1 - i) == 0xc3);
    free(copy - CANARY);
}
#endif

/* A guarded copy of bytes, and what must be in it when it is checked: the same bytes, until `expect` says that others are written. */
typedef struct {
    uint8_t *at, *wanted;
    size_t len;
} buffer;

static inline buffer copy_of(const void *bytes, size_t len) {
    buffer b = {guarded(bytes, len), (uint8_t *)malloc(len + 1), len};
    CHECK(b.wanted);
    if (len) memcpy(b.wanted, bytes, len);
    return b;
}

static inline void expect(buffer *b, const void *bytes, size_t len) {
    CHECK(len <= b->len);
    if (len) memcpy(b->wanted, bytes, len);
}

/* Checks a buffer and its canaries, and frees it. */
static inline void is_as_expected(buffer *b) {
    CHECK(memcmp(b->at, b->wanted, b->len) == 0);
    release(b->at, b->len);
    free(b->wanted);
}

static inline void flip_a_bit(uint8_t *bytes, size_t len) {
    size_t bit = below(8 * len);
    bytes[bit / 8] ^= (uint8_t)(1 << bit % 8);
}

#endif
