/* Every call of a table with its bytes marked as undefined: the key, the nonce, the AAD, the message, the sample, the secret.
 * Lengths, offsets and numbers are known. The table has the calls of the library for C, or with WATCHED those of
 * tools/secrets.d/watched.txt. Prints how many openings came as far as comparing the tag, and how many records were authentic.
 *
 * With `branch` or `address` it leaks a byte of a key instead, to show that this is detected. */
#include <valgrind/memcheck.h>
#define MAX_LEN 4200
#define TELL(object) ((void)VALGRIND_MAKE_MEM_DEFINED(&(object), sizeof(object)))
#define HIDE(bytes, len) ((void)VALGRIND_MAKE_MEM_UNDEFINED(bytes, len))
#define HOLDS(bytes, len) is_marked(bytes, len)
#include "../targets.d/checks.h"

enum { MARK = 0x5a };

#ifdef WATCHED
/* Whether the bytes are as they were marked, by a look at a copy. */
static bool is_marked(const uint8_t *bytes, size_t len) {
    static uint8_t copy[MAX_LEN];
    bool is = true;
    memcpy(copy, bytes, len);
    (void)VALGRIND_MAKE_MEM_DEFINED(copy, len);
    for (size_t i = 0; i < len; i++) is &= copy[i] == MARK;
    return is;
}
#include "watched.h"
#else
#include "../targets.d/calls.h"
#endif

static unsigned long openings;

/* All but what is known, whatever it was. */
static void mark(void) {
    size_t key_len = at->key_len, len = at->len, aad_len = at->aad_len, start = at->start;
    memset(at, MARK, sizeof *at);
    HIDE(at, sizeof *at);
    at->key_len = key_len, at->len = len, at->aad_len = aad_len, at->start = start;
    at->opened = UNTOUCHED;
}

/* Makes a call; one that compares a tag, with a false one first. */
static void make(const named *it) {
    trying = it->name;
    mark();
    CHECK(it->before());
    if (it->tag) {
        uint8_t *place = it->tag() + at->len % TAG;
        *place ^= 0x10;
        CHECK(!it->call() && at->opened == UNTOUCHED);
        openings++;
        *place ^= 0x10;
    }
    CHECK(it->call());
    openings += it->opens;
}

#ifdef WATCHED
/* Packets with a number of each length at several places, and records with zeros after the type. */
static void make_for_lengths(const named *it) {
    static const size_t lens[] = {4, 15, 16, 17, 64, 65, 255, 256, 300, 1200};
    for (size_t i = 0; i < sizeof lens / sizeof lens[0]; i++) {
        form = i % 2 ? LONG_FORM : SHORT_FORM, number_at = 1 + 8 * (i % 4), is_chacha = i % 3 == 2;
        for (number_len = 1; number_len <= 4; number_len++) at->len = lens[i], padding = i, make(it);
        at->len = i % 2, padding = lens[i], number_len = 4, make(it);
    }
}
#else
/* Each length as that of a message, of which AADs have others, and as that of an AAD, with a message that doesn't begin where its
 * buffer does. */
static void make_for_lengths(const named *it) {
    static const size_t lens[] = {0, 1, 15, 16, 17, 63, 64, 65, 128, 255, 256, 257, 300, 1200, 4097};
    for (size_t i = 0; i < (it->has_lens ? sizeof lens / sizeof lens[0] : 1); i++) {
        at->len = lens[i], at->aad_len = i, at->start = 0;
        make(it);
        at->len = 40, at->aad_len = lens[i], at->start = 1 + i;
        if (it->has_lens) make(it);
    }
}
#endif

static volatile int sink;

static void leaks_by_a_branch(const uint8_t *key) {
    if (key[0] & 1) sink = 1;
}

static void leaks_by_an_address(const uint8_t *key) {
    static volatile int table[256];
    sink = table[key[0]];
}

int main(int argc, char **argv) {
    static arguments given;
    at = &given;
    mark();
    if (argc > 1) {
        if (strcmp(argv[1], "branch") == 0) leaks_by_a_branch(at->key_bytes);
        if (strcmp(argv[1], "address") == 0) leaks_by_an_address(at->key_bytes);
        return 0;
    }
    for (int i = 0; i < CALLS; i++) {
        for (at->key_len = 16; at->key_len <= 32; at->key_len += 16) make_for_lengths(&calls[i]);
    }
    printf("%lu %lu\n", openings, authentic_records);
    return 0;
}
