/* Tries what deerlapse.h promises of every call of calls.def, whatever the call computes:
 *
 * - a call with a length that isn't right is refused, and so is one under a key, a sealer or an opener of zeros;
 * - a call that is refused changes nothing, and reads and writes nothing through a pointer whose length is above the limit;
 * - a pointer may be null where its length is 0;
 * - a wipe leaves zeros, and a copy of a key is a key.
 *
 * The arguments are in memory that ends where a page without access begins. */
#ifndef PROMISES_H
#define PROMISES_H

#define ONE_STATE
#define OTHER_FORMS
#ifndef MAX_LEN
#define MAX_LEN 300
#endif
#include "calls.h"
#ifndef _WIN32
#include <sys/mman.h>
#endif

/* Returns memory for the arguments, which is between two pages without access. */
static arguments *between_pages(void) {
#ifdef _WIN32
    static arguments there;
    return &there;
#else
    const size_t page = (size_t)1 << 16, pages = (sizeof(arguments) / page + 1) * page;
    static uint8_t *all;
    if (!all) {
        all = (uint8_t *)mmap(NULL, pages + 2 * page, PROT_NONE, MAP_PRIVATE | MAP_ANONYMOUS, -1, 0);
        CHECK(all != MAP_FAILED && mprotect(all + page, pages, PROT_READ | PROT_WRITE) == 0);
    }
    return (arguments *)(void *)(all + page + pages - sizeof(arguments));
#endif
}

/* Returns where no memory is, if that is known. */
static uint8_t *after_the_arguments(void) {
#ifdef _WIN32
    return NULL;
#else
    return (uint8_t *)(void *)(at + 1);
#endif
}

/* Fills the arguments with random bytes, for a message of `len` bytes that begins at `start`. */
static void give(size_t key_len, size_t len, size_t aad_len, size_t start) {
    at = between_pages();
    memset(at, 0x5a, sizeof *at);
    fill(at->key_bytes, sizeof at->key_bytes);
    fill(at->header_key, sizeof at->header_key);
    fill(at->nonce, sizeof at->nonce);
    fill(at->secret, sizeof at->secret);
    fill(at->message, sizeof at->message);
    at->key_len = key_len, at->len = len, at->aad_len = aad_len, at->start = start, at->opened = UNTOUCHED;
}

/* ---- lengths */

/* Returns the greatest length that a call takes. */
static size_t most(limited which) {
    switch (which) {
    case OF_KEY: return 32;
    case OF_SECRET: case OF_CODE: return DEERLAPSE_SHA384_LEN;
    case OF_AAD: return ((size_t)1 << 61) - 1;
    case OF_MESSAGE: return ((size_t)1 << 36) - 32 + at->start;
    case OF_SEALED: return ((size_t)1 << 36) - 32 + TAG + at->start;
    case OF_START: return at->start + at->len;
    case OF_STREAM: return ((size_t)1 << 38) - 64;
    case OF_WHOLE_STREAM: return (size_t)1 << 38;
    case OF_LAST_BLOCK: return 64;
    case OF_LABEL: return 249;
    case OF_CONTEXT: return 255;
    case OF_OUTPUT: return 255 * secret_len();
    case OF_ID: return 20;
    case OF_NUMBER: return ((size_t)1 << 62) - 1;
    case OF_FIRST: return 9;
    case OF_RECORD: return (1 << 14) + 1 + TAG;
    case OF_OPENED_RECORD: return (1 << 14) + 256;
    case OF_CONTENT: return inner_len() - 1;
    default: return right_len;
    }
}

/* Whether a call takes this length. What is opened in place has the bytes before its start too, if the call has a start. */
static bool is_right(limited which, size_t len) {
    switch (which) {
    case OF_KEY: return len == 16 || len == 32;
    case OF_SECRET: case OF_CODE: return len == DEERLAPSE_SHA256_LEN || len == DEERLAPSE_SHA384_LEN;
    case OF_OUT: return len == right_len;
    case OF_LABEL: return len >= 1 && len <= most(which);
    case OF_SEALED: return len >= right_len - at->len && len <= most(which);
    case OF_RECORD: return len >= at->len + 1 + TAG && len <= most(which);
    case OF_OPENED_RECORD: return len >= 1 + TAG && len <= most(which);
    default: return len <= most(which);
    }
}

/* Checks that a call is refused and changes nothing, but that deerlapse_key_init leaves zeros. */
static void is_refused(const named *it, const arguments *was) {
    static arguments wanted;
    wanted = *was;
    if (it->call == call_key_init) memset(&wanted.key, 0, sizeof wanted.key);
    CHECK(!CALL(it->call()) && SAME(*at, wanted));
}

/* Makes a call with a length, if it isn't right. With a length of 0 its pointer is also null. Where a message is too long, there is
 * no memory for its tag, and its start is also one that no message has. */
static void refuses_length(const named *it, const arguments *was, size_t len) {
    const bool is_of_message = false_one == OF_MESSAGE || false_one == OF_SEALED;
    if (is_right(false_one, len)) return;
    false_len = len;
    if (is_of_message && len > most(false_one)) no_memory = after_the_arguments();
    is_refused(it, was);
    if (len == 0) nulls = NULL_TO_READ | NULL_TO_WRITE, is_refused(it, was);
    if (is_of_message && len < SIZE_MAX - TAG) false_start = SIZE_MAX, is_refused(it, was);
    nulls = 0, false_start = 0, no_memory = NULL;
}

/* The limits that a call has had so far. */
static bool is_met[LIMITED];

/* Makes a call with short lengths, the first one above the limit, powers of two, lengths after them, and the greatest lengths. The
 * call is accepted if it has no such length, and again at the end, when its length is right. */
static void refuses_lengths(const named *it, limited which) {
    static arguments was;
    CHECK(it->before());
    was = *at;
    false_one = which, false_len = SIZE_MAX, has_false_one = false;
    const bool answer = CALL(it->call());
    if (has_false_one) {
        is_met[which] = true;
        CHECK(!answer);
        *at = was;
        for (size_t len = 0; len <= 300; len++) refuses_length(it, &was, len);
        for (size_t len = 512; len; len <<= 1) refuses_length(it, &was, len), refuses_length(it, &was, len + below(300));
        const size_t ends[] = {most(which) + 1, most(which) + 1 + below(300), SIZE_MAX / 2, SIZE_MAX - TAG, SIZE_MAX - below(300),
                               SIZE_MAX};
        for (size_t i = 0; i < sizeof ends / sizeof ends[0]; i++) refuses_length(it, &was, ends[i]);
        false_one = UNLIMITED;
        *at = was;
        CHECK(CALL(it->call()));
    }
    false_one = UNLIMITED;
    CHECK(answer || has_false_one);
}

/* ---- pointers, zeros and copies */

/* A null pointer where the length is 0 gives the same as any other. */
static void takes_nulls(const named *it) {
    static arguments was, made;
    CHECK(it->before());
    was = *at;
    CHECK(CALL(it->call()));
    made = *at;
    for (nulls = NULL_TO_READ; nulls <= (NULL_TO_READ | NULL_TO_WRITE); nulls++) {
        *at = was;
        CHECK(CALL(it->call()) && SAME(*at, made));
    }
    nulls = 0;
}

/* A call that is under a key, a sealer or an opener is refused if they are zeros. */
static void is_refused_under_zeros(const named *it) {
    static arguments was;
    CHECK(it->before());
    memset(at, 0, offsetof(arguments, key_len));
    was = *at;
    is_under_state = false;
    const bool answer = CALL(it->call());
    CHECK(answer != is_under_state && (answer || SAME(*at, was)));
}

/* A call is accepted in another place of memory, when the keys that were initialized are zeros. */
static void is_accepted_under_copies(const named *it) {
    static arguments copy;
    CHECK(it->before());
    copy = *at;
    memset(at, 0, offsetof(arguments, key_len));
    at = &copy;
    CHECK(CALL(it->call()));
}

/* Each key, sealer and opener is initialized in memory without zeros, by bytes or by a secret, and wiped. Its bytes are zeros then, and
 * no other byte has changed. */
static void wipes_leave_zeros(void) {
    static arguments wanted;
    trying = "a wipe";
#define WIPES(init, it)                      \
    memset(&at->it, 0xff, sizeof at->it);    \
    wanted = *at;                            \
    memset(&wanted.it, 0, sizeof wanted.it); \
    CHECK(CALL(call_##init()) && CALL(call_##it##_wipe()) && SAME(*at, wanted))
    WIPES(key_init, key);
    WIPES(xaes_init, xaes);
    WIPES(sealer_init, sealer);
    WIPES(opener_init, opener);
    WIPES(quic_key_init, quic_key);
    WIPES(quic_key_from_secret, quic_key);
    WIPES(quic_header_key_init, quic_header_key);
    WIPES(quic_header_key_from_secret, quic_header_key);
    WIPES(record_key_init, record_key);
    WIPES(record_key_from_secret, record_key);
#undef WIPES
}

/* Gives a message and an AAD of random lengths. */
static void give_some(size_t key_len, size_t start) { give(key_len, below(MAX_LEN + 1), below(MAX_LEN + 1), start); }

/* One limit of a call, if the call has it. */
static void limit_holds(const named *it, size_t key_len, limited which) {
    trying = it->name;
    for (size_t start = 0; start < 2; start++) {
        give_some(key_len, start);
        refuses_lengths(it, which);
    }
}

/* What is promised of a call beside its limits. */
static void the_rest_holds(const named *it, size_t key_len) {
    trying = it->name;
    give(key_len, 0, 0, 0);
    takes_nulls(it);
    give_some(key_len, 0);
    is_refused_under_zeros(it);
    give_some(key_len, 0);
    is_accepted_under_copies(it);
}

/* All promises, with each length of a key. */
static inline void all_promises_hold(void) {
    for (size_t key_len = 16; key_len <= 32; key_len += 16) {
        for (const named *it = calls; it < calls + CALLS; it++) {
            for (int which = UNLIMITED + 1; which < LIMITED; which++) limit_holds(it, key_len, (limited)which);
            the_rest_holds(it, key_len);
        }
        give_some(key_len, 0);
        wipes_leave_zeros();
    }
    for (int which = UNLIMITED + 1; which < LIMITED; which++) CHECK(is_met[which]);
    trying = "";
}

/* All promises but the limits, with one length of a key, and one limit of one call. */
static inline void some_promises_hold(void) {
    const size_t key_len = below(2) ? 16 : 32;
    limit_holds(&calls[below(CALLS)], key_len, (limited)(1 + below(LIMITED - 1)));
    for (const named *it = calls; it < calls + CALLS; it++) the_rest_holds(it, key_len);
    give_some(key_len, 0);
    wipes_leave_zeros();
    trying = "";
}

#endif
