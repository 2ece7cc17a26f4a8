/* The table `calls` has every call of the library for C, as calls.def makes them. */
#include "deerlapse.h"
#include "arguments.h"

/* Whose length or number a call limits. */
typedef enum {
    UNLIMITED, OF_KEY, OF_SECRET, OF_CODE, OF_AAD, OF_MESSAGE, OF_SEALED, OF_START, OF_OUT, OF_STREAM, OF_WHOLE_STREAM,
    OF_LAST_BLOCK, OF_LABEL, OF_CONTEXT, OF_OUTPUT, OF_ID, OF_NUMBER, OF_FIRST, OF_RECORD, OF_OPENED_RECORD, OF_CONTENT, LIMITED
} limited;

/* A program may make one length false. A call that has it is then given `false_len`, and `right_len` is what it would have had. A
 * program may also make each start false. */
static limited false_one;
static size_t false_len, right_len, false_start;
static bool has_false_one;

static size_t length(limited which, size_t len) {
    if (which == OF_START && false_start) return false_start;
    if (which == UNLIMITED || which != false_one) return len;
    has_false_one = true;
    right_len = len;
    return false_len;
}

/* A pointer whose length is 0 may be null, if it is of a kind that a program names in `nulls`. */
enum { NULL_TO_READ = 1, NULL_TO_WRITE = 2 };
static int nulls;

static uint8_t *unless_null(int kind, limited which, uint8_t *bytes, size_t len) {
    return nulls & kind && length(which, len) == 0 ? NULL : bytes;
}
#define READ(which, bytes, len) unless_null(NULL_TO_READ, which, bytes, len), length(which, len)
#define WRITE(which, bytes, len) unless_null(NULL_TO_WRITE, which, bytes, len), length(which, len)

/* A key, a sealer or an opener that a call is under: if it is zeros, the call is refused. */
static bool is_under_state;
#define UNDER(state) (is_under_state = true, &at->state)

static size_t at_most(size_t limit) { return at->len < limit ? at->len : limit; }
static size_t secret_len(void) { return at->key_len == 16 ? DEERLAPSE_SHA256_LEN : DEERLAPSE_SHA384_LEN; }

/* Where a message is sealed and opened in place, and where the tag of each kind of message is. A tag apart may be where no memory
 * is. */
static uint8_t *no_memory;
static uint8_t *text(void) { return at->message + at->start; }
static uint8_t *after_text(void) { return (uint8_t *)((uintptr_t)text() + length(OF_MESSAGE, at->len)); }
static uint8_t *apart(void) { return no_memory ? no_memory : at->tag; }
static uint8_t *after_other(void) { return at->other + at->len; }

/* A record has a content, a type, eight zeros if there is room for them, and a tag. */
static size_t inner_len(void) { return at->len + (at->len + 9 > (1 << 14) ? 1 : 9); }
static uint8_t *after_inner(void) { return at->message + inner_len(); }

#ifdef OTHER_FORMS
/* The length of `out`: that of a message with the tag or without, or that of what is opened without its tag. */
static size_t out_len(limited of, size_t tag_len) {
    return length(OF_OUT, of == OF_SEALED ? length(of, at->len + TAG) - TAG : length(of, at->len) + tag_len);
}
#endif

#define ONCE(name, before, call) static bool call_##name(void);
#define EACH(name, before, call) ONCE(name, before, call)
#define SEAL(name, before, call) ONCE(name, before, call)
#define OPEN(name, tag, before, call) ONCE(name, before, call)
#define DENY(name, before, call) ONCE(name, before, call)
#include "calls.def"
#undef ONCE

#ifndef ONE_STATE
/* Pieces of 0, 1, 2 bytes and so on. Nothing is written after the end. */
static bool seal_in_pieces(void) {
    for (size_t done = 0, piece = 0; done < at->len; done += piece++) {
        if (piece > at->len - done) piece = at->len - done;
        if (!deerlapse_key_update(&at->key, &at->in_pieces, at->message + done, piece)) return false;
    }
    return call_key_finish() && !call_key_finish();
}
#endif

#define ONCE(name, before, call)                      \
    static bool before_##name(void) { return (before); } \
    static bool call_##name(void) { return (call); }
#include "calls.def"
#undef ONCE
#undef EACH
#undef SEAL
#undef OPEN
#undef DENY

static const named calls[] = {
#define ROW(name, ...) {"deerlapse_" #name, before_##name, call_##name, __VA_ARGS__},
#define ONCE(name, before, call) ROW(name, false, false, false, NULL)
#define EACH(name, before, call) ROW(name, true, false, false, NULL)
#define SEAL(name, before, call) ROW(name, true, true, false, NULL)
#define OPEN(name, tag, before, call) ROW(name, true, true, true, tag)
#define DENY(name, before, call) ROW(name, true, true, true, NULL)
#include "calls.def"
};
enum { CALLS = sizeof calls / sizeof calls[0] };
