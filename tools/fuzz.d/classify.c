/* classify on each record of a stream, which is the input, one after the other, beside RFC 8446 section 5 in C. It ends before a
 * page without access, or begins after one. */
#define FUZZED
#include "../targets.d/checks.h"

enum { PROTECTED, HANDSHAKE, ALERT, CHANGE_CIPHER_SPEC, MORE_NEEDED };
enum { UNEXPECTED = MORE_NEEDED + 1, PLAIN_TOO_LONG, INNER_TOO_LONG, TOO_LONG, TOO_SHORT };

uint8_t fuzzed_classify(const uint8_t *bytes, size_t len, size_t *needed);
void fuzz_one(const uint8_t *bytes, size_t len);

/* The kind of a record by its header (sections 5.1, 5.2 and 5 for a ChangeCipherSpec), or why there is none. */
static int kind_of(const uint8_t *header, size_t body) {
    if (header[0] == 23) {
        if (header[1] != 3 || header[2] != 3) return UNEXPECTED;
        if (body > (1 << 14) + 256) return TOO_LONG;
        if (body > (1 << 14) + 1 + TAG) return INNER_TOO_LONG;
        return body < 1 + TAG ? TOO_SHORT : PROTECTED;
    }
    if (body > 1 << 14) return PLAIN_TOO_LONG;
    if (header[0] == 22 && body >= 1) return HANDSHAKE;
    if (header[0] == 21 && body == 2) return ALERT;
    return header[0] == 20 && body == 1 ? CHANGE_CIPHER_SPEC : UNEXPECTED;
}

static int expected(const uint8_t *bytes, size_t len, size_t *needed) {
    *needed = 5;
    if (len < 5) return MORE_NEEDED;
    size_t body = (size_t)(bytes[3] << 8 | bytes[4]);
    int kind = kind_of(bytes, body);
    *needed = kind <= CHANGE_CIPHER_SPEC ? 5 + body : 0;
    if (len < *needed) return MORE_NEEDED;
    if (kind == CHANGE_CIPHER_SPEC && bytes[5] != 1) {
        *needed = 0;
        return UNEXPECTED;
    }
    return kind;
}

void fuzz_one(const uint8_t *bytes, size_t len) {
    begin(bytes, len);
    size_t at = 0;
    uint8_t *buffer = guarded(bytes, len);
    for (int kind = PROTECTED; kind <= CHANGE_CIPHER_SPEC;) {
        size_t found = 0, wanted;
        kind = fuzzed_classify(buffer + at, len - at, &found);
        CHECK(kind == expected(bytes + at, len - at, &wanted) && found == wanted);
        CHECK(kind > CHANGE_CIPHER_SPEC || (found >= 6 && found <= len - at));
        at += kind <= CHANGE_CIPHER_SPEC ? found : 0;
    }
    CHECK(memcmp(buffer, bytes, len) == 0);
    release(buffer, len);
}
