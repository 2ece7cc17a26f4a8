/* The calls of tools/secrets.d/watched.txt as a table, as tools/targets.d/calls.h has those of the library for C: protecting,
 * unprotecting and opening QUIC packets, and reading records. */
#include "../targets.d/arguments.h"

bool watched_seal(const uint8_t *key, size_t key_len, const uint8_t *nonce, const uint8_t *aad, size_t aad_len,
                  uint8_t *in_out, size_t len, uint8_t *tag);
bool watched_protect(bool is_chacha, const uint8_t *key, size_t key_len, uint8_t *packet, size_t len,
                     size_t number_at);
bool watched_unprotect(bool is_chacha, const uint8_t *key, size_t key_len, uint8_t *packet, size_t len,
                       size_t number_at, size_t *number_len, uint64_t *number);
bool watched_open_packet(const uint8_t *key, size_t key_len, const uint8_t *iv, uint8_t *packet, size_t len,
                         size_t header_len, uint64_t number, size_t *payload_len);
bool watched_read_record(const uint8_t *key, size_t key_len, const uint8_t *iv, uint8_t *record, size_t len,
                         uint8_t *type, size_t *content_len);

/* A program may say here that bytes are secret, and whether an opening left those that were sealed. */
#ifndef HIDE
#define HIDE(bytes, len) ((void)0)
#define HOLDS(bytes, len) true
#endif

enum { RECORD_HEADER = 5, APPLICATION_DATA = 23 };
enum { SHORT_FORM = 0x40, SHORT_MASKED = 0x1f, LONG_FORM = 0xc0, LONG_MASKED = 0x0f };

/* Of a packet its first byte, where its number is and how long, and whether ChaCha20 masks its header; of a record how many zeros
 * follow the type. A program may change them. */
static uint8_t form = SHORT_FORM;
static size_t number_at = 9, number_len = 3, padding = 4;
static bool is_chacha;

static size_t found_len;
static uint64_t found_number;

static bool protect_by(bool chacha, size_t len) {
    return watched_protect(chacha, at->header_key, chacha ? 32 : at->key_len, at->message, len, number_at);
}
static bool unprotect_by(bool chacha, size_t len) {
    return watched_unprotect(chacha, at->header_key, chacha ? 32 : at->key_len, at->message, len, number_at, &found_len,
                             &found_number);
}

/* Any packet that is long enough for a sample. Who protects a header has chosen the length of the number. */
static size_t some_len(void) { return number_at + 31 + at->len; }
static bool with_number(void) {
    at->message[0] = (uint8_t)(form | (number_len - 1));
    return true;
}
static bool protect(void) { return protect_by(false, some_len()); }
static bool protect_chacha20(void) { return protect_by(true, some_len()); }

/* Who unprotects one doesn't know it, nor the other bits that a mask covers. */
static bool as_short(void) {
    at->message[0] = (uint8_t)(SHORT_FORM | (at->message[0] & SHORT_MASKED));
    return true;
}
static bool as_long(void) {
    at->message[0] = (uint8_t)(LONG_FORM | (at->message[0] & LONG_MASKED));
    return true;
}
static bool unprotect(void) { return unprotect_by(false, some_len()); }
static bool unprotect_chacha20(void) { return unprotect_by(true, some_len()); }

/* Packet number 7. Its header is masked and unmasked, if there are bytes enough for a sample. The number and its length are then
 * known: the call that opens a packet takes both. */
static uint8_t *payload(void) { return at->message + number_at + number_len; }
static uint8_t *tag_of_packet(void) { return payload() + at->len; }
static bool packet(void) {
    const size_t header_len = number_at + number_len, len = header_len + at->len + TAG;
    uint8_t nonce[NONCE];
    memcpy(nonce, at->nonce, NONCE);
    nonce[NONCE - 1] ^= 7;
    memset(at->message, 0, header_len);
    at->message[header_len - 1] = 7;
    found_len = number_len, found_number = 7;
    if (!with_number() ||
        !watched_seal(at->key_bytes, at->key_len, nonce, at->message, header_len, payload(), at->len, tag_of_packet())) {
        return false;
    }
    if (number_len + at->len >= 4 && !(protect_by(is_chacha, len) && unprotect_by(is_chacha, len))) return false;
    TELL(found_len);
    TELL(found_number);
    return found_len == number_len && found_number == 7;
}
static bool open_packet(void) {
    const size_t header_len = number_at + found_len;
    return watched_open_packet(at->key_bytes, at->key_len, at->nonce, at->message, header_len + at->len + TAG, header_len,
                               found_number, &at->opened) && at->opened == at->len && HOLDS(payload(), at->len);
}

/* Record 0, whose content has `len` bytes. */
static size_t with_type(void) { return at->len + 1 + padding; }
static uint8_t *tag_of_record(void) { return at->message + RECORD_HEADER + with_type(); }
static bool record(void) {
    const size_t sealed = with_type() + TAG;
    uint8_t *body = at->message + RECORD_HEADER;
    const uint8_t header[RECORD_HEADER] = {23, 3, 3, (uint8_t)(sealed >> 8), (uint8_t)sealed};
    memcpy(at->message, header, RECORD_HEADER);
    body[at->len] = APPLICATION_DATA;
    memset(body + at->len + 1, 0, padding);
    HIDE(body, with_type());
    return watched_seal(at->key_bytes, at->key_len, at->nonce, header, RECORD_HEADER, body, with_type(), tag_of_record());
}
static bool read_record(void) {
    return watched_read_record(at->key_bytes, at->key_len, at->nonce, at->message, RECORD_HEADER + with_type() + TAG,
                               &at->content_type, &at->opened) && is_told() && HOLDS(at->message, at->len);
}

static const named calls[] = {
    {"protect", with_number, protect, false, false, false, NULL},
    {"protect,ChaCha20", with_number, protect_chacha20, false, false, false, NULL},
    {"unprotect,short", as_short, unprotect, false, false, false, NULL},
    {"unprotect,long", as_long, unprotect, false, false, false, NULL},
    {"unprotect,ChaCha20", as_short, unprotect_chacha20, false, false, false, NULL},
    {"open_packet", packet, open_packet, true, false, true, tag_of_packet},
    {"read_record", record, read_record, true, false, true, tag_of_record},
};
enum { CALLS = sizeof calls / sizeof calls[0] };
