/* Seals messages in pieces, under a key that seals nothing else and nonces that the program counts, and opens each in one call. */
#include "deerlapse.h"
#include <stdio.h>

enum { TEXT_LEN = 13, PIECE_LEN = 5, MESSAGES = 2 };

static const uint8_t bytes[32] = {0}; /* a real key is drawn at random, and seals nothing else */
static const uint8_t iv[DEERLAPSE_NONCE_LEN] = {0}; /* the same at both ends */

/* Seals a message in place, under the nonce of its number, and writes the tag after it. */
static bool seal(const deerlapse_key *key, uint64_t number, uint8_t *text, size_t text_len) {
    uint8_t nonce[DEERLAPSE_NONCE_LEN];
    deerlapse_message message = {{0}};

    deerlapse_nonce(iv, number, nonce);
    bool sealed = deerlapse_key_begin(key, nonce, NULL, 0, &message);
    for (size_t at = 0; sealed && at < text_len; at += PIECE_LEN) {
        size_t left = text_len - at, piece_len = left < PIECE_LEN ? left : (size_t)PIECE_LEN;
        sealed = deerlapse_key_update(key, &message, text + at, piece_len);
    }
    /* A message that is given up is finished too: it contains keystream. */
    return deerlapse_key_finish(key, &message, text + text_len) && sealed;
}

int main(void) {
    uint8_t texts[MESSAGES][TEXT_LEN + DEERLAPSE_TAG_LEN] = {"first message", "other message"};
    uint8_t nonce[DEERLAPSE_NONCE_LEN];

    if (!deerlapse_cpu_supported()) {
        fputs("this processor lacks instructions that the library was built for\n", stderr);
        return 1;
    }

    deerlapse_key key = {{0}};
    bool opened = deerlapse_key_init(&key, bytes, sizeof bytes);
    for (uint64_t number = 0; opened && number < MESSAGES; number++) {
        uint8_t *text = texts[number];
        size_t len;
        deerlapse_nonce(iv, number, nonce);
        opened = seal(&key, number, text, TEXT_LEN) &&
                 deerlapse_key_open(&key, nonce, NULL, 0, text, sizeof texts[number], 0, &len);
        if (opened) printf("opened: %.*s\n", (int)len, (const char *)text);
    }
    deerlapse_key_wipe(&key);
    return opened ? 0 : 1;
}
