/* Encrypts with the ChaCha20 stream, and decrypts. No call notices that a ciphertext was changed: the plaintext is changed too. */
#include "deerlapse.h"
#include <stdio.h>

int main(void) {
    static const uint8_t key[32] = {0};
    static const uint8_t nonce[DEERLAPSE_NONCE_LEN] = {0}; /* no block of a nonce twice under one key */
    uint8_t text[5] = {'h', 'e', 'l', 'l', 'o'};

    if (!deerlapse_cpu_supported()) {
        fputs("this processor lacks instructions that the library was built for\n", stderr);
        return 1;
    }

    /* From block 1 on, as RFC 8439 section 2.4.2 begins. */
    if (!deerlapse_chacha20(key, nonce, 1, text, sizeof text) || !deerlapse_chacha20(key, nonce, 1, text, sizeof text)) return 1;
    printf("opened: %.*s\n", (int)sizeof text, (const char *)text);
    return 0;
}
