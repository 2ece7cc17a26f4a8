/* Expands a key once, and seals and opens with the caller's nonces. */
#include "deerlapse.h"
#include <stdio.h>

int main(void) {
    static const uint8_t bytes[32] = {0}; /* 32 bytes: AES-256-GCM; 16 bytes: AES-128-GCM */
    static const uint8_t nonce[DEERLAPSE_NONCE_LEN] = {0}; /* never twice under one key */
    static const uint8_t header[] = {'v', '1'};
    uint8_t buffer[5 + DEERLAPSE_TAG_LEN] = {'h', 'e', 'l', 'l', 'o'};
    size_t len;

    if (!deerlapse_cpu_supported()) {
        fputs("this processor lacks instructions that the library was built for\n", stderr);
        return 1;
    }

    deerlapse_key key = {{0}}; /* many threads may use it at once */
    bool opened = deerlapse_key_init(&key, bytes, sizeof bytes) &&
                  deerlapse_key_seal(&key, nonce, header, sizeof header, buffer, 5, buffer + 5) &&
                  deerlapse_key_open(&key, nonce, header, sizeof header, buffer, sizeof buffer, 0, &len);
    deerlapse_key_wipe(&key);
    if (!opened) return 1;
    printf("opened: %.*s\n", (int)len, (const char *)buffer);
    return 0;
}
