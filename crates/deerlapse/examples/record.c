/* Seals a record of TLS 1.3 under a traffic secret, and opens it under the key that the other end derives from the same secret. */
#include "deerlapse.h"
#include <stdio.h>

enum { APPLICATION_DATA = 23, HEADER_LEN = 5, CONTENT_LEN = 5, PAYLOAD_LEN = CONTENT_LEN + 1 + DEERLAPSE_TAG_LEN };

int main(void) {
    static const uint8_t secret[DEERLAPSE_SHA256_LEN] = {0}; /* a real one comes from the handshake */
    /* The header announces as many bytes as follow it: the content, its type and the tag. */
    uint8_t record[HEADER_LEN + PAYLOAD_LEN] = {APPLICATION_DATA, 3, 3, 0, PAYLOAD_LEN, 'h', 'e', 'l', 'l', 'o'};
    uint8_t *payload = record + HEADER_LEN, type;
    size_t len;

    if (!deerlapse_cpu_supported()) {
        fputs("this processor lacks instructions that the library was built for\n", stderr);
        return 1;
    }

    deerlapse_record_key key = {{0}}; /* the first record has number 0, and each later one the next */
    bool opened = deerlapse_record_key_from_secret(&key, secret, sizeof secret) &&
                  deerlapse_record_key_seal(&key, 0, APPLICATION_DATA, payload, PAYLOAD_LEN, CONTENT_LEN) &&
                  deerlapse_record_key_open(&key, 0, payload, PAYLOAD_LEN, &type, &len) && type == APPLICATION_DATA;
    deerlapse_record_key_wipe(&key);
    if (!opened) return 1;
    printf("opened: %.*s\n", (int)len, (const char *)payload);
    return 0;
}
