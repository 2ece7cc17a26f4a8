/* Seals two messages under nonces that a sealer counts, and opens them in order. */
#include "deerlapse.h"
#include <stdio.h>

static const uint8_t key[16] = {0}; /* a real key comes from a key exchange or a random generator */
static const uint8_t iv[DEERLAPSE_NONCE_LEN] = {0};
static const uint8_t header[] = {'v', '1'};

static bool opens(deerlapse_opener *opener, uint8_t *message, size_t message_len) {
    size_t len;
    if (!deerlapse_opener_open(opener, header, sizeof header, message, message_len, 0, &len)) return false;
    printf("opened: %.*s\n", (int)len, (const char *)message);
    return true;
}

int main(void) {
    uint8_t first[5 + DEERLAPSE_TAG_LEN] = {'h', 'e', 'l', 'l', 'o'};
    uint8_t second[3 + DEERLAPSE_TAG_LEN] = {'b', 'y', 'e'};

    if (!deerlapse_cpu_supported()) {
        fputs("this processor lacks instructions that the library was built for\n", stderr);
        return 1;
    }

    /* Numbers 0, 1, 2, .. up to the limit of the protocol, as 2^24 records of TLS 1.3. The tag goes after the message. */
    deerlapse_sealer sealer = {{0}};
    bool sealed = deerlapse_sealer_init(&sealer, key, sizeof key, iv, 0, 1 << 24) &&
                  deerlapse_sealer_seal(&sealer, header, sizeof header, first, 5, first + 5) &&
                  deerlapse_sealer_seal(&sealer, header, sizeof header, second, 3, second + 3);
    deerlapse_sealer_wipe(&sealer);

    /* The second message is not message 0: its tag is wrong, no byte changes, and no number is counted. */
    deerlapse_opener opener = {{0}};
    bool opened = sealed && deerlapse_opener_init(&opener, key, sizeof key, iv, 0, 1 << 24) &&
                  !opens(&opener, second, sizeof second) && opens(&opener, first, sizeof first) &&
                  opens(&opener, second, sizeof second);
    deerlapse_opener_wipe(&opener);
    return opened ? 0 : 1;
}
