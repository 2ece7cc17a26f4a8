/* Seals an Initial packet of QUIC's client under the keys of its connection ID, masks the header, and opens it again. */
#include "deerlapse.h"
#include <stdio.h>
#include <string.h>

enum { NUMBER_AT = 18, HEADER_LEN = 20, PAYLOAD_LEN = 5, NUMBER = 7 };

/* XORs the bits of a long header that a mask covers: four bits of the first byte, and the packet number, which has two bytes here
 * (RFC 9001 section 5.4.1). The sample begins four bytes after the first byte of the number. */
static bool mask(const deerlapse_quic_header_key *header_key, uint8_t *packet) {
    uint8_t bytes[DEERLAPSE_MASK_LEN];
    if (!deerlapse_quic_header_key_mask(header_key, packet + NUMBER_AT + 4, bytes)) return false;
    packet[0] ^= bytes[0] & 0x0f;
    packet[NUMBER_AT] ^= bytes[1];
    packet[NUMBER_AT + 1] ^= bytes[2];
    return true;
}

int main(void) {
    static const uint8_t id[] = {0x83, 0x94, 0xc8, 0xf0, 0x3e, 0x51, 0x57, 0x08};
    /* Version 1, the ID, no other ID, no token, the length of what follows, and the number. */
    uint8_t packet[HEADER_LEN + PAYLOAD_LEN + DEERLAPSE_TAG_LEN] = {0xc1, 0, 0, 0, 1, sizeof id};
    uint8_t client[DEERLAPSE_SHA256_LEN], server[DEERLAPSE_SHA256_LEN], *payload = packet + HEADER_LEN;
    deerlapse_quic_key key = {{0}};
    deerlapse_quic_header_key header_key = {{0}};
    size_t len;

    memcpy(packet + 6, id, sizeof id);
    packet[16] = 0x40, packet[17] = 2 + PAYLOAD_LEN + DEERLAPSE_TAG_LEN;
    packet[NUMBER_AT + 1] = NUMBER;
    memcpy(payload, "hello", PAYLOAD_LEN);

    if (!deerlapse_cpu_supported()) {
        fputs("this processor lacks instructions that the library was built for\n", stderr);
        return 1;
    }
    bool opened =
        deerlapse_quic_initial_secrets(DEERLAPSE_QUIC_V1, id, sizeof id, client, server) &&
        deerlapse_quic_key_from_secret(&key, DEERLAPSE_QUIC_V1, client, sizeof client) &&
        deerlapse_quic_header_key_from_secret(&header_key, DEERLAPSE_QUIC_V1, client, sizeof client) &&
        deerlapse_quic_key_seal(&key, NUMBER, packet, HEADER_LEN, payload, PAYLOAD_LEN, payload + PAYLOAD_LEN) &&
        mask(&header_key, packet) &&
        /* The server has the same keys for what the client sends. */
        mask(&header_key, packet) && packet[NUMBER_AT + 1] == NUMBER &&
        deerlapse_quic_key_open(&key, NUMBER, packet, HEADER_LEN, payload, PAYLOAD_LEN + DEERLAPSE_TAG_LEN, &len);
    deerlapse_quic_key_wipe(&key);
    deerlapse_quic_header_key_wipe(&header_key);
    if (!opened) return 1;
    printf("opened: %.*s\n", (int)len, (const char *)payload);
    return 0;
}
