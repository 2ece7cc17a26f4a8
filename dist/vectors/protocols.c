/* SPDX-License-Identifier: Apache-2.0
 *
 * Vectors of standards through the calls for C that derive secrets and keys, that seal and open packets of QUIC and records of
 * TLS 1.3, and of XAES-256-GCM: protocols.txt, which is the argument or standard input. The status is 1 if a check fails, and 77
 * if the processor is below the level of the library. */
#include "deerlapse.h"
#include <stdio.h>
#include <stdlib.h>
#include <string.h>

/* The most bytes of a vector and of a line, and the most words of one. */
enum { MAX = 2000, LINE = 8000, WORDS = 10, TAG = 16 };

/* What is tried: the first word of a line. */
static const char *trying = "";

#define CHECK(is)                                                                           \
    do {                                                                                    \
        if (!(is)) {                                                                        \
            printf("failed: %s:%d: %s, of %s\n", __FILE__, __LINE__, #is, trying);          \
            exit(1);                                                                        \
        }                                                                                   \
    } while (0)

/* A word of a line, its bytes if it is of hexadecimal digits, and its value if it is a number. */
typedef struct {
    char *text;
    unsigned long number;
    size_t len;
    uint8_t at[MAX];
} word;

static word words[WORDS];

static void read_words(char *line) {
    int count = 0;
    for (char *text = strtok(line, " \r\n"); text; text = strtok(NULL, " \r\n")) {
        word *it = &words[count++];
        unsigned byte;
        CHECK(count <= WORDS);
        it->text = text, it->number = strtoul(text, NULL, 10), it->len = 0;
        memset(it->at, 0, MAX);
        while (it->len < MAX && sscanf(text + 2 * it->len, "%2x", &byte) == 1) it->at[it->len++] = (uint8_t)byte;
    }
}

static unsigned checks;

/* A check, counted. */
#define IS(is) CHECK((checks++, (is)))

/* Whether a call made these bytes. */
static bool same(const uint8_t *made, const word *wanted) { return memcmp(made, wanted->at, wanted->len) == 0; }

static uint32_t version_of(const word *w) { return strcmp(w->text, "v2") == 0 ? DEERLAPSE_QUIC_V2 : DEERLAPSE_QUIC_V1; }

static void of_hmac(const word *key, const word *text, const word *codes) {
    uint8_t out[48];
    for (int i = 0; i < 2; i++) {
        IS(deerlapse_hmac(key->at, key->len, text->at, text->len, out, codes[i].len) && same(out, &codes[i]));
    }
}

static void of_extract(const word *salt, const word *ikm, const word *prk) {
    uint8_t out[48];
    IS(deerlapse_hkdf_extract(salt->at, salt->len, ikm->at, ikm->len, out, prk->len) && same(out, prk));
}

static void of_expand(const word *prk, const word *info, const word *okm) {
    uint8_t out[MAX];
    IS(deerlapse_hkdf_expand(prk->at, prk->len, info->at, info->len, out, okm->len) && same(out, okm));
}

static void of_label(const word *secret, const word *context, const word *output, const word *label) {
    uint8_t out[MAX];
    for (char *space = label->text; (space = strchr(space, '_')) != NULL;) *space = ' ';
    IS(deerlapse_hkdf_expand_label(secret->at, secret->len, (const uint8_t *)label->text, strlen(label->text), context->at,
                                   context->len, out, output->len));
    IS(same(out, output));
}

static void of_update(uint32_t version, word *secret, const word *next) {
    IS(deerlapse_quic_next_secret(version, secret->at, secret->len) && same(secret->at, next));
}

/* Masks the header of a packet, or removes the mask. The sample begins four bytes after the number does (RFC 9001 section
 * 5.4.2). */
static void mask(uint32_t version, const word *secret, uint8_t *packet, size_t number_at, size_t header_len) {
    uint8_t bits[DEERLAPSE_MASK_LEN];
    deerlapse_quic_header_key key;
    IS(deerlapse_quic_header_key_from_secret(&key, version, secret->at, secret->len));
    IS(deerlapse_quic_header_key_mask(&key, packet + number_at + 4, bits));
    packet[0] ^= bits[0] & 0x0f;
    for (size_t i = number_at; i < header_len; i++) packet[i] ^= bits[1 + i - number_at];
}

/* The Destination Connection ID of the client's first packet, in RFC 9001 and in RFC 9369. */
static const uint8_t connection_id[] = {0x83, 0x94, 0xc8, 0xf0, 0x3e, 0x51, 0x57, 0x08};

static void of_packet(uint32_t version, bool of_client, uint64_t number, size_t number_at, const word *secret, const word *header,
                      size_t payload_len, const word *frames, const word *packet) {
    uint8_t client[32], server[32], all[MAX], *payload = all + header->len;
    size_t len = 0;
    deerlapse_quic_key key;
    IS(deerlapse_quic_initial_secrets(version, connection_id, sizeof connection_id, client, server));
    IS(same(of_client ? client : server, secret));
    IS(deerlapse_quic_key_from_secret(&key, version, secret->at, secret->len));
    memcpy(all, header->at, header->len);
    memcpy(payload, frames->at, payload_len);
    IS(deerlapse_quic_key_seal(&key, number, header->at, header->len, payload, payload_len, payload + payload_len));
    mask(version, secret, all, number_at, header->len);
    IS(header->len + payload_len + TAG == packet->len && same(all, packet));
    mask(version, secret, all, number_at, header->len);
    IS(same(all, header));
    IS(deerlapse_quic_key_open(&key, number, header->at, header->len, payload, payload_len + TAG, &len));
    IS(len == payload_len && memcmp(payload, frames->at, len) == 0);
}

static void of_record_key(const deerlapse_record_key *key, uint64_t number, uint8_t content_type, const word *content,
                          const word *payload) {
    uint8_t all[MAX], type = 0;
    size_t len = 0;
    memcpy(all, content->at, content->len);
    IS(deerlapse_record_key_seal(key, number, content_type, all, payload->len, content->len));
    IS(same(all, payload));
    IS(deerlapse_record_key_open(key, number, all, payload->len, &type, &len));
    IS(type == content_type && len == content->len && same(all, content));
}

static void of_record(const word *secret, const word *key, const word *iv, const word *rest) {
    deerlapse_record_key by_secret, by_key;
    IS(deerlapse_record_key_from_secret(&by_secret, secret->at, secret->len));
    IS(deerlapse_record_key_init(&by_key, key->at, key->len, iv->at));
    of_record_key(&by_secret, rest[0].number, (uint8_t)rest[1].number, &rest[2], &rest[3]);
    of_record_key(&by_key, rest[0].number, (uint8_t)rest[1].number, &rest[2], &rest[3]);
}

/* In place, and with the tag after the message from one buffer to another. */
static void of_xaes(const word *bytes, const word *nonce, const word *aad, const word *message, const word *sealed) {
    uint8_t in_out[MAX], out[MAX];
    size_t len = 0;
    deerlapse_xaes key;
    deerlapse_xaes_init(&key, bytes->at);
    memcpy(in_out, message->at, message->len);
    IS(deerlapse_xaes_seal(&key, nonce->at, aad->at, aad->len, in_out, message->len, in_out + message->len));
    IS(message->len + TAG == sealed->len && same(in_out, sealed));
    IS(deerlapse_xaes_open(&key, nonce->at, aad->at, aad->len, in_out, sealed->len, 0, &len));
    IS(len == message->len && same(in_out, message));
    IS(deerlapse_xaes_seal_append_tag(&key, nonce->at, aad->at, aad->len, message->at, message->len, out));
    IS(same(out, sealed));
    IS(deerlapse_xaes_open_appended_tag(&key, nonce->at, aad->at, aad->len, sealed->at, sealed->len, out));
    IS(same(out, message));
}

static void of_line(word *w) {
    if (strcmp(trying, "hmac") == 0) of_hmac(&w[1], &w[2], &w[3]);
    else if (strcmp(trying, "extract") == 0) of_extract(&w[1], &w[2], &w[3]);
    else if (strcmp(trying, "expand") == 0) of_expand(&w[1], &w[2], &w[3]);
    else if (strcmp(trying, "label") == 0) of_label(&w[1], &w[2], &w[3], &w[4]);
    else if (strcmp(trying, "update") == 0) of_update(version_of(&w[1]), &w[2], &w[3]);
    else if (strcmp(trying, "packet") == 0)
        of_packet(version_of(&w[1]), strcmp(w[2].text, "client") == 0, w[3].number, w[4].number, &w[5], &w[6], w[7].number, &w[8],
                  &w[9]);
    else if (strcmp(trying, "record") == 0) of_record(&w[1], &w[2], &w[3], &w[4]);
    else {
        CHECK(strcmp(trying, "xaes") == 0);
        of_xaes(&w[1], &w[2], &w[3], &w[4], &w[5]);
    }
}

int main(int argc, char **argv) {
    static char line[LINE];
    FILE *lines = argc > 1 ? fopen(argv[1], "r") : stdin;
    CHECK(lines);
    if (!deerlapse_cpu_supported()) {
        printf("this processor lacks instructions that the library was built for\n");
        return 77;
    }
    while (fgets(line, sizeof line, lines)) {
        if (line[0] == '#') continue;
        CHECK(strchr(line, '\n'));
        read_words(line);
        trying = words[0].text;
        of_line(words);
    }
    printf("%u checks of vectors of RFC 4231, 5869, 8448, 9001 and 9369, and of XAES-256-GCM\n", checks);
    return checks == 0;
}
