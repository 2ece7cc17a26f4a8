/* Counts the calls of the library that derive, seal, open and make masks. When the process ends, a line with the counts is
 * appended to the file that DEERLAPSE_COUNTS in the environment names, in the order of the kinds below, which
 * interop/shared/counts names too.
 *
 * With WRAPPED it is linked into a shared object by `--wrap NAME` for each call below, so that the object calls __wrap_NAME in
 * place of NAME. Without, it is compiled into the assembly of the package `deerlapse`, whose own functions of these names are
 * called uncounted_NAME there. It doesn't take the header, since that assembly has the version in each name. */
#define _GNU_SOURCE
#include <limits.h>
#include <stdatomic.h>
#include <stdbool.h>
#include <stddef.h>
#include <stdint.h>
#include <stdio.h>
#include <stdlib.h>

enum {
    KEYS,
    DERIVED,
    SEALED_MESSAGES,
    SEALED_PACKETS,
    SEALED_RECORDS,
    OPENED_MESSAGES,
    OPENED_PACKETS,
    OPENED_RECORDS,
    MASKS,
    REFUSED,
    SEALED_BYTES,
    OPENED_BYTES,
    NONE,
    KINDS
};

static atomic_ulong counts[KINDS];
static char counts_file[PATH_MAX];

/* Some programs remove what they don't know from their environment. */
__attribute__((constructor)) static void begin_counts(void)
{
    const char *name = getenv("DEERLAPSE_COUNTS");
    if (name != NULL) {
        snprintf(counts_file, sizeof counts_file, "%s", name);
    }
}

__attribute__((destructor)) static void append_counts(void)
{
    FILE *to = *counts_file ? fopen(counts_file, "a") : NULL;
    if (to == NULL) {
        return;
    }
    for (int kind = 0; kind < NONE; kind++) {
        fprintf(to, "%lu ", counts[kind]);
    }
    fputs("\n", to);
    fclose(to);
}

/* Of the bytes, those are counted that were sealed or opened as messages. */
static inline bool count_call(bool done, int kind, size_t len)
{
    counts[done ? kind : REFUSED]++;
    if (done && kind == OPENED_MESSAGES) {
        counts[OPENED_BYTES] += len;
    } else if (done) {
        counts[SEALED_BYTES] += len;
    }
    return done;
}

#ifdef WRAPPED
#define REAL(name) __real_##name
#define OURS(name) __wrap_##name
#else
#define REAL(name) uncounted_##name
#define OURS(name) name
#endif

/* Defines a function that calls the library's and counts. */
#define COUNTED(kind, len, name, parameters, arguments)       \
    bool REAL(name) parameters;                               \
    bool OURS(name) parameters;                               \
    bool OURS(name) parameters                                \
    {                                                         \
        return count_call(REAL(name) arguments, (kind), (len)); \
    }

/* The calls that an expanded key of either kind makes on a message. */
#define COUNTED_UNDER(key)                                                                                                \
    COUNTED(SEALED_MESSAGES, len, deerlapse_##key##_seal,                                                                 \
            (const void *it, const uint8_t *nonce, const uint8_t *aad, size_t aad_len, uint8_t *in_out, size_t len,       \
             uint8_t *tag),                                                                                               \
            (it, nonce, aad, aad_len, in_out, len, tag))                                                                  \
    COUNTED(SEALED_MESSAGES, len, deerlapse_##key##_seal_to_sized,                                                        \
            (const void *it, const uint8_t *nonce, const uint8_t *aad, size_t aad_len, const uint8_t *in, size_t len,     \
             uint8_t *out, size_t out_len, uint8_t *tag),                                                                 \
            (it, nonce, aad, aad_len, in, len, out, out_len, tag))                                                        \
    COUNTED(OPENED_MESSAGES, len - start - 16, deerlapse_##key##_open,                                                    \
            (const void *it, const uint8_t *nonce, const uint8_t *aad, size_t aad_len, uint8_t *in_out, size_t len,       \
             size_t start, size_t *plaintext_len),                                                                        \
            (it, nonce, aad, aad_len, in_out, len, start, plaintext_len))                                                 \
    COUNTED(OPENED_MESSAGES, len - start, deerlapse_##key##_open_separate_tag,                                            \
            (const void *it, const uint8_t *nonce, const uint8_t *aad, size_t aad_len, uint8_t *in_out, size_t len,       \
             size_t start, const uint8_t *tag),                                                                           \
            (it, nonce, aad, aad_len, in_out, len, start, tag))                                                           \
    COUNTED(OPENED_MESSAGES, len, deerlapse_##key##_open_to_sized,                                                        \
            (const void *it, const uint8_t *nonce, const uint8_t *aad, size_t aad_len, const uint8_t *in, size_t len,     \
             uint8_t *out, size_t out_len, const uint8_t *tag),                                                           \
            (it, nonce, aad, aad_len, in, len, out, out_len, tag))

COUNTED(KEYS, 0, deerlapse_key_init, (void *key, const uint8_t *bytes, size_t len), (key, bytes, len))
COUNTED_UNDER(key)
COUNTED_UNDER(xaes)
COUNTED(NONE, len, deerlapse_key_update, (const void *key, void *message, uint8_t *in_out, size_t len),
        (key, message, in_out, len))
COUNTED(SEALED_MESSAGES, 0, deerlapse_key_finish, (const void *key, void *message, uint8_t *tag), (key, message, tag))
COUNTED(SEALED_MESSAGES, len, deerlapse_sealer_seal,
        (void *sealer, const uint8_t *aad, size_t aad_len, uint8_t *in_out, size_t len, uint8_t *tag),
        (sealer, aad, aad_len, in_out, len, tag))
COUNTED(OPENED_MESSAGES, len - start - 16, deerlapse_opener_open,
        (void *opener, const uint8_t *aad, size_t aad_len, uint8_t *in_out, size_t len, size_t start, size_t *plaintext_len),
        (opener, aad, aad_len, in_out, len, start, plaintext_len))
COUNTED(OPENED_MESSAGES, len - start - 16, deerlapse_opener_open_number,
        (const void *opener, uint64_t number, const uint8_t *aad, size_t aad_len, uint8_t *in_out, size_t len, size_t start,
         size_t *plaintext_len),
        (opener, number, aad, aad_len, in_out, len, start, plaintext_len))
COUNTED(SEALED_PACKETS, 0, deerlapse_quic_key_seal,
        (const void *key, uint64_t number, const uint8_t *header, size_t header_len, uint8_t *payload, size_t len, uint8_t *tag),
        (key, number, header, header_len, payload, len, tag))
COUNTED(OPENED_PACKETS, 0, deerlapse_quic_key_open,
        (const void *key, uint64_t number, const uint8_t *header, size_t header_len, uint8_t *payload, size_t len,
         size_t *plaintext_len),
        (key, number, header, header_len, payload, len, plaintext_len))
COUNTED(SEALED_RECORDS, 0, deerlapse_record_key_seal,
        (const void *key, uint64_t number, uint8_t content_type, uint8_t *payload, size_t len, size_t content_len),
        (key, number, content_type, payload, len, content_len))
COUNTED(OPENED_RECORDS, 0, deerlapse_record_key_open,
        (const void *key, uint64_t number, uint8_t *payload, size_t len, uint8_t *content_type, size_t *content_len),
        (key, number, payload, len, content_type, content_len))

COUNTED(DERIVED, 0, deerlapse_hmac,
        (const uint8_t *key, size_t key_len, const uint8_t *message, size_t message_len, uint8_t *code, size_t code_len),
        (key, key_len, message, message_len, code, code_len))
COUNTED(DERIVED, 0, deerlapse_hkdf_extract,
        (const uint8_t *salt, size_t salt_len, const uint8_t *ikm, size_t ikm_len, uint8_t *prk, size_t prk_len),
        (salt, salt_len, ikm, ikm_len, prk, prk_len))
COUNTED(DERIVED, 0, deerlapse_hkdf_expand,
        (const uint8_t *prk, size_t prk_len, const uint8_t *info, size_t info_len, uint8_t *out, size_t out_len),
        (prk, prk_len, info, info_len, out, out_len))
COUNTED(DERIVED, 0, deerlapse_hkdf_expand_label,
        (const uint8_t *secret, size_t secret_len, const uint8_t *label, size_t label_len, const uint8_t *context,
         size_t context_len, uint8_t *out, size_t out_len),
        (secret, secret_len, label, label_len, context, context_len, out, out_len))
COUNTED(DERIVED, 0, deerlapse_quic_key_from_secret, (void *key, uint32_t version, const uint8_t *secret, size_t secret_len),
        (key, version, secret, secret_len))
COUNTED(DERIVED, 0, deerlapse_quic_header_key_from_secret,
        (void *key, uint32_t version, const uint8_t *secret, size_t secret_len), (key, version, secret, secret_len))
COUNTED(DERIVED, 0, deerlapse_quic_initial_secrets,
        (uint32_t version, const uint8_t *id, size_t id_len, uint8_t *client, uint8_t *server),
        (version, id, id_len, client, server))
COUNTED(DERIVED, 0, deerlapse_quic_next_secret, (uint32_t version, uint8_t *secret, size_t secret_len),
        (version, secret, secret_len))
COUNTED(DERIVED, 0, deerlapse_record_key_from_secret, (void *key, const uint8_t *secret, size_t secret_len),
        (key, secret, secret_len))
COUNTED(DERIVED, 0, deerlapse_tls_next_secret, (uint8_t *secret, size_t secret_len), (secret, secret_len))

COUNTED(MASKS, 0, deerlapse_quic_header_key_mask, (const void *key, const uint8_t *sample, uint8_t *mask), (key, sample, mask))

void REAL(deerlapse_mask_chacha20)(const uint8_t *key, const uint8_t *sample, uint8_t *mask);
void OURS(deerlapse_mask_chacha20)(const uint8_t *key, const uint8_t *sample, uint8_t *mask);
void OURS(deerlapse_mask_chacha20)(const uint8_t *key, const uint8_t *sample, uint8_t *mask)
{
    REAL(deerlapse_mask_chacha20)(key, sample, mask);
    counts[MASKS]++;
}
