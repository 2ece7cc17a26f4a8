/* This file is compiled once for each level, with -DDEERLAPSE_X86_64_LEVEL, and linked with the assembly for that level: see the
 * Makefile. */
#include "level.h"

static bool is_supported(void) { return deerlapse_cpu_supported(); }

static bool init(deerlapse_key *key, const uint8_t *bytes, size_t len) { return deerlapse_key_init(key, bytes, len); }

/* Writes the tag after the ciphertext. */
static bool seal(const deerlapse_key *key, const uint8_t nonce[DEERLAPSE_NONCE_LEN], uint8_t *in_out, size_t len) {
    return deerlapse_key_seal(key, nonce, NULL, 0, in_out, len, in_out + len);
}

#if DEERLAPSE_X86_64_LEVEL >= 3
const level level_3 = {is_supported, init, seal};
#else
const level level_2 = {is_supported, init, seal};
#endif
