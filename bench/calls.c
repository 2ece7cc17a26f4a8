/* The calls for C, of crates/deerlapse. */
#include "bench.h"
#include "deerlapse.h"

#define ONCE_IS_A_CALL

typedef deerlapse_key gcm;
typedef deerlapse_quic_header_key aes;

static void gcm_new(gcm *k, size_t key_len, bool seals) { (void)k, (void)key_len, (void)seals; }
static bool gcm_set(gcm *k, const uint8_t *key, size_t key_len) { return deerlapse_key_init(k, key, key_len); }
static void gcm_free(gcm *k) { (void)k; }
static void aes_new(aes *k, size_t key_len, bool seals) { (void)k, (void)key_len, (void)seals; }
static bool aes_set(aes *k, const uint8_t *key, size_t key_len) { return deerlapse_quic_header_key_init(k, key, key_len); }
static void aes_free(aes *k) { (void)k; }

static bool seal_with(gcm *k, const uint8_t *aad, size_t aad_len, uint8_t *data, size_t len, uint8_t *tag) {
    return deerlapse_key_seal(k, nonce, aad, aad_len, data, len, tag);
}

static bool open_with(gcm *k, uint8_t *tag, uint8_t *data, size_t len) {
    return deerlapse_key_open_separate_tag(k, nonce, NULL, 0, data, len, 0, tag);
}

static bool seal_once_with(gcm *k, const uint8_t *key, size_t key_len, uint8_t *data, size_t len, uint8_t *tag) {
    (void)k;
    return deerlapse_seal(key, key_len, nonce, NULL, 0, data, len, tag);
}

static bool open_once_with(gcm *k, const uint8_t *key, size_t key_len, uint8_t *tag, uint8_t *data, size_t len) {
    size_t opened_len;
    (void)k;
    memcpy(data + len, tag, TAG_LEN);
    return deerlapse_open(key, key_len, nonce, NULL, 0, data, len + TAG_LEN, 0, &opened_len);
}

/* Writes a mask over the front of its sample, if it was made. */
static bool written(bool is_made, const uint8_t *mask, uint8_t *sample) {
    if (is_made) memcpy(sample, mask, MASK_LEN);
    return is_made;
}

static bool write_mask(aes *k, uint8_t *sample) {
    uint8_t mask[MASK_LEN];
    return written(deerlapse_quic_header_key_mask(k, sample, mask), mask, sample);
}

static bool write_mask_once(aes *k, const uint8_t *key, size_t key_len, uint8_t *sample) {
    uint8_t mask[MASK_LEN];
    (void)k;
    return written(deerlapse_mask_aes(key, key_len, sample, mask), mask, sample);
}

static bool write_chacha_mask(const uint8_t *key, uint8_t *sample) {
    uint8_t mask[MASK_LEN];
    deerlapse_mask_chacha20(key, sample, mask);
    return written(true, mask, sample);
}

#include "loops.h"

LOOP(chacha, aes, true, true, deerlapse_chacha20(key, nonce, 1, buffer, len), buffer)
LOOP(chacha_mask, aes, true, true, write_chacha_mask(key, buffer), buffer)

const side calls = {{
    [SEAL] = seal,
    [OPEN] = open,
    [SEAL_ONCE] = seal_once,
    [OPEN_ONCE] = open_once,
    [GCM_KEY] = gcm_key,
    [CHACHA] = chacha,
    [MASK] = mask,
    [MASK_ONCE] = mask_once,
    [CHACHA_MASK_ONCE] = chacha_mask,
}};
