/* BearSSL's constant-time implementations for 64-bit machines without special instructions. With OF_SOURCES also the
 * bit-sliced core of AES, which a header of the sources declares.
 */
#include "bench.h"
#include <stdbool.h>
#ifdef OF_SOURCES
#include <inner.h>
#else
#include <bearssl.h>
#endif

/* An AES key in BearSSL is a form that each call expands. */
typedef br_aes_ct64_ctr_keys aes;

typedef struct {
    br_aes_ct64_ctr_keys aes;
    br_gcm_context gcm; /* points to `aes` */
} gcm;

static void gcm_new(gcm *k, size_t key_len, bool seals) { (void)k, (void)key_len, (void)seals; }
static void gcm_free(gcm *k) { (void)k; }
static void aes_new(aes *k, size_t key_len, bool seals) { (void)k, (void)key_len, (void)seals; }
static void aes_free(aes *k) { (void)k; }

static bool aes_set(aes *k, const uint8_t *key, size_t key_len) {
    br_aes_ct64_ctr_init(k, key, key_len);
    return true;
}

static bool gcm_set(gcm *k, const uint8_t *key, size_t key_len) {
    br_aes_ct64_ctr_init(&k->aes, key, key_len);
    br_gcm_init(&k->gcm, &k->aes.vtable, br_ghash_ctmul64);
    return true;
}

static void start(gcm *k, const uint8_t *aad, size_t aad_len) {
    br_gcm_reset(&k->gcm, nonce, sizeof nonce);
    br_gcm_aad_inject(&k->gcm, aad, aad_len);
    br_gcm_flip(&k->gcm);
}

static bool seal_with(gcm *k, const uint8_t *aad, size_t aad_len, uint8_t *data, size_t len, uint8_t *tag) {
    start(k, aad, aad_len);
    br_gcm_run(&k->gcm, 1, data, len);
    br_gcm_get_tag(&k->gcm, tag);
    return true;
}

/* Decrypts before it compares. */
static bool open_with(gcm *k, uint8_t *tag, uint8_t *data, size_t len) {
    start(k, nonce, 0);
    br_gcm_run(&k->gcm, 0, data, len);
    return br_gcm_check_tag(&k->gcm, tag);
}

/* The cipher of a sample is the stream of counter mode that begins there. */
static bool write_mask(aes *k, uint8_t *sample) {
    const uint8_t *last = sample + NONCE_LEN;
    uint32_t counter = (uint32_t)last[0] << 24 | (uint32_t)last[1] << 16 | (uint32_t)last[2] << 8 | last[3];
    uint8_t mask[MASK_LEN] = {0};
    br_aes_ct64_ctr_run(k, sample, counter, mask, sizeof mask);
    memcpy(sample, mask, sizeof mask);
    return true;
}

/* The stream begins at the sample. */
static bool write_chacha_mask(const uint8_t *key, uint8_t *sample) {
    uint32_t counter = (uint32_t)sample[3] << 24 | (uint32_t)sample[2] << 16 | (uint32_t)sample[1] << 8 | sample[0];
    uint8_t mask[MASK_LEN] = {0};
    br_chacha20_ct_run(key, sample + 4, counter, mask, sizeof mask);
    memcpy(sample, mask, sizeof mask);
    return true;
}

#include "loops.h"

LOOP(aes_key, aes, true, aes_set(&k, key, key_len), (set_first_bytes(buffer, i), aes_set(&k, buffer, len)),
     (br_aes_ct64_ctr_run(&k, made[1], 0, made[0], BLOCK_LEN), made[0]))
LOOP(ctr32, aes, true, aes_set(&k, key, key_len), (br_aes_ct64_ctr_run(&k, nonce, 1, buffer, len), true), buffer)
LOOP(update_block, aes, true, true, (br_ghash_ctmul64(made[0], key, key, BLOCK_LEN), true), made[0])
LOOP(update_blocks, aes, true, true, (br_ghash_ctmul64(made[0], key, buffer, len), true), made[0])
LOOP(chacha, aes, true, true, (br_chacha20_ct_run(key, nonce, 1, buffer, len), true), buffer)
LOOP(chacha_mask, aes, true, true, write_chacha_mask(key, buffer), buffer)

#ifdef OF_SOURCES
/* One pass of the core, under a key that is expanded before. */
static uint64_t encrypt_four(uint64_t times, const uint8_t *key, size_t key_len, uint8_t *buffer, size_t len) {
    uint64_t short_key[30], long_key[120], planes[8];
    uint32_t words[16];
    uint8_t blocks[4 * BLOCK_LEN] = {0};
    (void)buffer, (void)len;
    unsigned rounds = br_aes_ct64_keysched(short_key, key, key_len);
    br_aes_ct64_skey_expand(long_key, rounds, short_key);
    for (uint64_t i = 0; i < times; i++) {
        br_range_dec32le(words, 16, blocks);
        for (int j = 0; j < 4; j++) br_aes_ct64_interleave_in(&planes[j], &planes[j + 4], words + 4 * j);
        br_aes_ct64_ortho(planes);
        br_aes_ct64_bitslice_encrypt(rounds, long_key, planes);
        br_aes_ct64_ortho(planes);
        for (int j = 0; j < 4; j++) br_aes_ct64_interleave_out(words + 4 * j, planes[j], planes[j + 4]);
        br_range_enc32le(blocks, words, 16);
    }
    return first_bytes(blocks);
}
#endif

const side bearssl = {{
    [SEAL] = seal,
    [OPEN] = open,
    [SEAL_ONCE] = seal_once,
    [OPEN_ONCE] = open_once,
    [AUTHENTICATE] = authenticate,
    [CTR32] = ctr32,
#ifdef OF_SOURCES
    [ENCRYPT_FOUR] = encrypt_four,
#endif
    [UPDATE_BLOCK] = update_block,
    [UPDATE_BLOCKS] = update_blocks,
    [CHACHA] = chacha,
    [MASK] = mask,
    [MASK_ONCE] = mask_once,
    [CHACHA_MASK] = chacha_mask,
    [CHACHA_MASK_ONCE] = chacha_mask,
    [AES_KEY] = aes_key,
    [GCM_KEY] = gcm_key,
}};
