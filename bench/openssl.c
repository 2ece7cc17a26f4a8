/* OpenSSL's EVP. Each loop has one context, in which a call sets the key or the nonce alone. */
#include "bench.h"
#include <openssl/evp.h>
#include <stdbool.h>
#include <stdio.h>
#include <stdlib.h>

/* A key is a context. */
typedef struct {
    EVP_CIPHER_CTX *context;
} gcm, aes, ctr, stream;

static void make(gcm *k, const EVP_CIPHER *cipher, bool encrypts) {
    k->context = EVP_CIPHER_CTX_new();
    if (k->context && EVP_CipherInit_ex(k->context, cipher, NULL, NULL, NULL, encrypts) == 1) return;
    fputs("bench: OpenSSL refuses a cipher\n", stderr);
    exit(2);
}

static bool set(gcm *k, const uint8_t *key, const uint8_t *iv) {
    return EVP_CipherInit_ex(k->context, NULL, NULL, key, iv, -1) == 1;
}

static void gcm_new(gcm *k, size_t key_len, bool seals) { make(k, key_len == 16 ? EVP_aes_128_gcm() : EVP_aes_256_gcm(), seals); }
static bool gcm_set(gcm *k, const uint8_t *key, size_t key_len) { return (void)key_len, set(k, key, NULL); }
static void gcm_free(gcm *k) { EVP_CIPHER_CTX_free(k->context); }
static void aes_new(aes *k, size_t key_len, bool seals) { make(k, key_len == 16 ? EVP_aes_128_ecb() : EVP_aes_256_ecb(), seals); }
static bool aes_set(aes *k, const uint8_t *key, size_t key_len) { return gcm_set(k, key, key_len); }
static void aes_free(aes *k) { gcm_free(k); }
static void ctr_new(ctr *k, size_t key_len, bool seals) { make(k, key_len == 16 ? EVP_aes_128_ctr() : EVP_aes_256_ctr(), seals); }
static void ctr_free(ctr *k) { gcm_free(k); }
static void stream_new(stream *k, size_t key_len, bool seals) { (void)key_len, make(k, EVP_chacha20(), seals); }
static void stream_free(stream *k) { gcm_free(k); }

static bool update(gcm *k, uint8_t *out, const uint8_t *in, size_t len) {
    int written;
    return len == 0 || EVP_CipherUpdate(k->context, out, &written, in, (int)len) == 1;
}

static bool seal_with(gcm *k, const uint8_t *aad, size_t aad_len, uint8_t *data, size_t len, uint8_t *tag) {
    int written;
    return set(k, NULL, nonce) && update(k, NULL, aad, aad_len) && update(k, data, data, len) &&
           EVP_CipherFinal_ex(k->context, tag, &written) == 1 &&
           EVP_CIPHER_CTX_ctrl(k->context, EVP_CTRL_AEAD_GET_TAG, TAG_LEN, tag) == 1;
}

/* Decrypts before it compares. */
static bool open_with(gcm *k, uint8_t *tag, uint8_t *data, size_t len) {
    uint8_t none[BLOCK_LEN];
    int written;
    return set(k, NULL, nonce) && update(k, data, data, len) &&
           EVP_CIPHER_CTX_ctrl(k->context, EVP_CTRL_AEAD_SET_TAG, TAG_LEN, tag) == 1 &&
           EVP_CipherFinal_ex(k->context, none, &written) == 1;
}

static bool write_mask(aes *k, uint8_t *sample) {
    uint8_t mask[BLOCK_LEN];
    if (!update(k, mask, sample, SAMPLE_LEN)) return false;
    memcpy(sample, mask, MASK_LEN);
    return true;
}

static bool write_chacha_mask(stream *k, uint8_t *sample) {
    uint8_t mask[MASK_LEN] = {0};
    if (!set(k, NULL, sample) || !update(k, mask, mask, sizeof mask)) return false;
    memcpy(sample, mask, sizeof mask);
    return true;
}

#include "loops.h"

/* The first counter block of each stream. */
static const uint8_t ctr_1[BLOCK_LEN] = {1, 1, 1, 1, 1, 1, 1, 1, 1, 1, 1, 1, 0, 0, 0, 1};
static const uint8_t chacha_1[BLOCK_LEN] = {1, 0, 0, 0, 1, 1, 1, 1, 1, 1, 1, 1, 1, 1, 1, 1};

LOOP(aes_key, aes, true, aes_set(&k, key, key_len), (set_first_bytes(buffer, i), aes_set(&k, buffer, len)),
     (update(&k, made[0], made[0], BLOCK_LEN), made[0]))
LOOP(ctr32, ctr, true, set(&k, key, NULL), set(&k, NULL, ctr_1) && update(&k, buffer, buffer, len), buffer)
LOOP(encrypt_four, aes, true, set(&k, key, NULL), update(&k, made[0], made[0], sizeof made), made[0])
LOOP(chacha, stream, true, set(&k, key, NULL), set(&k, NULL, chacha_1) && update(&k, buffer, buffer, len), buffer)
LOOP(chacha_mask, stream, true, set(&k, key, NULL), write_chacha_mask(&k, buffer), buffer)
LOOP(chacha_mask_once, stream, true, true, set(&k, key, NULL) && write_chacha_mask(&k, buffer), buffer)

const side openssl = {{
    [SEAL] = seal,
    [OPEN] = open,
    [SEAL_ONCE] = seal_once,
    [OPEN_ONCE] = open_once,
    [AUTHENTICATE] = authenticate,
    [CTR32] = ctr32,
    [ENCRYPT_FOUR] = encrypt_four,
    [CHACHA] = chacha,
    [MASK] = mask,
    [MASK_ONCE] = mask_once,
    [CHACHA_MASK] = chacha_mask,
    [CHACHA_MASK_ONCE] = chacha_mask_once,
    [AES_KEY] = aes_key,
    [GCM_KEY] = gcm_key,
}};
