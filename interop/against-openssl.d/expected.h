/* What the calls of the library must write, by OpenSSL. With HASHED no OpenSSL is needed: what one call writes is then expected of
 * the others, and `hash` is of all that was expected. */
#ifndef EXPECTED_H
#define EXPECTED_H

#include "deerlapse.h"
#include "../../tools/targets.d/checks.h"

#ifdef HASHED
/* FNV-1a of 64 bits. */
static uint64_t hash = 0xcbf29ce484222325;

static void absorb(const uint8_t *bytes, size_t len) {
    for (size_t i = 0; i < len; i++) hash = (hash ^ bytes[i]) * 0x100000001b3;
}

static void expect_gcm(const uint8_t *key, size_t key_len, const uint8_t nonce[NONCE], const uint8_t *aad, size_t aad_len,
                       const uint8_t *message, size_t len, uint8_t *sealed) {
    if (len) memcpy(sealed, message, len);
    CHECK(deerlapse_seal(key, key_len, nonce, aad, aad_len, sealed, len, sealed + len));
    absorb(sealed, len + TAG);
}

static void expect_xaes(const uint8_t key[32], const uint8_t nonce[XAES_NONCE], const uint8_t *aad, size_t aad_len,
                        const uint8_t *message, size_t len, uint8_t *sealed) {
    deerlapse_xaes expanded;
    deerlapse_xaes_init(&expanded, key);
    if (len) memcpy(sealed, message, len);
    CHECK(deerlapse_xaes_seal(&expanded, nonce, aad, aad_len, sealed, len, sealed + len));
    absorb(sealed, len + TAG);
}

static void expect_aes_mask(const uint8_t *key, size_t key_len, const uint8_t sample[16], uint8_t mask[5]) {
    CHECK(deerlapse_mask_aes(key, key_len, sample, mask));
    absorb(mask, 5);
}

static void expect_chacha20_mask(const uint8_t key[32], const uint8_t sample[16], uint8_t mask[5]) {
    deerlapse_mask_chacha20(key, sample, mask);
    absorb(mask, 5);
}

static void expect_stream(const uint8_t key[32], const uint8_t nonce[NONCE], uint32_t counter, uint8_t *in_out, size_t len) {
    CHECK(deerlapse_chacha20(key, nonce, counter, in_out, len));
    absorb(in_out, len);
}
#else
#include <openssl/crypto.h>
#include <openssl/evp.h>

static EVP_CIPHER_CTX *started(const EVP_CIPHER *cipher, const uint8_t *key, const uint8_t *iv, bool encrypts) {
    static EVP_CIPHER_CTX *context;
    if (!context) context = EVP_CIPHER_CTX_new();
    CHECK(context && EVP_CipherInit_ex(context, cipher, NULL, key, iv, encrypts) == 1);
    return context;
}

/* Encrypts in place, without padding. */
static void encrypt(const EVP_CIPHER *cipher, const uint8_t *key, const uint8_t *iv, uint8_t *in_out, size_t len) {
    int written;
    CHECK(EVP_EncryptUpdate(started(cipher, key, iv, true), in_out, &written, in_out, (int)len) == 1);
}

static const EVP_CIPHER *ecb_of(size_t key_len) { return key_len == 16 ? EVP_aes_128_ecb() : EVP_aes_256_ecb(); }

/* Processes an AAD and a message by AES-GCM, and writes to another buffer. */
static EVP_CIPHER_CTX *processed(const uint8_t *key, size_t key_len, const uint8_t nonce[NONCE], const uint8_t *aad,
                                 size_t aad_len, const uint8_t *in, size_t len, uint8_t *out, bool encrypts) {
    EVP_CIPHER_CTX *context = started(key_len == 16 ? EVP_aes_128_gcm() : EVP_aes_256_gcm(), key, nonce, encrypts);
    int written;
    if (aad_len) CHECK(EVP_CipherUpdate(context, NULL, &written, aad, (int)aad_len) == 1);
    if (len) CHECK(EVP_CipherUpdate(context, out, &written, in, (int)len) == 1);
    return context;
}

/* Writes a ciphertext and its tag. */
static void expect_gcm(const uint8_t *key, size_t key_len, const uint8_t nonce[NONCE], const uint8_t *aad, size_t aad_len,
                       const uint8_t *message, size_t len, uint8_t *sealed) {
    EVP_CIPHER_CTX *context = processed(key, key_len, nonce, aad, aad_len, message, len, sealed, true);
    int written;
    CHECK(EVP_EncryptFinal_ex(context, sealed + len, &written) == 1);
    CHECK(EVP_CIPHER_CTX_ctrl(context, EVP_CTRL_GCM_GET_TAG, TAG, sealed + len) == 1);
}

/* Whether a ciphertext of `len` bytes opens with the tag after it. Its message is written in either case. */
static inline bool opens_by_gcm(const uint8_t *key, size_t key_len, const uint8_t nonce[NONCE], const uint8_t *aad,
                                size_t aad_len, const uint8_t *sealed, size_t len, uint8_t *message) {
    EVP_CIPHER_CTX *context = processed(key, key_len, nonce, aad, aad_len, sealed, len, message, false);
    uint8_t tag[TAG], none[TAG];
    int written;
    memcpy(tag, sealed + len, TAG);
    CHECK(EVP_CIPHER_CTX_ctrl(context, EVP_CTRL_GCM_SET_TAG, TAG, tag) == 1);
    return EVP_DecryptFinal_ex(context, none, &written) == 1;
}

/* AES-256 of M1 XOR K1 and of M2 XOR K1, where K1 is CMAC's first subkey (SP 800-38B section 6.1), and M1 and M2 are a number in
 * two bytes, 58 00, and the first 12 bytes of the nonce. From 1 on, it is the key of a message of XAES-256-GCM
 * (c2sp.org/XAES-256-GCM). */
static void derive(const uint8_t key[32], uint8_t first, const uint8_t *nonce, uint8_t derived[32]) {
    uint8_t k1[16] = {0}, m[] = {0, first, 'X', 0};
    encrypt(EVP_aes_256_ecb(), key, NULL, k1, sizeof k1);
    unsigned first_bit = k1[0] >> 7;
    for (int i = 0; i < 16; i++) k1[i] = (uint8_t)(k1[i] << 1 | (i < 15 ? k1[i + 1] >> 7 : 0));
    if (first_bit) k1[15] ^= 0x87;
    for (uint8_t *block = derived; block < derived + 32; block += 16, m[1]++) {
        memcpy(block, m, sizeof m);
        memcpy(block + sizeof m, nonce, 12);
        for (int i = 0; i < 16; i++) block[i] ^= k1[i];
    }
    encrypt(EVP_aes_256_ecb(), key, NULL, derived, 32);
}

static inline void expect_xaes(const uint8_t key[32], const uint8_t nonce[XAES_NONCE], const uint8_t *aad, size_t aad_len,
                               const uint8_t *message, size_t len, uint8_t *sealed) {
    uint8_t derived[32];
    derive(key, 1, nonce, derived);
    expect_gcm(derived, sizeof derived, nonce + 12, aad, aad_len, message, len, sealed);
}

static inline void expect_aes_mask(const uint8_t *key, size_t key_len, const uint8_t sample[16], uint8_t mask[5]) {
    uint8_t block[16];
    memcpy(block, sample, sizeof block);
    encrypt(ecb_of(key_len), key, NULL, block, sizeof block);
    memcpy(mask, block, 5);
}

static inline void expect_chacha20_mask(const uint8_t key[32], const uint8_t sample[16], uint8_t mask[5]) {
    memset(mask, 0, 5);
    encrypt(EVP_chacha20(), key, sample, mask, 5);
}

static inline void expect_stream(const uint8_t key[32], const uint8_t nonce[NONCE], uint32_t counter, uint8_t *in_out,
                                 size_t len) {
    uint8_t iv[16];
    for (int i = 0; i < 4; i++) iv[i] = (uint8_t)(counter >> (8 * i));
    memcpy(iv + 4, nonce, NONCE);
    encrypt(EVP_chacha20(), key, iv, in_out, len);
}
#endif

#endif
