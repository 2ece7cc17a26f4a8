/* The callbacks, and the keys for them. */
#include "callbacks.h"
#include <deerlapse.h>
#include <stdlib.h>

void *ngtcp2_deerlapse_key_new(const uint8_t *bytes, size_t len) {
    deerlapse_key *key = malloc(sizeof *key);
    if (key != NULL && !deerlapse_key_init(key, bytes, len)) {
        free(key);
        return NULL;
    }
    return key;
}

void ngtcp2_deerlapse_key_free(void *key) {
    if (key == NULL) return;
    deerlapse_key_wipe(key);
    free(key);
}

void *ngtcp2_deerlapse_header_key_new(const uint8_t *bytes, size_t len) {
    deerlapse_quic_header_key *key = malloc(sizeof *key);
    if (key != NULL && !deerlapse_quic_header_key_init(key, bytes, len)) {
        free(key);
        return NULL;
    }
    return key;
}

void ngtcp2_deerlapse_header_key_free(void *key) {
    if (key == NULL) return;
    deerlapse_quic_header_key_wipe(key);
    free(key);
}

/* ngtcp2 calls it for each packet that it writes. `dest` may be `plaintext`. The tag goes after the ciphertext. */
int ngtcp2_deerlapse_encrypt(uint8_t *dest, const ngtcp2_crypto_aead *aead, const ngtcp2_crypto_aead_ctx *ctx,
                             const uint8_t *plaintext, size_t len, const uint8_t *nonce, size_t nonce_len,
                             const uint8_t *aad, size_t aad_len) {
    (void)aead;
    if (nonce_len != DEERLAPSE_NONCE_LEN ||
        !deerlapse_key_seal_to(ctx->native_handle, nonce, aad, aad_len, plaintext, len, dest, dest + len)) {
        return NGTCP2_ERR_CALLBACK_FAILURE;
    }
    return 0;
}

/* ngtcp2 calls it for each packet that it reads. `dest` may be `ciphertext`. It is written after the tag is verified. */
int ngtcp2_deerlapse_decrypt(uint8_t *dest, const ngtcp2_crypto_aead *aead, const ngtcp2_crypto_aead_ctx *ctx,
                             const uint8_t *ciphertext, size_t len, const uint8_t *nonce, size_t nonce_len,
                             const uint8_t *aad, size_t aad_len) {
    (void)aead;
    if (nonce_len != DEERLAPSE_NONCE_LEN) return NGTCP2_ERR_CALLBACK_FAILURE;
    if (len < DEERLAPSE_TAG_LEN) return NGTCP2_ERR_DECRYPT;
    len -= DEERLAPSE_TAG_LEN;
    if (!deerlapse_key_open_to(ctx->native_handle, nonce, aad, aad_len, ciphertext, len, dest, ciphertext + len)) {
        return NGTCP2_ERR_DECRYPT;
    }
    return 0;
}

/* ngtcp2 calls it for the header of each packet. */
int ngtcp2_deerlapse_hp_mask(uint8_t *dest, const ngtcp2_crypto_cipher *cipher, const ngtcp2_crypto_cipher_ctx *ctx,
                             const uint8_t *sample) {
    (void)cipher;
    return deerlapse_quic_header_key_mask(ctx->native_handle, sample, dest) ? 0 : NGTCP2_ERR_CALLBACK_FAILURE;
}
