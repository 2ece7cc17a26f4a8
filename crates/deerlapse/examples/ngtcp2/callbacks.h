/* Packet protection for QUIC by AES-GCM of deerlapse.h, as three callbacks of ngtcp2 0.12 (RFC 9001 section 5). */
#ifndef NGTCP2_DEERLAPSE_H
#define NGTCP2_DEERLAPSE_H

#include <ngtcp2/ngtcp2.h>

/* What a program sets as the fields `encrypt`, `decrypt` and `hp_mask` of ngtcp2_callbacks. The `native_handle` of the
 * context that each is given is a key of ngtcp2_deerlapse_key_new, and that of the last one of
 * ngtcp2_deerlapse_header_key_new. */
int ngtcp2_deerlapse_encrypt(uint8_t *dest, const ngtcp2_crypto_aead *aead, const ngtcp2_crypto_aead_ctx *ctx,
                             const uint8_t *plaintext, size_t len, const uint8_t *nonce, size_t nonce_len,
                             const uint8_t *aad, size_t aad_len);
int ngtcp2_deerlapse_decrypt(uint8_t *dest, const ngtcp2_crypto_aead *aead, const ngtcp2_crypto_aead_ctx *ctx,
                             const uint8_t *ciphertext, size_t len, const uint8_t *nonce, size_t nonce_len,
                             const uint8_t *aad, size_t aad_len);
int ngtcp2_deerlapse_hp_mask(uint8_t *dest, const ngtcp2_crypto_cipher *cipher, const ngtcp2_crypto_cipher_ctx *ctx,
                             const uint8_t *sample);

/* Make a key of len bytes, 16 or 32, for ngtcp2_conn_install_rx_key and the like: for packets, and for headers. They return
 * null for another length, or if there is no memory. */
void *ngtcp2_deerlapse_key_new(const uint8_t *bytes, size_t len);
void *ngtcp2_deerlapse_header_key_new(const uint8_t *bytes, size_t len);

/* Wipe a key, and free it: for the callbacks `delete_crypto_aead_ctx` and `delete_crypto_cipher_ctx`. */
void ngtcp2_deerlapse_key_free(void *key);
void ngtcp2_deerlapse_header_key_free(void *key);

#endif
