/* Eight functions of ngtcp2's crypto library over GnuTLS, and two of GnuTLS, under their names, so that a finished program
 * runs on callbacks.c and derives its keys by the library: as a shared object in LD_PRELOAD. TLS with its secrets, tokens of
 * stateless resets, other hash functions and the other ciphers stay with GnuTLS. */
#define _GNU_SOURCE
#include "callbacks.h"
#include <deerlapse.h>
#include <dlfcn.h>
#include <gnutls/crypto.h>
#include <ngtcp2/ngtcp2_crypto.h>
#include <stdbool.h>

/* The function of the same name in the next library. */
#define NEXT(name) ((__typeof__(&name))dlsym(RTLD_NEXT, #name))

/* A handle of a key of ours is odd, which none of GnuTLS is: both are from malloc. */
static void *marked(void *key) { return key == NULL ? NULL : (char *)key + 1; }
static bool is_ours(const void *handle) { return ((uintptr_t)handle & 1) != 0; }
static void *key_of(void *handle) { return (char *)handle - 1; }

/* The bytes in a key of an AEAD, or 0 if it is GnuTLS's. */
static size_t packet_key_len(const ngtcp2_crypto_aead *aead) {
    switch ((gnutls_cipher_algorithm_t)(intptr_t)aead->native_handle) {
    case GNUTLS_CIPHER_AES_128_GCM: return 16;
    case GNUTLS_CIPHER_AES_256_GCM: return 32;
    default: return 0;
    }
}

/* The same of a cipher for headers, by which ngtcp2 means one block of AES. */
static size_t header_key_len(gnutls_cipher_algorithm_t cipher) {
    switch (cipher) {
    case GNUTLS_CIPHER_AES_128_CBC: return 16;
    case GNUTLS_CIPHER_AES_256_CBC: return 32;
    default: return 0;
    }
}

/* The bytes in a digest of a hash function, or 0 if it is GnuTLS's. */
static size_t digest_len(const ngtcp2_crypto_md *md) {
    switch ((gnutls_digest_algorithm_t)(intptr_t)md->native_handle) {
    case GNUTLS_DIG_SHA256: return DEERLAPSE_SHA256_LEN;
    case GNUTLS_DIG_SHA384: return DEERLAPSE_SHA384_LEN;
    default: return 0;
    }
}

/* ngtcp2 calls it for the secret of Initial packets. */
int ngtcp2_crypto_hkdf_extract(uint8_t *dest, const ngtcp2_crypto_md *md, const uint8_t *secret, size_t secret_len,
                               const uint8_t *salt, size_t salt_len) {
    size_t len = digest_len(md);
    if (len == 0) return NEXT(ngtcp2_crypto_hkdf_extract)(dest, md, secret, secret_len, salt, salt_len);
    return deerlapse_hkdf_extract(salt, salt_len, secret, secret_len, dest, len) ? 0 : -1;
}

/* ngtcp2 calls it for each key, IV and header key, with HKDF-Expand-Label's info, and for each secret that it derives itself:
 * those of Initial packets, and those after a key update. */
int ngtcp2_crypto_hkdf_expand(uint8_t *dest, size_t dest_len, const ngtcp2_crypto_md *md, const uint8_t *secret,
                              size_t secret_len, const uint8_t *info, size_t info_len) {
    size_t len = digest_len(md);
    if (len == 0 || secret_len != len) {
        return NEXT(ngtcp2_crypto_hkdf_expand)(dest, dest_len, md, secret, secret_len, info, info_len);
    }
    return deerlapse_hkdf_expand(secret, secret_len, info, info_len, dest, dest_len) ? 0 : -1;
}

static int init(ngtcp2_crypto_aead_ctx *ctx, const uint8_t *bytes, size_t len) {
    ctx->native_handle = marked(ngtcp2_deerlapse_key_new(bytes, len));
    return ctx->native_handle == NULL ? -1 : 0;
}

int ngtcp2_crypto_aead_ctx_encrypt_init(ngtcp2_crypto_aead_ctx *ctx, const ngtcp2_crypto_aead *aead, const uint8_t *key,
                                        size_t nonce_len) {
    size_t len = packet_key_len(aead);
    if (len == 0) return NEXT(ngtcp2_crypto_aead_ctx_encrypt_init)(ctx, aead, key, nonce_len);
    return init(ctx, key, len);
}

int ngtcp2_crypto_aead_ctx_decrypt_init(ngtcp2_crypto_aead_ctx *ctx, const ngtcp2_crypto_aead *aead, const uint8_t *key,
                                        size_t nonce_len) {
    size_t len = packet_key_len(aead);
    if (len == 0) return NEXT(ngtcp2_crypto_aead_ctx_decrypt_init)(ctx, aead, key, nonce_len);
    return init(ctx, key, len);
}

void ngtcp2_crypto_aead_ctx_free(ngtcp2_crypto_aead_ctx *ctx) {
    if (is_ours(ctx->native_handle)) {
        ngtcp2_deerlapse_key_free(key_of(ctx->native_handle));
    } else {
        NEXT(ngtcp2_crypto_aead_ctx_free)(ctx);
    }
}

/* ngtcp2 0.12 makes a key for headers as a cipher of GnuTLS without an IV, by a function that it doesn't export. */
int gnutls_cipher_init(gnutls_cipher_hd_t *handle, gnutls_cipher_algorithm_t cipher, const gnutls_datum_t *key,
                       const gnutls_datum_t *iv) {
    size_t len = iv == NULL ? header_key_len(cipher) : 0;
    if (len == 0) return NEXT(gnutls_cipher_init)(handle, cipher, key, iv);
    if (key->size != len) return GNUTLS_E_INVALID_REQUEST;
    *handle = marked(ngtcp2_deerlapse_header_key_new(key->data, len));
    return *handle == NULL ? GNUTLS_E_MEMORY_ERROR : 0;
}

void gnutls_cipher_deinit(gnutls_cipher_hd_t handle) {
    if (is_ours(handle)) {
        ngtcp2_deerlapse_header_key_free(key_of(handle));
    } else {
        NEXT(gnutls_cipher_deinit)(handle);
    }
}

int ngtcp2_crypto_encrypt(uint8_t *dest, const ngtcp2_crypto_aead *aead, const ngtcp2_crypto_aead_ctx *ctx,
                          const uint8_t *plaintext, size_t len, const uint8_t *nonce, size_t nonce_len, const uint8_t *aad,
                          size_t aad_len) {
    ngtcp2_crypto_aead_ctx ours;
    if (!is_ours(ctx->native_handle)) {
        return NEXT(ngtcp2_crypto_encrypt)(dest, aead, ctx, plaintext, len, nonce, nonce_len, aad, aad_len);
    }
    ours.native_handle = key_of(ctx->native_handle);
    return ngtcp2_deerlapse_encrypt(dest, aead, &ours, plaintext, len, nonce, nonce_len, aad, aad_len) == 0 ? 0 : -1;
}

int ngtcp2_crypto_decrypt(uint8_t *dest, const ngtcp2_crypto_aead *aead, const ngtcp2_crypto_aead_ctx *ctx,
                          const uint8_t *ciphertext, size_t len, const uint8_t *nonce, size_t nonce_len, const uint8_t *aad,
                          size_t aad_len) {
    ngtcp2_crypto_aead_ctx ours;
    if (!is_ours(ctx->native_handle)) {
        return NEXT(ngtcp2_crypto_decrypt)(dest, aead, ctx, ciphertext, len, nonce, nonce_len, aad, aad_len);
    }
    ours.native_handle = key_of(ctx->native_handle);
    return ngtcp2_deerlapse_decrypt(dest, aead, &ours, ciphertext, len, nonce, nonce_len, aad, aad_len) == 0 ? 0 : -1;
}

int ngtcp2_crypto_hp_mask(uint8_t *dest, const ngtcp2_crypto_cipher *cipher, const ngtcp2_crypto_cipher_ctx *ctx,
                          const uint8_t *sample) {
    ngtcp2_crypto_cipher_ctx ours;
    if (!is_ours(ctx->native_handle)) return NEXT(ngtcp2_crypto_hp_mask)(dest, cipher, ctx, sample);
    ours.native_handle = key_of(ctx->native_handle);
    return ngtcp2_deerlapse_hp_mask(dest, cipher, &ours, sample) == 0 ? 0 : -1;
}
