/* Opens with the calls in the order of the example of OpenSSL's wiki for AES-GCM, where the tag is set after the text: 8 MB,
 * equal, an empty message, and forged ones and one of another AAD, which are refused. */
#include "check.h"
#include <openssl/evp.h>
#include <openssl/rand.h>
#include <stdbool.h>
#include <stdint.h>
#include <string.h>

enum { NONCE = 12, TAG = 16, LEN = 8 << 20 };

static uint8_t key[32], nonce[NONCE], aad[] = "header", tag[TAG], text[LEN], sealed[LEN], out[LEN];

static void seal(const EVP_CIPHER *cipher, int len) {
    EVP_CIPHER_CTX *ctx = EVP_CIPHER_CTX_new();
    int written;
    CHECK(ctx != NULL && EVP_EncryptInit_ex(ctx, cipher, NULL, key, nonce));
    CHECK(EVP_EncryptUpdate(ctx, NULL, &written, aad, sizeof aad));
    CHECK(EVP_EncryptUpdate(ctx, sealed, &written, text, len) && EVP_EncryptFinal_ex(ctx, out, &written));
    CHECK(EVP_CIPHER_CTX_ctrl(ctx, EVP_CTRL_GCM_GET_TAG, TAG, tag));
    EVP_CIPHER_CTX_free(ctx);
}

static bool opens(const EVP_CIPHER *cipher, int len) {
    EVP_CIPHER_CTX *ctx = EVP_CIPHER_CTX_new();
    int written;
    bool opened;
    CHECK(ctx != NULL && EVP_DecryptInit_ex(ctx, cipher, NULL, NULL, NULL));
    CHECK(EVP_CIPHER_CTX_ctrl(ctx, EVP_CTRL_GCM_SET_IVLEN, NONCE, NULL));
    CHECK(EVP_DecryptInit_ex(ctx, NULL, NULL, key, nonce));
    CHECK(EVP_DecryptUpdate(ctx, NULL, &written, aad, sizeof aad));
    CHECK(EVP_DecryptUpdate(ctx, out, &written, sealed, len));
    CHECK(EVP_CIPHER_CTX_ctrl(ctx, EVP_CTRL_GCM_SET_TAG, TAG, tag));
    opened = EVP_DecryptFinal_ex(ctx, out + written, &written) > 0;
    EVP_CIPHER_CTX_free(ctx);
    return opened && memcmp(out, text, (size_t)len) == 0;
}

static bool opens_forged(const EVP_CIPHER *cipher, uint8_t *byte, int len) {
    bool opened;
    *byte ^= 1;
    opened = opens(cipher, len);
    *byte ^= 1;
    return opened;
}

int main(void) {
    const EVP_CIPHER *ciphers[] = {EVP_aes_128_gcm(), EVP_aes_256_gcm()};
    CHECK(RAND_bytes(key, sizeof key) && RAND_bytes(nonce, NONCE) && RAND_bytes(text, LEN));
    for (int i = 0; i < 2; i++) {
        seal(ciphers[i], LEN);
        CHECK(opens(ciphers[i], LEN));
        CHECK(!opens_forged(ciphers[i], tag, LEN) && !opens_forged(ciphers[i], aad, LEN));
        seal(ciphers[i], 0);
        CHECK(opens(ciphers[i], 0) && !opens_forged(ciphers[i], tag, 0));
    }
    return 0;
}
