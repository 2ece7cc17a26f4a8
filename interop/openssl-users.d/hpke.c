/* Opens by HPKE of libcrypto 3.2 or later, which sets the tag after the text, what it has sealed for a key of X25519: under
 * AES-128-GCM and AES-256-GCM, 8 MB in two messages, equal, and forged messages and one of another AAD, which are refused. */
#include "check.h"
#include <openssl/evp.h>
#include <openssl/hpke.h>
#include <openssl/rand.h>
#include <stdbool.h>
#include <stdint.h>
#include <string.h>

enum { TAG = 16, LEN = 8 << 20 };

static uint8_t aad[] = "header", text[LEN], sealed[LEN + TAG], out[LEN];

static void seal(OSSL_HPKE_CTX *sealer, const uint8_t *bytes, size_t len) {
    size_t written = sizeof sealed;
    CHECK(OSSL_HPKE_seal(sealer, sealed, &written, aad, sizeof aad, bytes, len) && written == len + TAG);
}

/* Whether what was sealed last is opened. It is then what it was. */
static bool opens(OSSL_HPKE_CTX *opener, const uint8_t *bytes, size_t len) {
    size_t written = LEN;
    memset(out, 0, len);
    if (OSSL_HPKE_open(opener, out, &written, aad, sizeof aad, sealed, len + TAG) != 1) return false;
    CHECK(written == len && memcmp(out, bytes, len) == 0);
    return true;
}

/* With a bit flipped it isn't opened. */
static void refuses(OSSL_HPKE_CTX *opener, uint8_t *flipped, const uint8_t *bytes, size_t len) {
    *flipped ^= 1;
    CHECK(!opens(opener, bytes, len));
    *flipped ^= 1;
}

static void messages(uint16_t aead) {
    OSSL_HPKE_SUITE suite = {OSSL_HPKE_KEM_ID_X25519, OSSL_HPKE_KDF_ID_HKDF_SHA256, aead};
    OSSL_HPKE_CTX *sealer = OSSL_HPKE_CTX_new(OSSL_HPKE_MODE_BASE, suite, OSSL_HPKE_ROLE_SENDER, NULL, NULL);
    OSSL_HPKE_CTX *opener = OSSL_HPKE_CTX_new(OSSL_HPKE_MODE_BASE, suite, OSSL_HPKE_ROLE_RECEIVER, NULL, NULL);
    uint8_t public[32], encapsulated[32], *last = &text[LEN - 1];
    size_t public_len = sizeof public, encapsulated_len = sizeof encapsulated;
    EVP_PKEY *key = NULL;
    CHECK(sealer != NULL && opener != NULL);
    CHECK(OSSL_HPKE_keygen(suite, public, &public_len, &key, NULL, 0, NULL, NULL));
    CHECK(OSSL_HPKE_encap(sealer, encapsulated, &encapsulated_len, public, public_len, NULL, 0));
    CHECK(OSSL_HPKE_decap(opener, encapsulated, encapsulated_len, key, NULL, 0));
    seal(sealer, text, LEN - 1);
    CHECK(opens(opener, text, LEN - 1));
    seal(sealer, last, 1);
    refuses(opener, &sealed[0], last, 1);
    refuses(opener, &sealed[TAG], last, 1);
    refuses(opener, &aad[0], last, 1);
    CHECK(opens(opener, last, 1));
    EVP_PKEY_free(key);
    OSSL_HPKE_CTX_free(sealer);
    OSSL_HPKE_CTX_free(opener);
}

int main(void) {
    CHECK(RAND_bytes(text, LEN) == 1);
    messages(OSSL_HPKE_AEAD_ID_AES_GCM_128);
    messages(OSSL_HPKE_AEAD_ID_AES_GCM_256);
    return 0;
}
