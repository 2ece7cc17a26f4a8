/* Random calls of the static library beside OpenSSL's: HMAC and HKDF, and the secrets, keys, packets and records of QUIC
 * and TLS 1.3. ROUNDS of each kind, from SEED on.
 *
 * HKDF-Expand-Label is OpenSSL's TLS13-KDF, in the mode that only expands, with the prefix "tls13 ". It takes each label
 * and each context that the library takes. Packets and records are OpenSSL's AES-GCM, with a nonce and an AAD that are made
 * here.
 *
 * What a call writes is between canaries. What it reads is a part of one pool, so that several parts may overlap, and no call may
 * change the pool. */
#define _GNU_SOURCE
#define MAX_MESSAGE ((1 << 14) + 256)
#define MAX_AAD 600
#include "messages.h"
#include "../../tools/targets.d/promises.h"
#include <openssl/core_names.h>
#include <openssl/hmac.h>
#include <openssl/kdf.h>

#define POOL 40000
#define MAX_OUT (255 * DEERLAPSE_SHA384_LEN)
#define MAX_LABEL 249
#define MAX_CONTEXT 255
#define MAX_ID 20
#define NUMBERS_END ((uint64_t)1 << 62)
#define MAX_PAYLOAD 5000
/* The most bytes after the header of a record that is sealed, and of one that is opened (RFC 8446 section 5.2). */
#define MAX_SEALED ((1 << 14) + 17)
#define MAX_OPENED ((1 << 14) + 256)

static uint8_t pool[POOL], pool_was[POOL];

static const uint8_t *part(size_t len) { return pool + below(POOL - len + 1); }

/* A buffer to write to, which has other bytes. */
static buffer room_of(size_t len) { return copy_of(part(len), len); }

/* Other bytes in a part of the pool. */
static void renew_pool(void) {
    size_t at = below(POOL - 500);
    CHECK(SAME(pool, pool_was));
    fill(pool + at, 500);
    memcpy(pool_was + at, pool + at, 500);
}

/* The length of a digest, and of a key. */
static size_t digest_len(void) { return below(2) ? DEERLAPSE_SHA256_LEN : DEERLAPSE_SHA384_LEN; }
static size_t key_len(void) { return below(2) ? 16 : 32; }

/* ---- OpenSSL's functions */

static EVP_KDF_CTX *hkdf, *label_kdf;

static EVP_KDF_CTX *kdf(const char *name) {
    EVP_KDF *found = EVP_KDF_fetch(NULL, name, NULL);
    EVP_KDF_CTX *context = EVP_KDF_CTX_new(found);
    CHECK(context);
    EVP_KDF_free(found);
    return context;
}

static OSSL_PARAM octets(const char *name, const void *bytes, size_t len) {
    return OSSL_PARAM_construct_octet_string(name, (void *)bytes, len);
}

/* The first two parameters are set here. */
static void derive_by(EVP_KDF_CTX *context, int mode, size_t hash_len, OSSL_PARAM *given, uint8_t *out, size_t len) {
    given[0] = OSSL_PARAM_construct_int(OSSL_KDF_PARAM_MODE, &mode);
    given[1] = OSSL_PARAM_construct_utf8_string(OSSL_KDF_PARAM_DIGEST, hash_len == 32 ? "SHA256" : "SHA384", 0);
    EVP_KDF_CTX_reset(context);
    CHECK(len == 0 || EVP_KDF_derive(context, out, len, given) == 1);
}

static void expect_extract(const uint8_t *salt, size_t salt_len, const uint8_t *ikm, size_t ikm_len, uint8_t *prk,
                           size_t prk_len) {
    OSSL_PARAM given[5] = {OSSL_PARAM_END, OSSL_PARAM_END, octets(OSSL_KDF_PARAM_SALT, salt, salt_len),
                           octets(OSSL_KDF_PARAM_KEY, ikm, ikm_len), OSSL_PARAM_END};
    derive_by(hkdf, EVP_KDF_HKDF_MODE_EXTRACT_ONLY, prk_len, given, prk, prk_len);
}

static void expect_expand(const uint8_t *prk, size_t prk_len, const uint8_t *info, size_t info_len, uint8_t *out,
                          size_t len) {
    OSSL_PARAM given[5] = {OSSL_PARAM_END, OSSL_PARAM_END, octets(OSSL_KDF_PARAM_KEY, prk, prk_len),
                           octets(OSSL_KDF_PARAM_INFO, info, info_len), OSSL_PARAM_END};
    derive_by(hkdf, EVP_KDF_HKDF_MODE_EXPAND_ONLY, prk_len, given, out, len);
}

static void expect_label(const uint8_t *secret, size_t secret_len, const void *label, size_t label_len,
                         const uint8_t *context, size_t context_len, uint8_t *out, size_t len) {
    OSSL_PARAM given[7] = {OSSL_PARAM_END,
                           OSSL_PARAM_END,
                           octets(OSSL_KDF_PARAM_KEY, secret, secret_len),
                           octets(OSSL_KDF_PARAM_PREFIX, "tls13 ", 6),
                           octets(OSSL_KDF_PARAM_LABEL, label, label_len),
                           octets(OSSL_KDF_PARAM_DATA, context, context_len),
                           OSSL_PARAM_END};
    derive_by(label_kdf, EVP_KDF_HKDF_MODE_EXPAND_ONLY, secret_len, given, out, len);
}

/* Without a context. */
static void expect_word(const uint8_t *secret, size_t secret_len, const char *label, uint8_t *out, size_t len) {
    expect_label(secret, secret_len, label, strlen(label), pool, 0, out, len);
}

/* The labels of a protocol, and the number and the salt of a version of QUIC: RFC 9001 sections 5.1, 5.2 and 6.1, RFC 9369
 * sections 3.1 and 3.3, RFC 8446 sections 7.2 and 7.3. */
typedef struct {
    const char *key, *iv, *header_key, *next;
    uint32_t number;
    uint8_t salt[20];
} protocol;

static const protocol quic[2] = {
    {"quic key", "quic iv", "quic hp", "quic ku", 1, {0x38, 0x76, 0x2c, 0xf7, 0xf5, 0x59, 0x34, 0xb3, 0x4d, 0x17,
                                                      0x9a, 0xe6, 0xa4, 0xc8, 0x0c, 0xad, 0xcc, 0xbb, 0x7f, 0x0a}},
    {"quicv2 key", "quicv2 iv", "quicv2 hp", "quicv2 ku", 0x6b3343cf, {0x0d, 0xed, 0xe3, 0xde, 0xf7, 0x00, 0xa6,
                                                                       0xdb, 0x81, 0x93, 0x81, 0xbe, 0x6e, 0x26,
                                                                       0x9d, 0xcb, 0xf9, 0xbd, 0x2e, 0xd9}},
};
static const protocol tls13 = {"key", "iv", "", "traffic upd", 0, {0}};

static const protocol *some_quic(void) { return &quic[below(2)]; }

/* A number that is neither version's. */
static uint32_t no_version(void) {
    static const uint32_t near[] = {0, 2, 0xff00001d, 0x6b3343ce, 0x6b3343d0, 0xcf43336b, 0x01000000, 0x709a50c4};
    uint32_t number = below(2) ? near[below(8)] : (uint32_t)(next_random() >> 32);
    return number == quic[0].number || number == quic[1].number ? 0 : number;
}

/* ---- HMAC and HKDF */

static void hmacs(void) {
    size_t len = below(below(4) ? 300 : 5000), of_key = below(4) ? below(300) : 0, code_len = digest_len();
    const uint8_t *key = part(of_key), *message = part(len);
    uint8_t expected[48];
    unsigned written;
    buffer code = room_of(code_len);
    CHECK(HMAC(code_len == 32 ? EVP_sha256() : EVP_sha384(), key, (int)of_key, message, len, expected, &written));
    CHECK(CALL(deerlapse_hmac(key, of_key, message, len, code.at, code_len)) && written == code_len);
    expect(&code, expected, code_len);
    is_as_expected(&code);
}

static void extracts(void) {
    size_t salt_len = below(4) ? below(300) : 0, ikm_len = below(4) ? below(300) : below(2) ? below(5000) : 0;
    size_t prk_len = digest_len();
    const uint8_t *salt = part(salt_len), *ikm = part(ikm_len);
    uint8_t expected[48];
    buffer prk = room_of(prk_len);
    CHECK(CALL(deerlapse_hkdf_extract(salt, salt_len, ikm, ikm_len, prk.at, prk_len)));
    expect_extract(salt, salt_len, ikm, ikm_len, expected, prk_len);
    expect(&prk, expected, prk_len);
    is_as_expected(&prk);
}

/* The length of an output of a secret. */
static size_t out_len_of(size_t secret_len) {
    if (below(256) == 0) return 255 * secret_len - below(2);
    return below(64) ? below(200) : below(255 * secret_len + 1);
}

static void expands(void) {
    static uint8_t expected[MAX_OUT];
    size_t prk_len = digest_len(), info_len = below(8) ? below(500) : 0, len = out_len_of(prk_len);
    const uint8_t *prk = part(prk_len), *info = part(info_len);
    buffer out = room_of(len);
    CHECK(CALL(deerlapse_hkdf_expand(prk, prk_len, info, info_len, out.at, len)));
    expect_expand(prk, prk_len, info, info_len, expected, len);
    expect(&out, expected, len);
    is_as_expected(&out);
}

static void labels(void) {
    static uint8_t expected[MAX_OUT];
    size_t secret_len = digest_len(), label_len = below(8) ? 1 + below(MAX_LABEL) : MAX_LABEL, len = out_len_of(secret_len);
    size_t context_len = below(8) ? below(MAX_CONTEXT + 1) : below(2) ? MAX_CONTEXT : 0;
    const uint8_t *secret = part(secret_len), *label = part(label_len), *context = part(context_len);
    buffer out = room_of(len);
    CHECK(CALL(deerlapse_hkdf_expand_label(secret, secret_len, label, label_len, context, context_len, out.at, len)));
    expect_label(secret, secret_len, label, label_len, context, context_len, expected, len);
    expect(&out, expected, len);
    is_as_expected(&out);
}

/* ---- the secrets and keys of QUIC and TLS 1.3, and versions that aren't known */

static void initial_secrets(void) {
    const protocol *by = some_quic();
    size_t id_len = below(MAX_ID + 1);
    const uint8_t *id = part(id_len);
    uint8_t initial[32], expected[32];
    buffer client = room_of(32), server = room_of(32);
    CHECK(!CALL(deerlapse_quic_initial_secrets(no_version(), id, id_len, client.at, server.at)));
    CHECK(memcmp(client.at, client.wanted, 32) == 0 && memcmp(server.at, server.wanted, 32) == 0);
    CHECK(CALL(deerlapse_quic_initial_secrets(by->number, id, id_len, client.at, server.at)));
    expect_extract(by->salt, sizeof by->salt, id, id_len, initial, 32);
    expect_word(initial, 32, "client in", expected, 32);
    expect(&client, expected, 32);
    expect_word(initial, 32, "server in", expected, 32);
    expect(&server, expected, 32);
    is_as_expected(&server);
    is_as_expected(&client);
}

static void next_secrets(void) {
    const protocol *by = below(2) ? &tls13 : some_quic();
    size_t len = digest_len();
    uint8_t expected[48];
    buffer secret = room_of(len);
    CHECK(!CALL(deerlapse_quic_next_secret(no_version(), secret.at, len)) && memcmp(secret.at, secret.wanted, len) == 0);
    if (by == &tls13) CHECK(CALL(deerlapse_tls_next_secret(secret.at, len)));
    else CHECK(CALL(deerlapse_quic_next_secret(by->number, secret.at, len)));
    expect_word(secret.wanted, len, by->next, expected, len);
    expect(&secret, expected, len);
    is_as_expected(&secret);
}

static void header_keys(void) {
    const protocol *by = some_quic();
    size_t secret_len = digest_len(), len = secret_len == 32 ? 16 : 32;
    const uint8_t *secret = part(secret_len), *sample = part(16);
    uint8_t bytes[32], expected[5], mask[5];
    deerlapse_quic_header_key key, was;
    memcpy(&key, part(sizeof key), sizeof key);
    was = key;
    CHECK(!CALL(deerlapse_quic_header_key_from_secret(&key, no_version(), secret, secret_len)) && SAME(key, was));
    CHECK(CALL(deerlapse_quic_header_key_from_secret(&key, by->number, secret, secret_len)));
    CHECK(CALL(deerlapse_quic_header_key_mask(&key, sample, mask)));
    expect_word(secret, secret_len, by->header_key, bytes, len);
    expect_aes_mask(bytes, len, sample, expected);
    CHECK(SAME(mask, expected));
}

/* ---- packets and records */

/* Makes a key of a secret, or one of bytes. */
static void make_key(sealing *s, kind of, const protocol *by, bool by_secret) {
    s->kind = of, s->version = by->number, s->nonce_len = NONCE;
    s->secret_len = by_secret ? digest_len() : 0;
    s->key_len = by_secret ? s->secret_len == 32 ? 16 : 32 : key_len();
    memcpy(s->secret, part(sizeof s->secret), sizeof s->secret);
    memcpy(s->key, part(sizeof s->key), sizeof s->key);
    memcpy(s->iv, part(NONCE), NONCE);
    if (!by_secret) return;
    expect_word(s->secret, s->secret_len, by->key, s->key, s->key_len);
    expect_word(s->secret, s->secret_len, by->iv, s->iv, NONCE);
}

static void seal_number(sealing *s, uint64_t number) {
    s->number = number;
    set_nonce(s);
    expect_sealed(s);
}

static void make_packet(sealing *s) {
    s->aad_len = below(4) ? below(60) : below(2) ? below(MAX_AAD + 1) : 0;
    s->len = below(8) ? below(300) : below(2) ? below(MAX_PAYLOAD + 1) : 0;
    memcpy(s->aad, part(MAX_AAD), MAX_AAD);
    memcpy(s->message, part(MAX_PAYLOAD), MAX_PAYLOAD);
    seal_number(s, below(8) ? next_random() % NUMBERS_END >> below(62) : NUMBERS_END - 1);
}

/* Makes `len` bytes the message of a record, of which `content_len` are the content, and the header that announces it. */
static void set_inner(sealing *s, size_t len, size_t content_len, uint8_t type) {
    const uint8_t header[] = {0x17, 3, 3, (uint8_t)((len + TAG) >> 8), (uint8_t)(len + TAG)};
    memcpy(s->aad, header, sizeof header);
    s->aad_len = sizeof header, s->len = len, s->content_len = content_len, s->content_type = type;
    if (content_len < len) s->message[content_len] = type, memset(s->message + content_len + 1, 0, len - content_len - 1);
}

/* A record of any length, or of the greatest. */
static void make_record(sealing *s, size_t max) {
    const size_t most_inner = max - TAG, len = below(64) == 0 ? most_inner : 1 + below(below(16) ? 300 : most_inner);
    memcpy(s->message, part(len), len);
    set_inner(s, len, below(4) ? below(len) : len - 1, (uint8_t)(1 + below(below(2) ? 255 : 26)));
    seal_number(s, below(8) ? next_random() >> below(64) : UINT64_MAX);
}

/* A key of a version that isn't known is refused, and so are numbers from 2^62 on, under which OpenSSL seals. */
static void refuses_packets(const sealing *s) {
    static sealing changed;
    expanded key, was;
    uint64_t number = below(2) ? s->number | NUMBERS_END << below(2) : UINT64_MAX - below(2);
    memset(&key, 0x5a, sizeof key);
    was = key;
    CHECK(!CALL(deerlapse_quic_key_from_secret(&key.packet, no_version(), s->secret, digest_len())) && SAME(key, was));
    changed = *s;
    seal_number(&changed, below(4) ? number : NUMBERS_END);
    expand(&key, s);
    are_sealed(&changed, &key, false);
    are_opened(&changed, &key, false);
}

static void packets(void) {
    static sealing s;
    for (int i = 0; i < 2; i++) {
        make_key(&s, PACKET, some_quic(), i);
        make_packet(&s);
        seals_and_opens(&s);
        refuses_packets(&s);
    }
}

/* The longest records are only opened. A record without a type isn't sealed, but one of zeros alone is opened, and has none. Records
 * that OpenSSL seals with too few or too many bytes aren't opened. */
static void other_records(sealing *s) {
    expanded key;
    expand(&key, s);
    make_record(s, MAX_OPENED);
    are_opened(s, &key, true);
    s->content_type = 0;
    if (s->len + TAG <= MAX_SEALED) are_sealed(s, &key, false);
    memset(s->message, 0, s->len);
    set_inner(s, s->len, 0, 0);
    expect_sealed(s);
    are_opened(s, &key, true);
    set_inner(s, 0, 0, 0);
    expect_sealed(s);
    are_opened(s, &key, false);
    if (below(16)) return;
    memset(s->message, 0x17, MAX_OPENED + 1 - TAG);
    set_inner(s, MAX_OPENED + 1 - TAG, MAX_OPENED - TAG, 0x17);
    expect_sealed(s);
    are_opened(s, &key, false);
}

static void records(void) {
    static sealing s;
    for (int i = 0; i < 2; i++) {
        make_key(&s, RECORD, &tls13, i);
        make_record(&s, MAX_SEALED);
        seals_and_opens(&s);
        other_records(&s);
    }
}

int main(int argc, char **argv) {
    size_t rounds = argc > 1 ? strtoul(argv[1], NULL, 10) : 100000;
    random_state = argc > 2 ? strtoull(argv[2], NULL, 10) : 1;
    CHECK(rounds > 0 && random_state != 0);
    hkdf = kdf("HKDF");
    label_kdf = kdf("TLS13-KDF");
    fill(pool, POOL);
    memcpy(pool_was, pool, POOL);
    all_promises_hold();
    for (size_t round = 0; round < rounds; round++) {
        hmacs();
        extracts();
        expands();
        labels();
        initial_secrets();
        next_secrets();
        header_keys();
        packets();
        records();
        renew_pool();
        if (round % 20 == 0) some_promises_hold();
    }
    EVP_KDF_CTX_free(label_kdf);
    EVP_KDF_CTX_free(hkdf);
    printf("%lu random calls of HMAC, HKDF, QUIC and TLS 1.3 equal %s\n", calls_made, OpenSSL_version(OPENSSL_VERSION));
    return 0;
}
