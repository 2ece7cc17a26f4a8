/* Calls of EVP on the provider deerlapse, which the configuration of OpenSSL prefers, beside OpenSSL's own cipher: messages,
 * also with calls between their own that change nothing, records of TLS 1.2, nonces that are made, and each call that is refused,
 * with the reason in the error queue.
 *
 * Use: calls ROUNDS [late|handles]. It prints how many there were. With `late`, the configuration has `late-tag = yes`, and the
 * calls are those that it allows. With `handles`, SIGXFSZ has a handler, which ends the program. */
#include "check.h"
#include <errno.h>
#include <openssl/core_names.h>
#include <openssl/crypto.h>
#include <openssl/err.h>
#include <openssl/evp.h>
#include <openssl/params.h>
#include <openssl/provider.h>
#include <signal.h>
#include <stdbool.h>
#include <stdint.h>
#include <stdio.h>
#include <stdlib.h>
#include <string.h>

enum { NONCE = 12, TAG = 16, MAX_LEN = 70000, MAX_AAD = 300, MAX_PIECES = 5, EXPLICIT = 8, RECORD_AAD = 13 };

/* One of the two ciphers, by the provider and by OpenSSL. */
typedef struct {
    EVP_CIPHER *ours, *theirs;
    int key_len;
} pair;

typedef struct {
    uint8_t key[32], nonce[NONCE], aad[MAX_AAD], text[MAX_LEN], sealed[MAX_LEN], tag[TAG];
    size_t aad_len, len;
} message;

static pair pairs[2];
static message it;
static uint8_t out[MAX_LEN + 1];
static unsigned long messages, between, records, nonces, refusals;

static uint32_t some(uint32_t below) {
    static uint64_t state = 1;
    state = state * 6364136223846793005u + 1442695040888963407u;
    return (uint32_t)(state >> 33) % below;
}

static void fill(uint8_t *bytes, size_t len) {
    for (size_t i = 0; i < len; i++) bytes[i] = (uint8_t)some(256);
}

static void fetch(pair *to, const char *name, const char *alias, const char *oid, int key_len) {
    EVP_CIPHER *by_alias = EVP_CIPHER_fetch(NULL, alias, NULL), *by_oid = EVP_CIPHER_fetch(NULL, oid, NULL);
    to->ours = EVP_CIPHER_fetch(NULL, name, NULL);
    to->theirs = EVP_CIPHER_fetch(NULL, name, "provider=default");
    to->key_len = key_len;
    CHECK(to->ours != NULL && to->theirs != NULL);
    CHECK(by_alias == to->ours && by_oid == to->ours);
    CHECK(strcmp(OSSL_PROVIDER_get0_name(EVP_CIPHER_get0_provider(to->ours)), "deerlapse") == 0);
    CHECK(EVP_CIPHER_get_nid(to->ours) == EVP_CIPHER_get_nid(to->theirs));
    CHECK(EVP_CIPHER_get_key_length(to->ours) == key_len);
    CHECK(EVP_CIPHER_get_iv_length(to->ours) == NONCE);
    CHECK(EVP_CIPHER_get_block_size(to->ours) == 1);
    CHECK(EVP_CIPHER_get_flags(to->ours) == EVP_CIPHER_get_flags(to->theirs));
    EVP_CIPHER_free(by_alias);
    EVP_CIPHER_free(by_oid);
}

/* A context with a key and a nonce. */
static EVP_CIPHER_CTX *context(const EVP_CIPHER *cipher, bool encrypting) {
    EVP_CIPHER_CTX *ctx = EVP_CIPHER_CTX_new();
    CHECK(ctx != NULL && EVP_CipherInit_ex(ctx, cipher, NULL, it.key, it.nonce, encrypting));
    return ctx;
}

/* Allocations set `errno`, as they may. Of the calls below the provider makes some, and leaves `errno` as it was. */
static void *allocate(size_t len, const char *file, int line) {
    (void)file, (void)line;
    errno = ENOMEM;
    return malloc(len);
}

static void *reallocate(void *from, size_t len, const char *file, int line) {
    (void)file, (void)line;
    errno = ENOMEM;
    return realloc(from, len);
}

static void release(void *from, const char *file, int line) {
    (void)file, (void)line;
    errno = ENOMEM;
    free(from);
}

static bool ctrl(EVP_CIPHER_CTX *ctx, int what, int len, void *bytes) {
    bool done;
    errno = 0;
    done = EVP_CIPHER_CTX_ctrl(ctx, what, len, bytes) > 0;
    CHECK(errno == 0);
    return done;
}

static bool update(EVP_CIPHER_CTX *ctx, uint8_t *to, const uint8_t *from, size_t len) {
    int written = -1, done;
    errno = 0;
    done = EVP_CipherUpdate(ctx, to, &written, from, (int)len);
    CHECK(errno == 0);
    return done > 0 && written == (int)len;
}

static bool final(EVP_CIPHER_CTX *ctx) {
    int written = -1, done;
    errno = 0;
    done = EVP_CipherFinal_ex(ctx, out, &written);
    CHECK(errno == 0);
    return done > 0 && written == 0;
}

/* The AAD in one update or in two, the second of which may be empty. */
static void add_aad(EVP_CIPHER_CTX *ctx) {
    size_t first = some((uint32_t)it.aad_len + 1);
    CHECK(update(ctx, NULL, it.aad, first));
    CHECK(update(ctx, NULL, it.aad + first, it.aad_len - first));
}

/* Updates by as many bytes as the message has, in so many pieces. */
static void update_in_pieces(EVP_CIPHER_CTX *ctx, uint8_t *to, const uint8_t *from, unsigned pieces) {
    size_t len;
    for (size_t done = 0; pieces > 0; pieces--, done += len) {
        len = pieces == 1 ? it.len - done : some((uint32_t)(it.len - done) + 1);
        CHECK(update(ctx, to + done, from + done, len));
    }
}

static void seal(const EVP_CIPHER *cipher, uint8_t *to, uint8_t *tag, const uint8_t *text, unsigned pieces) {
    EVP_CIPHER_CTX *ctx = context(cipher, true);
    add_aad(ctx);
    update_in_pieces(ctx, to, text, pieces);
    CHECK(final(ctx) && ctrl(ctx, EVP_CTRL_AEAD_GET_TAG, TAG, tag));
    EVP_CIPHER_CTX_free(ctx);
}

static bool opens(const EVP_CIPHER *cipher, uint8_t *to, const uint8_t *from) {
    EVP_CIPHER_CTX *ctx = context(cipher, false);
    bool opened;
    CHECK(ctrl(ctx, EVP_CTRL_AEAD_SET_TAG, TAG, it.tag));
    add_aad(ctx);
    CHECK(update(ctx, to, from, it.len));
    opened = final(ctx);
    EVP_CIPHER_CTX_free(ctx);
    return opened;
}

/* Takes what is in the error queue: the provider's error has this text. EVP may have added one. */
static bool reason_is(const char *text) {
    bool is = false;
    for (unsigned long error = ERR_get_error(); error != 0; error = ERR_get_error()) {
        const char *by = ERR_lib_error_string(error), *found = ERR_reason_error_string(error);
        if (by == NULL || found == NULL || strcmp(by, "deerlapse") != 0) continue;
        is = strncmp(found, "deerlapse: ", 11) == 0 && strcmp(found + 11, text) == 0;
        if (!is) fprintf(stderr, "%s, and not: %s\n", found, text);
    }
    return is;
}

static bool are_zeros(const uint8_t *bytes, size_t len) {
    for (size_t i = 0; i < len; i++) {
        if (bytes[i] != 0) return false;
    }
    return true;
}

/* Flips a bit of the sealed text or of the tag. */
static void forge(void) {
    uint8_t *flipped = it.len > 0 && some(2) == 0 ? &it.sealed[some((uint32_t)it.len)] : &it.tag[some(TAG)];
    *flipped ^= (uint8_t)(1 << some(8));
}

/* Another message, sealed by OpenSSL's own. */
static void some_message(const pair *by) {
    fill(it.key, sizeof it.key);
    fill(it.nonce, NONCE);
    it.aad_len = some(4) == 0 ? 0 : some(MAX_AAD);
    it.len = some(some(8) == 0 ? MAX_LEN : 300);
    fill(it.aad, it.aad_len);
    fill(it.text, it.len);
    seal(by->theirs, it.sealed, it.tag, it.text, 1);
}

/* Both seal the same, in place too, and each opens it. With a bit flipped, ours writes as many zeros, in place too, and the
 * end is refused without an error. */
static void a_message(const pair *by) {
    uint8_t tag[TAG];
    some_message(by);
    seal(by->ours, out, tag, it.text, 1 + some(MAX_PIECES));
    CHECK(memcmp(out, it.sealed, it.len) == 0 && memcmp(tag, it.tag, TAG) == 0);
    memcpy(out, it.text, it.len);
    seal(by->ours, out, tag, out, 1 + some(MAX_PIECES));
    CHECK(memcmp(out, it.sealed, it.len) == 0 && memcmp(tag, it.tag, TAG) == 0);
    CHECK(opens(by->ours, out, out) && memcmp(out, it.text, it.len) == 0);
    memset(out, 0xa7, sizeof out);
    CHECK(opens(by->ours, out, it.sealed) && memcmp(out, it.text, it.len) == 0 && out[it.len] == 0xa7);
    CHECK(opens(by->theirs, out, it.sealed) && memcmp(out, it.text, it.len) == 0);
    CHECK(ERR_peek_error() == 0);
    forge();
    memset(out, 0xa7, it.len);
    CHECK(!opens(by->ours, out, it.sealed) && ERR_peek_error() == 0 && are_zeros(out, it.len));
    memcpy(out, it.sealed, it.len);
    CHECK(!opens(by->ours, out, out) && ERR_peek_error() == 0 && are_zeros(out, it.len));
    messages++;
}

/* A step returns whether it was taken. */
typedef bool step(EVP_CIPHER_CTX *);

static bool init_with(EVP_CIPHER_CTX *ctx, int encrypting, const OSSL_PARAM params[]) {
    return EVP_CipherInit_ex2(ctx, NULL, NULL, NULL, encrypting, params);
}

static bool set_or_init_with(EVP_CIPHER_CTX *ctx, bool inits, OSSL_PARAM param) {
    const OSSL_PARAM params[] = {param, OSSL_PARAM_END};
    return inits ? init_with(ctx, -1, params) : EVP_CIPHER_CTX_set_params(ctx, params);
}

static bool with_nonce_len(EVP_CIPHER_CTX *ctx, bool inits) {
    size_t len = NONCE;
    return set_or_init_with(ctx, inits, OSSL_PARAM_construct_size_t(OSSL_CIPHER_PARAM_AEAD_IVLEN, &len));
}

static bool with_unknown(EVP_CIPHER_CTX *ctx, bool inits) {
    return set_or_init_with(ctx, inits, OSSL_PARAM_construct_octet_string("unknown", it.text, 8));
}

static bool with_tag(EVP_CIPHER_CTX *ctx, bool inits) {
    return set_or_init_with(ctx, inits, OSSL_PARAM_construct_octet_string(OSSL_CIPHER_PARAM_AEAD_TAG, it.tag, TAG));
}

static bool init_anyhow(EVP_CIPHER_CTX *ctx) { return init_with(ctx, -1, NULL); }
static bool init_again(EVP_CIPHER_CTX *ctx) { return init_with(ctx, EVP_CIPHER_CTX_is_encrypting(ctx), NULL); }
static bool init_with_none(EVP_CIPHER_CTX *ctx) { return set_or_init_with(ctx, true, OSSL_PARAM_construct_end()); }
static bool init_with_nonce_len(EVP_CIPHER_CTX *ctx) { return with_nonce_len(ctx, true); }
static bool init_with_unknown(EVP_CIPHER_CTX *ctx) { return with_unknown(ctx, true); }
static bool init_with_tag(EVP_CIPHER_CTX *ctx) { return with_tag(ctx, true); }
static bool set_key(EVP_CIPHER_CTX *ctx) { return EVP_CipherInit_ex(ctx, NULL, NULL, it.key, NULL, -1); }
static bool set_nonce(EVP_CIPHER_CTX *ctx) { return EVP_CipherInit_ex(ctx, NULL, NULL, NULL, it.nonce, -1); }
static bool set_none(EVP_CIPHER_CTX *ctx) { return set_or_init_with(ctx, false, OSSL_PARAM_construct_end()); }
static bool set_nonce_len(EVP_CIPHER_CTX *ctx) { return with_nonce_len(ctx, false); }
static bool set_unknown(EVP_CIPHER_CTX *ctx) { return with_unknown(ctx, false); }
static bool set_tag_as_param(EVP_CIPHER_CTX *ctx) { return with_tag(ctx, false); }
static bool set_tag(EVP_CIPHER_CTX *ctx) { return ctrl(ctx, EVP_CTRL_AEAD_SET_TAG, TAG, it.tag); }
static bool same_nonce_len(EVP_CIPHER_CTX *ctx) { return ctrl(ctx, EVP_CTRL_AEAD_SET_IVLEN, NONCE, NULL); }
static bool no_padding(EVP_CIPHER_CTX *ctx) { return EVP_CIPHER_CTX_set_padding(ctx, 0); }
static bool no_aad(EVP_CIPHER_CTX *ctx) { return update(ctx, NULL, it.aad, 0); }
static bool no_text(EVP_CIPHER_CTX *ctx) { return update(ctx, out, it.text, 0); }

static bool same_key_len(EVP_CIPHER_CTX *ctx) {
    return EVP_CIPHER_CTX_set_key_length(ctx, EVP_CIPHER_CTX_get_key_length(ctx));
}

static bool a_flag(EVP_CIPHER_CTX *ctx) {
    EVP_CIPHER_CTX_set_flags(ctx, EVP_CIPHER_CTX_FLAG_WRAP_ALLOW);
    return true;
}

static bool lengths(EVP_CIPHER_CTX *ctx) {
    size_t nonce = 0, tag = 0, key = 0;
    OSSL_PARAM asked[] = {OSSL_PARAM_size_t(OSSL_CIPHER_PARAM_IVLEN, &nonce), OSSL_PARAM_size_t(OSSL_CIPHER_PARAM_KEYLEN, &key),
                          OSSL_PARAM_size_t(OSSL_CIPHER_PARAM_AEAD_TAGLEN, &tag), OSSL_PARAM_END};
    return EVP_CIPHER_CTX_get_params(ctx, asked) && nonce == NONCE && tag == TAG &&
           key == (size_t)EVP_CIPHER_CTX_get_key_length(ctx) && EVP_CIPHER_CTX_get_tag_length(ctx) == TAG;
}

static bool same_nonce(EVP_CIPHER_CTX *ctx) {
    uint8_t updated[NONCE], original[NONCE];
    return EVP_CIPHER_CTX_get_updated_iv(ctx, updated, NONCE) && EVP_CIPHER_CTX_get_original_iv(ctx, original, NONCE) &&
           memcmp(updated, it.nonce, NONCE) == 0 && memcmp(original, it.nonce, NONCE) == 0;
}

/* Goes on in the copy of a copy. */
static bool copy_and_back(EVP_CIPHER_CTX *ctx) {
    EVP_CIPHER_CTX *to = EVP_CIPHER_CTX_new();
    bool copied = to != NULL && EVP_CIPHER_CTX_copy(to, ctx) && EVP_CIPHER_CTX_copy(ctx, to);
    EVP_CIPHER_CTX_free(to);
    return copied;
}

/* The calls that change nothing. They are made anywhere; or where a nonce is set; or before the text; or before the text that is
 * opened, whose tag some of them set. */
static step *const neutral[] = {
    init_anyhow, init_again,     init_with_none, init_with_nonce_len, init_with_unknown, set_none,      set_nonce_len,
    set_unknown, same_nonce_len, same_key_len,   no_padding,          no_aad,            no_text,       a_flag,
    lengths,     same_nonce,     copy_and_back,  set_tag,             set_tag_as_param,  init_with_tag,
};
enum { ANYWHERE = 15, NAMED, BEFORE_TEXT, BEFORE_OPENING = sizeof neutral / sizeof *neutral };

/* Some of the first so many of them, on each of two contexts. */
static void some_neutral(EVP_CIPHER_CTX *const ctxs[2], uint32_t kinds) {
    for (; some(3) == 0; between++) {
        step *call = neutral[some(kinds)];
        CHECK(call(ctxs[0]) && call(ctxs[1]));
    }
}

/* A message of OpenSSL's own is sealed or opened by each of the two, with such calls between the others: the same by both. It may
 * be begun twice, or in the other direction, and be opened with a bit flipped, and with `late-tag = yes` in pieces, with its tag
 * after them. */
static void a_message_with_others(const pair *by, bool late) {
    static uint8_t written[2][MAX_LEN];
    bool encrypting = some(2) == 0, begun_so = some(2) == 0, forged = !encrypting && some(4) == 0;
    bool twice = some(3) == 0, key_again = some(3) == 0;
    bool tag_first = !encrypting && !(late && some(2) == 0), tag_last = !encrypting && !tag_first;
    const uint8_t *from = encrypting ? it.text : it.sealed;
    size_t pieces = tag_first ? 1 : 1 + some(MAX_PIECES), len;
    EVP_CIPHER_CTX *ctxs[2];
    uint8_t tag[TAG];
    some_message(by);
    if (forged && it.aad_len > 0 && some(2) == 0) {
        it.aad[some((uint32_t)it.aad_len)] ^= 1;
    } else if (forged) {
        forge();
    }
    ctxs[0] = context(by->ours, begun_so ? encrypting : !encrypting);
    ctxs[1] = context(by->theirs, begun_so ? encrypting : !encrypting);
    some_neutral(ctxs, BEFORE_TEXT);
    for (int i = 0; i < 2; i++) CHECK(!twice || (update(ctxs[i], NULL, it.text, 20) && set_nonce(ctxs[i])));
    for (int i = 0; i < 2; i++) CHECK(!key_again || set_key(ctxs[i]));
    some_neutral(ctxs, BEFORE_TEXT);
    for (size_t done = 0; done < it.aad_len; done += len) {
        len = 1 + some((uint32_t)(it.aad_len - done));
        for (int i = 0; i < 2; i++) CHECK(update(ctxs[i], NULL, it.aad + done, len));
        some_neutral(ctxs, BEFORE_TEXT);
    }
    for (int i = 0; i < 2; i++) CHECK(begun_so || init_with(ctxs[i], encrypting, NULL));
    for (int i = 0; i < 2; i++) CHECK(!tag_first || set_tag(ctxs[i]));
    some_neutral(ctxs, tag_first ? BEFORE_OPENING : BEFORE_TEXT);
    for (size_t done = 0; pieces > 0; pieces--, done += len) {
        len = pieces == 1 ? it.len - done : some((uint32_t)(it.len - done) + 1);
        for (int i = 0; i < 2; i++) CHECK(update(ctxs[i], written[i] + done, from + done, len));
        some_neutral(ctxs, NAMED);
    }
    for (int i = 0; i < 2; i++) CHECK(!tag_last || set_tag(ctxs[i]));
    some_neutral(ctxs, NAMED);
    for (int i = 0; i < 2; i++) CHECK(final(ctxs[i]) == !forged && ERR_peek_error() == 0);
    some_neutral(ctxs, NAMED);
    for (int i = 0; i < 2; i++) {
        CHECK(forged || memcmp(written[i], encrypting ? it.sealed : it.text, it.len) == 0);
        CHECK(!encrypting || (ctrl(ctxs[i], EVP_CTRL_AEAD_GET_TAG, TAG, tag) && memcmp(tag, it.tag, TAG) == 0));
        EVP_CIPHER_CTX_free(ctxs[i]);
    }
    messages++;
}

/* Sets the AAD of a record of TLS 1.2 with so many bytes of text, and more that are its overhead. */
static bool record_aad(EVP_CIPHER_CTX *ctx, size_t number, size_t len) {
    uint8_t aad[RECORD_AAD] = {[7] = (uint8_t)number, 23, 3, 3, (uint8_t)(len >> 8), (uint8_t)len};
    return EVP_CIPHER_CTX_ctrl(ctx, EVP_CTRL_AEAD_TLS1_AAD, RECORD_AAD, aad) == TAG;
}

/* What one seals the other opens, under nonces that it makes, with calls after their AAD that change nothing. With a bit flipped
 * ours doesn't, and leaves no error. */
static void some_records(const EVP_CIPHER *sealing, const EVP_CIPHER *opening, bool ours_opens) {
    static uint8_t buffer[EXPLICIT + 500 + TAG], last[EXPLICIT];
    EVP_CIPHER_CTX *seals = EVP_CIPHER_CTX_new(), *open = EVP_CIPHER_CTX_new(), *const ctxs[] = {seals, open};
    CHECK(EVP_EncryptInit_ex(seals, sealing, NULL, it.key, NULL) && EVP_DecryptInit_ex(open, opening, NULL, it.key, NULL));
    CHECK(ctrl(seals, EVP_CTRL_GCM_SET_IV_FIXED, 4, it.nonce) && ctrl(open, EVP_CTRL_GCM_SET_IV_FIXED, 4, it.nonce));
    for (size_t number = 0; number < 100; number++) {
        size_t len = some(500), all = EXPLICIT + len + TAG;
        memcpy(buffer + EXPLICIT, it.text, len);
        CHECK(record_aad(seals, number, EXPLICIT + len) && record_aad(open, number, all));
        some_neutral(ctxs, ANYWHERE);
        CHECK(EVP_Cipher(seals, buffer, buffer, (unsigned)all) == (int)all);
        CHECK(number == 0 || memcmp(buffer, last, EXPLICIT) != 0);
        memcpy(last, buffer, EXPLICIT);
        if (ours_opens && number % 4 == 0) {
            buffer[EXPLICIT + some((uint32_t)(all - EXPLICIT))] ^= 0x10;
            CHECK(EVP_Cipher(open, buffer, buffer, (unsigned)all) < 0 && ERR_peek_error() == 0);
            continue;
        }
        CHECK(EVP_Cipher(open, buffer, buffer, (unsigned)all) == (int)all);
        CHECK(memcmp(buffer + EXPLICIT, it.text, len) == 0);
        records++;
    }
    EVP_CIPHER_CTX_free(seals);
    EVP_CIPHER_CTX_free(open);
}

/* From a whole nonce on, as OpenSSH makes them, and over the carry of the number's last bytes. */
static void made_nonces(const pair *by) {
    static uint8_t first[NONCE] = {1, 2, 3, 4, 5, 6, 7, 8, 0xff, 0xff, 0xff, 0xf0};
    EVP_CIPHER_CTX *ours = EVP_CIPHER_CTX_new(), *theirs = EVP_CIPHER_CTX_new();
    uint8_t mine[NONCE], other[NONCE], whole[NONCE];
    CHECK(EVP_EncryptInit_ex(ours, by->ours, NULL, it.key, NULL));
    CHECK(EVP_EncryptInit_ex(theirs, by->theirs, NULL, it.key, NULL));
    CHECK(ctrl(ours, EVP_CTRL_GCM_SET_IV_FIXED, -1, first) && ctrl(theirs, EVP_CTRL_GCM_SET_IV_FIXED, -1, first));
    for (int i = 0; i < 40; i++) {
        int len = i % 2 == 0 ? NONCE : EXPLICIT;
        CHECK(ctrl(ours, EVP_CTRL_GCM_IV_GEN, len, mine) && ctrl(theirs, EVP_CTRL_GCM_IV_GEN, len, other));
        CHECK(memcmp(mine, other, (size_t)len) == 0);
        CHECK(EVP_CIPHER_CTX_get_updated_iv(ours, whole, NONCE) && memcmp(whole + NONCE - len, mine, (size_t)len) == 0);
        nonces++;
    }
    EVP_CIPHER_CTX_free(ours);
    EVP_CIPHER_CTX_free(theirs);
}

/* The steps before a refusal, each over a context with a key and a nonce. */

static bool other_nonce_len(EVP_CIPHER_CTX *ctx) { return ctrl(ctx, EVP_CTRL_AEAD_SET_IVLEN, 16, NULL); }
static bool set_short_tag(EVP_CIPHER_CTX *ctx) { return ctrl(ctx, EVP_CTRL_AEAD_SET_TAG, 12, it.tag); }
static bool get_tag(EVP_CIPHER_CTX *ctx) { return ctrl(ctx, EVP_CTRL_AEAD_GET_TAG, TAG, out); }

/* The first 12 to 15 bytes of a tag are given. */
static bool get_parts(EVP_CIPHER_CTX *ctx) {
    uint8_t tag[TAG], part[TAG];
    bool are_right = ctrl(ctx, EVP_CTRL_AEAD_GET_TAG, TAG, tag);
    for (int len = 12; len < TAG; len++) {
        are_right &= ctrl(ctx, EVP_CTRL_AEAD_GET_TAG, len, part) && memcmp(part, tag, (size_t)len) == 0;
    }
    return are_right;
}

static bool get_11_bytes(EVP_CIPHER_CTX *ctx) { return ctrl(ctx, EVP_CTRL_AEAD_GET_TAG, 11, out); }
static bool text(EVP_CIPHER_CTX *ctx) { return update(ctx, out, it.text, 20); }
static bool aad(EVP_CIPHER_CTX *ctx) { return update(ctx, NULL, it.aad, 20); }
static bool fix_nonce(EVP_CIPHER_CTX *ctx) { return ctrl(ctx, EVP_CTRL_GCM_SET_IV_FIXED, -1, it.nonce); }
static bool fix_4_bytes(EVP_CIPHER_CTX *ctx) { return ctrl(ctx, EVP_CTRL_GCM_SET_IV_FIXED, 4, it.nonce); }
static bool make_nonce(EVP_CIPHER_CTX *ctx) { return ctrl(ctx, EVP_CTRL_GCM_IV_GEN, NONCE, out); }

static bool reset(EVP_CIPHER_CTX *ctx, const EVP_CIPHER *cipher, const uint8_t *key, const uint8_t *nonce) {
    return EVP_CIPHER_CTX_reset(ctx) && EVP_EncryptInit_ex(ctx, cipher, NULL, key, nonce);
}

static bool lose_key(EVP_CIPHER_CTX *ctx) { return reset(ctx, pairs[0].ours, NULL, it.nonce); }
static bool lose_nonce(EVP_CIPHER_CTX *ctx) { return reset(ctx, pairs[0].ours, it.key, NULL); }

/* OpenSSL's own cipher draws one. */
static bool lose_nonce_of_theirs(EVP_CIPHER_CTX *ctx) { return reset(ctx, pairs[0].theirs, it.key, NULL); }

static bool turn(EVP_CIPHER_CTX *ctx) { return init_with(ctx, !EVP_CIPHER_CTX_is_encrypting(ctx), NULL); }
static bool begin_to_open(EVP_CIPHER_CTX *ctx) { return EVP_DecryptInit_ex(ctx, NULL, NULL, NULL, it.nonce); }
static bool begin_record(EVP_CIPHER_CTX *ctx) { return record_aad(ctx, 0, EXPLICIT + 20); }
static bool record(EVP_CIPHER_CTX *ctx) { return EVP_Cipher(ctx, out, out, EXPLICIT + 20 + TAG) >= 0; }
static bool record_elsewhere(EVP_CIPHER_CTX *ctx) { return EVP_Cipher(ctx, out, it.text, EXPLICIT + 20 + TAG) >= 0; }

static bool copy(EVP_CIPHER_CTX *ctx) {
    EVP_CIPHER_CTX *to = EVP_CIPHER_CTX_new();
    bool copied;
    CHECK(to != NULL);
    copied = EVP_CIPHER_CTX_copy(to, ctx);
    EVP_CIPHER_CTX_free(to);
    return copied;
}

/* An update with a part of the sealed text, which gives zeros for it; or, where the output is a byte before it, is refused and
 * writes nothing. */
static void gives_zeros(EVP_CIPHER_CTX *ctx, const uint8_t *text, size_t len) {
    int written = -1;
    CHECK(EVP_DecryptUpdate(ctx, out, &written, text, (int)len) && written == 0 && ERR_peek_error() == 0);
    CHECK(are_zeros(out, len) && out[len] == 0xa7);
}

static void apart(EVP_CIPHER_CTX *ctx, size_t from, size_t to) {
    memset(out, 0xa7, sizeof out);
    gives_zeros(ctx, it.sealed + from, to - from);
}

static bool in_place(EVP_CIPHER_CTX *ctx, size_t from, size_t to) {
    memset(out, 0xa7, sizeof out);
    memcpy(out, it.sealed + from, to - from);
    gives_zeros(ctx, out, to - from);
    return true;
}

static bool overlapping(EVP_CIPHER_CTX *ctx, size_t from, size_t to) {
    int written = -1;
    memset(out, 0xa7, sizeof out);
    memcpy(out + 1, it.sealed + from, to - from);
    CHECK(!EVP_DecryptUpdate(ctx, out, &written, out + 1, (int)(to - from)));
    CHECK(reason_is("the output overlaps the input, and isn't the same"));
    return out[0] == 0xa7 && memcmp(out + 1, it.sealed + from, to - from) == 0;
}

/* The text is taken in, and none is given out: the end is refused. */
static bool give_none(EVP_CIPHER_CTX *ctx, size_t from, size_t to) {
    CHECK(overlapping(ctx, from, to));
    apart(ctx, from, to);
    return in_place(ctx, from, to) && overlapping(ctx, from, to);
}

static bool give_none_of_all(EVP_CIPHER_CTX *ctx) { return give_none(ctx, 0, it.len); }
static bool give_none_of_half(EVP_CIPHER_CTX *ctx) { return give_none(ctx, it.len / 2, it.len); }
static bool give_none_of_2_bytes(EVP_CIPHER_CTX *ctx) { return give_none(ctx, 0, 2); }
static bool all_in_place(EVP_CIPHER_CTX *ctx) { return in_place(ctx, 0, it.len); }
static bool byte_in_place(EVP_CIPHER_CTX *ctx) { return in_place(ctx, 0, 1); }
static bool open_all(EVP_CIPHER_CTX *ctx) { return update(ctx, out, it.sealed, it.len); }

/* The first piece has a false tag, as of a whole message. */
static bool open_half(EVP_CIPHER_CTX *ctx) { return update(ctx, out, it.sealed, it.len / 2) && are_zeros(out, it.len / 2); }
static bool overlap(EVP_CIPHER_CTX *ctx) { return overlapping(ctx, 0, it.len); }

/* An update that overlapped is made again. */
static bool open_again(EVP_CIPHER_CTX *ctx) {
    return update(ctx, out + 1, out + 1, it.len) && memcmp(out + 1, it.text, it.len) == 0;
}

static bool overlap_again(EVP_CIPHER_CTX *ctx) {
    memcpy(out, it.sealed, it.len);
    return update(ctx, out + 1, out, it.len);
}

/* With `late-tag = yes`, a piece is given out as it is. */
static bool take_half(EVP_CIPHER_CTX *ctx) { return update(ctx, out, it.sealed, it.len / 2); }

static bool give_none_elsewhere(EVP_CIPHER_CTX *ctx) {
    int written = -1, half = (int)it.len / 2;
    uint8_t *to = out + half + 1;
    return EVP_DecryptUpdate(ctx, to, &written, it.sealed + half, half) && written == 0 && are_zeros(to, (size_t)half);
}

/* The AAD of a record is given up with a call that is refused. */
static bool lose_record(EVP_CIPHER_CTX *ctx) {
    bool refused = begin_record(ctx) && !record_elsewhere(ctx);
    ERR_clear_error();
    return refused;
}

/* Of the steps, all but the last are taken. */
typedef struct {
    bool encrypting;
    const char *reason;
    step *steps[9]; /* and a null pointer */
} refusal;

static const char bad_tag[] = "a tag has 16 bytes, and is set to open a message";
static const char no_message[] = "no message was sealed to its end, which makes the tag";
static const char no_nonce[] = "no nonce is set";
static const char second[] = "a second message before a new nonce";
static const char copied[] = "a context that seals isn't copied: both would use one nonce";
static const char no_tag[] = "no tag is set before the message is opened";
static const char late_tag[] = "a tag is set after the update, and not before";
static const char in_pieces[] = "opening in pieces: a message is opened in one update";
static const char overlaps[] = "the output overlaps the input, and isn't the same";
static const char no_record[] = "not a record in place, under a nonce of which the first 4 bytes are fixed";

static const refusal refusals_always[] = {
    {true, "a nonce has 12 bytes", {other_nonce_len}},
    {false, bad_tag, {set_short_tag}},
    {true, bad_tag, {final, get_parts, get_11_bytes}},
    {true, bad_tag, {set_tag}},
    {true, no_message, {text, get_tag}},
    {true, no_message, {fix_nonce, make_nonce, text, final, get_tag, make_nonce, text, get_tag}},
    {false, no_message, {set_tag, turn, get_tag}},
    {true, "no key is set", {lose_key, text}},
    {true, no_nonce, {lose_nonce_of_theirs, text, final, lose_nonce, text}},
    {true, no_nonce, {fix_nonce, text}},
    {true, second, {text, final, text}},
    {true, second, {final, final}},
    {true, second, {text, final, init_again, text}},
    {true, second, {aad, set_key, text}},
    {true, second, {aad, set_key, aad}},
    {true, second, {text, set_key, text}},
    {true, second, {text, set_key, final}},
    {true, second, {text, turn, text}},
    {true, second, {text, turn, turn, final}},
    {true, second, {fix_4_bytes, begin_record, record, text}},
    {true, second, {lose_record, text}},
    {true, "AAD after the message has begun", {text, aad}},
    {true, copied, {text, copy}},
    {true, copied, {fix_nonce, copy}},
    {false, no_tag, {give_none_of_all, final}},
    {false, no_tag, {all_in_place, final}},
    {false, no_tag, {final}},
    {false, no_tag, {set_tag, open_all, final, begin_to_open, give_none_of_all, final}},
    {true, no_tag, {text, final, begin_to_open, give_none_of_all, final}},
    {false, late_tag, {give_none_of_all, set_tag}},
    {false, late_tag, {set_tag, open_all, set_tag}},
    {false, in_pieces, {set_tag, open_half, give_none_of_half, final}},
    {false, in_pieces, {set_tag, open_all, give_none_of_2_bytes, final}},
    {false, in_pieces, {set_tag, open_all, byte_in_place, final}},
    {false, second, {set_tag, open_all, turn, final}},
    {false, second, {set_tag, open_all, set_key, final}},
    {false, overlaps, {set_tag, overlap, open_again, overlap_again}},
    {true, no_record, {begin_record, record}},
    {true, no_record, {fix_4_bytes, begin_record, record_elsewhere}},
    {true, no_record, {fix_4_bytes, begin_record, init_again, record_elsewhere}},
    {true, no_record, {fix_4_bytes, begin_record, set_key, turn, turn, text}},
    {true, no_record, {fix_4_bytes, begin_record, final}},
    {false, NULL, {NULL}},
};

/* Those with `late-tag = yes`. */
static const refusal refusals_when_late[] = {
    {false, in_pieces, {take_half, give_none_elsewhere, final}},
    {false, in_pieces, {take_half, give_none_of_half, final}},
    {false, in_pieces, {set_tag, open_half, give_none_of_half, final}},
    {false, NULL, {NULL}},
};

static void refuses(const pair *by, const refusal *refused) {
    it.aad_len = 0;
    it.len = 100;
    seal(by->theirs, it.sealed, it.tag, it.text, 1);
    for (; refused->reason != NULL; refused++, refusals++) {
        EVP_CIPHER_CTX *ctx = context(by->ours, refused->encrypting);
        CHECK(ERR_peek_error() == 0);
        for (int i = 0; refused->steps[i] != NULL; i++) {
            bool is_last = refused->steps[i + 1] == NULL;
            if (refused->steps[i](ctx) != is_last) continue;
            fprintf(stderr, "step %d is %s: %s\n", i, is_last ? "not refused" : "refused", refused->reason);
            exit(1);
        }
        CHECK(reason_is(refused->reason));
        EVP_CIPHER_CTX_free(ctx);
    }
}

static bool has_opened(void) { return memcmp(out, it.text, it.len) == 0; }

static bool has_sealed(EVP_CIPHER_CTX *ctx) {
    uint8_t tag[TAG];
    return update(ctx, out, it.text, it.len) && final(ctx) && ctrl(ctx, EVP_CTRL_AEAD_GET_TAG, TAG, tag) &&
           memcmp(out, it.sealed, it.len) == 0 && memcmp(tag, it.tag, TAG) == 0;
}

/* Two contexts, for messages one after the other: the first may be given up. */
static void one_after_the_other(const pair *by) {
    EVP_CIPHER_CTX *seals = context(by->ours, true), *open = context(by->ours, false);
    CHECK(update(seals, NULL, it.aad, 10) && update(seals, out, it.text, 20) && update(open, NULL, it.aad, 10));
    for (int i = 0; i < 20; i++) {
        fill(it.nonce, NONCE);
        it.aad_len = some(MAX_AAD);
        it.len = some(300);
        seal(by->theirs, it.sealed, it.tag, it.text, 1);
        CHECK(EVP_EncryptInit_ex(seals, NULL, NULL, NULL, it.nonce) && EVP_DecryptInit_ex(open, NULL, NULL, NULL, it.nonce));
        add_aad(seals);
        CHECK(has_sealed(seals));
        add_aad(open);
        CHECK(set_tag(open) && open_all(open) && final(open) && has_opened());
        messages++;
    }
    EVP_CIPHER_CTX_free(seals);
    EVP_CIPHER_CTX_free(open);
}

/* A copy that is made before a byte is sealed goes on by itself, and so does one of a context that opens. */
static void copies(const pair *by) {
    EVP_CIPHER_CTX *from = context(by->ours, true), *to = EVP_CIPHER_CTX_new();
    it.aad_len = 30;
    seal(by->theirs, it.sealed, it.tag, it.text, 1);
    CHECK(update(from, NULL, it.aad, it.aad_len) && EVP_CIPHER_CTX_copy(to, from));
    EVP_CIPHER_CTX_free(from);
    CHECK(has_sealed(to));
    EVP_CIPHER_CTX_free(to);
    from = context(by->ours, false);
    to = EVP_CIPHER_CTX_new();
    CHECK(set_tag(from) && update(from, NULL, it.aad, it.aad_len));
    CHECK(EVP_CIPHER_CTX_copy(to, from) && open_all(to) && final(to) && has_opened());
    CHECK(open_all(from) && final(from) && has_opened());
    EVP_CIPHER_CTX_free(from);
    EVP_CIPHER_CTX_free(to);
}

/* With `late-tag = yes`: so many pieces of ciphertext, one after the other, in place too, are given out as they are. */
static EVP_CIPHER_CTX *waiting(const pair *by, unsigned pieces) {
    EVP_CIPHER_CTX *ctx = context(by->ours, false);
    const uint8_t *from = some(2) == 0 ? out : it.sealed;
    memset(out, 0xa7, sizeof out);
    if (from == out) memcpy(out, it.sealed, it.len);
    add_aad(ctx);
    update_in_pieces(ctx, out, from, pieces);
    CHECK(memcmp(out, it.sealed, it.len) == 0);
    return ctx;
}

/* The end opens the message where its ciphertext was given out; for a false tag, and for none, zeros are left. */
static void late_tags(const pair *by) {
    EVP_CIPHER_CTX *ctx;
    some_message(by);
    ctx = waiting(by, 1 + some(MAX_PIECES));
    CHECK(set_tag(ctx) && final(ctx) && memcmp(out, it.text, it.len) == 0 && out[it.len] == 0xa7);
    CHECK(!final(ctx) && reason_is(second));
    EVP_CIPHER_CTX_free(ctx);
    ctx = waiting(by, 1 + some(MAX_PIECES));
    CHECK(!final(ctx) && reason_is(no_tag) && are_zeros(out, it.len));
    EVP_CIPHER_CTX_free(ctx);
    forge();
    ctx = waiting(by, 1 + some(MAX_PIECES));
    CHECK(set_tag(ctx) && !final(ctx) && ERR_peek_error() == 0 && are_zeros(out, it.len) && out[it.len] == 0xa7);
    EVP_CIPHER_CTX_free(ctx);
    messages++;
}

/* With `late-tag = yes`, a tag may be set between two pieces, but not in a copy of a context. A message is given up, with its
 * tag, before the next one. */
static void late_messages(const pair *by) {
    EVP_CIPHER_CTX *ctx = context(by->ours, false), *of = EVP_CIPHER_CTX_new();
    CHECK(take_half(ctx) && of != NULL && EVP_CIPHER_CTX_copy(of, ctx));
    CHECK(!set_tag(of) && reason_is(late_tag));
    CHECK(!final(of) && reason_is(no_tag));
    refusals += 2;
    CHECK(set_tag(ctx) && update(ctx, out + 50, it.sealed + 50, 50) && final(ctx) && has_opened());
    EVP_CIPHER_CTX_free(of);
    EVP_CIPHER_CTX_free(ctx);
    ctx = context(by->ours, false);
    CHECK(take_half(ctx) && set_tag(ctx) && begin_to_open(ctx) && open_all(ctx) && set_tag(ctx) && final(ctx) && has_opened());
    EVP_CIPHER_CTX_free(ctx);
}

static void beyond_the_limit(int number) {
    (void)number;
    _Exit(2);
}

int main(int argc, char **argv) {
    long rounds = argc == 2 || argc == 3 ? strtol(argv[1], NULL, 10) : 0;
    bool late = argc == 3 && strcmp(argv[2], "late") == 0, handles = argc == 3 && strcmp(argv[2], "handles") == 0;
    CHECK(rounds > 0 && (late || handles) == (argc == 3));
    CHECK(!handles || signal(SIGXFSZ, beyond_the_limit) != SIG_ERR);
    CHECK(CRYPTO_set_mem_functions(allocate, reallocate, release));
    fetch(&pairs[0], "AES-128-GCM", "id-aes128-GCM", "2.16.840.1.101.3.4.1.6", 16);
    fetch(&pairs[1], "AES-256-GCM", "id-aes256-GCM", "2.16.840.1.101.3.4.1.46", 32);
    for (int i = 0; i < 2; i++) {
        for (long round = 0; round < rounds; round++) {
            a_message(&pairs[i]);
            a_message_with_others(&pairs[i], late);
            if (late) late_tags(&pairs[i]);
        }
        fill(it.text, sizeof it.text);
        some_records(pairs[i].ours, pairs[i].theirs, false);
        some_records(pairs[i].theirs, pairs[i].ours, true);
        some_records(pairs[i].ours, pairs[i].ours, true);
        made_nonces(&pairs[i]);
        refuses(&pairs[i], late ? refusals_when_late : refusals_always);
        if (late) late_messages(&pairs[i]);
        copies(&pairs[i]);
        one_after_the_other(&pairs[i]);
        EVP_CIPHER_free(pairs[i].ours);
        EVP_CIPHER_free(pairs[i].theirs);
    }
    printf("%lu messages, %lu records of TLS 1.2 and %lu nonces as OpenSSL's own, with %lu calls between that change nothing, and \
%lu refusals with their reasons\n",
           messages, records, nonces, between, refusals);
    return 0;
}
