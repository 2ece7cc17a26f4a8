// SPDX-License-Identifier: Apache-2.0
/* AES-128-GCM and AES-256-GCM for OpenSSL 3: the functions that provider-cipher(7) names, over the calls of deerlapse.h.
 *
 * A message is sealed in one update or in several. It is opened in one, with the tag set before, or, if the configuration
 * has `late-tag = yes`, by `final`, in the memory to which the updates have copied the ciphertext: no byte of plaintext is
 * written before the tag is verified. Nonces have 12 bytes, and tags 16. docs/guide/OPENSSL.md lists what is refused.
 *
 * A function returns 1, or 0 for a refusal, whose reason is then in OpenSSL's error queue. For a false tag there is none, as
 * with OpenSSL's own ciphers: libssl goes on after some records that it can't open, and an error that was left in the queue
 * would end the connection. */
#include "provider.h"
#include <deerlapse.h>
#include <openssl/core_names.h>
#include <openssl/evp.h>
#include <openssl/params.h>
#include <openssl/rand.h>
#include <string.h>

enum {
    NONCE = DEERLAPSE_NONCE_LEN,
    TAG = DEERLAPSE_TAG_LEN,
    SHORTEST_TAG = 12,
    FIXED = EVP_GCM_TLS_FIXED_IV_LEN,
    EXPLICIT = EVP_GCM_TLS_EXPLICIT_IV_LEN,
    RECORD_AAD = EVP_AEAD_TLS1_AAD_LEN
};

/* How far the message under the context's nonce is. */
typedef enum {
    UNNAMED, /* no nonce is set */
    NAMED,   /* one is, and no byte was sealed or opened under it */
    SEALING, /* `message` has begun */
    WAITING, /* its ciphertext is in `late`, and `final` opens it there */
    OPENED,  /* the message was opened */
    REFUSED, /* it wasn't, which `final` says */
    OVER     /* another nonce is needed */
} stage;

typedef struct {
    const provider *provider;
    size_t key_len;
    bool encrypting, has_key;
    bool has_tag; /* sealing: made at the end. Opening: set before the update, which takes it */
    stage stage;
    int why; /* of REFUSED: its reason, or 0 for a false tag */
    uint8_t nonce[NONCE], tag[TAG];
    bool counts; /* nonces are made: `nonce` begins with fixed bytes, and ends with a number */
    uint64_t number, left; /* the number of the next, and how many there are */
    bool has_record; /* the next update is a record of TLS 1.2 with this AAD */
    uint8_t record_aad[RECORD_AAD];
    uint8_t *late; /* of WAITING: what the updates have written, the caller's memory */
    size_t late_len;
    uint8_t *aad;
    size_t aad_len, aad_room;
    deerlapse_key key;
    deerlapse_message message;
} context;

/* Gives up a message that has begun, be it by its AAD, with the keystream that is kept of it, or with the tag for which it
 * waited. What follows is refused until there is another nonce. */
static void give_up(context *c) {
    if (c->stage == SEALING) OPENSSL_cleanse(&c->message, sizeof c->message);
    if (c->stage == WAITING) c->has_tag = false;
    if (c->stage != UNNAMED && (c->stage != NAMED || c->aad_len > 0)) c->stage = OVER;
    c->aad_len = 0;
}

/* Another message is begun, under the nonce in `nonce`. The tag that opens it may be set already. */
static void named(context *c) {
    give_up(c);
    c->stage = NAMED;
    if (c->encrypting) c->has_tag = false;
}

/* OpenSSL calls them for a new EVP_CIPHER_CTX. */
static context *new_context(void *of, size_t key_len) {
    KEEP_ERRNO;
    context *c = OPENSSL_zalloc(sizeof *c);
    if (c == NULL) return NULL;
    c->provider = of;
    c->key_len = key_len;
    return c;
}

static OSSL_FUNC_cipher_newctx_fn new_128, new_256;
static void *new_128(void *of) { return new_context(of, 16); }
static void *new_256(void *of) { return new_context(of, 32); }

/* OpenSSL calls it for EVP_CIPHER_CTX_free and _reset. The key is wiped, and with it all else. */
static OSSL_FUNC_cipher_freectx_fn free_context;
static void free_context(void *v) {
    KEEP_ERRNO;
    context *c = v;
    if (c == NULL) return;
    OPENSSL_clear_free(c->aad, c->aad_room);
    OPENSSL_clear_free(c, sizeof *c);
}

/* Keeps AAD until the message begins. */
static bool append_aad(context *c, const uint8_t *in, size_t len) {
    if (len > c->aad_room - c->aad_len) {
        size_t room = 2 * (c->aad_len + len);
        uint8_t *aad = OPENSSL_clear_realloc(c->aad, c->aad_room, room);
        if (aad == NULL) return false;
        c->aad = aad;
        c->aad_room = room;
    }
    if (len > 0) memcpy(c->aad + c->aad_len, in, len);
    c->aad_len += len;
    return true;
}

/* For EVP_CIPHER_CTX_copy and _dup. A message that waits for its tag is opened by the first context alone. */
static OSSL_FUNC_cipher_dupctx_fn copy_context;
static void *copy_context(void *v) {
    KEEP_ERRNO;
    const context *from = v;
    context *c;
    if (from->stage == SEALING || (from->encrypting && from->counts)) {
        refuse(from->provider, COPY);
        return NULL;
    }
    c = OPENSSL_memdup(from, sizeof *from);
    if (c == NULL) return NULL;
    c->aad = NULL;
    c->aad_len = c->aad_room = 0;
    if (c->stage == WAITING) {
        c->stage = REFUSED;
        c->why = NO_TAG;
    }
    if (append_aad(c, from->aad, from->aad_len)) return c;
    free_context(c);
    return NULL;
}

/* For EVP_EncryptInit_ex and EVP_DecryptInit_ex: each of key, nonce and parameters may be missing, and is then as before. So is
 * the message, with its AAD, and the AAD of a record, as in OpenSSL's own cipher. A new nonce begins another message. Without
 * one, a new key gives up a message that has begun, and another direction gives up one whose text has. */
static OSSL_FUNC_cipher_set_ctx_params_fn set_params;

static int init(context *c, const uint8_t *key, size_t key_len, const uint8_t *nonce, size_t nonce_len,
                const OSSL_PARAM params[], bool encrypting) {
    KEEP_ERRNO;
    bool turns = encrypting != c->encrypting;
    if (turns) c->has_tag = false;
    if (key != NULL || (turns && c->stage != NAMED)) give_up(c);
    c->encrypting = encrypting;
    if (key != NULL) {
        c->has_key = key_len == c->key_len && deerlapse_key_init(&c->key, key, key_len);
        if (!c->has_key) return refuse(c->provider, KEY_LENGTH);
        report(c->provider, MAKES_KEY);
    }
    if (nonce != NULL) {
        if (nonce_len != NONCE) return refuse(c->provider, NONCE_LENGTH);
        memcpy(c->nonce, nonce, NONCE);
        named(c);
    }
    return set_params(c, params);
}

static OSSL_FUNC_cipher_encrypt_init_fn encrypt_init;
static int encrypt_init(void *c, const unsigned char *key, size_t key_len, const unsigned char *nonce, size_t nonce_len,
                        const OSSL_PARAM params[]) {
    return init(c, key, key_len, nonce, nonce_len, params, true);
}

static OSSL_FUNC_cipher_decrypt_init_fn decrypt_init;
static int decrypt_init(void *c, const unsigned char *key, size_t key_len, const unsigned char *nonce, size_t nonce_len,
                        const OSSL_PARAM params[]) {
    return init(c, key, key_len, nonce, nonce_len, params, false);
}

/* Takes the next nonce that is made. Its number is big-endian. */
static bool next_nonce(context *c) {
    if (!c->counts || c->left == 0) return false;
    c->left--;
    for (int i = 0; i < EXPLICIT; i++) c->nonce[NONCE - 1 - i] = (uint8_t)(c->number >> 8 * i);
    c->number++;
    named(c);
    return true;
}

/* The three calls that seal a message in pieces. */
static bool begins(context *c) {
    if (c->stage == SEALING) return true;
    c->stage = SEALING;
    return deerlapse_key_begin(&c->key, c->nonce, c->aad, c->aad_len, &c->message);
}

static bool updates(context *c, uint8_t *in_out, size_t len) {
    return begins(c) && deerlapse_key_update(&c->key, &c->message, in_out, len);
}

static bool finishes(context *c) { return begins(c) && deerlapse_key_finish(&c->key, &c->message, c->tag); }

/* Seals a piece of the message. */
static int seal(context *c, uint8_t *out, size_t *out_len, const uint8_t *in, size_t len) {
    if (out != in) memmove(out, in, len);
    if (!updates(c, out, len)) {
        if (out != in) OPENSSL_cleanse(out, len);
        give_up(c);
        return refuse(c->provider, TOO_LONG);
    }
    *out_len = len;
    return 1;
}

/* Whether the bytes are some of the same, and don't begin with the same. */
static bool overlap(const uint8_t *out, const uint8_t *in, size_t len) {
    uintptr_t a = (uintptr_t)out, b = (uintptr_t)in;
    return a != b && (a < b ? b - a : a - b) < len;
}

/* Takes in text that isn't opened, and gives out zeros, in place too. `final` is where EVP reports a false tag, and where every
 * program looks: BIO_f_cipher(3) takes an update that fails for the end of the text. */
static int give_none(context *c, int why, uint8_t *out, size_t len) {
    c->stage = REFUSED;
    c->why = why;
    memset(out, 0, len);
    return 1;
}

/* Keeps ciphertext in the caller's memory, after what it continues, until there is a tag. */
static int wait_for_tag(context *c, uint8_t *out, size_t *out_len, const uint8_t *in, size_t len) {
    if (c->stage == NAMED) {
        c->late = out;
        c->late_len = 0;
    }
    c->stage = WAITING;
    memmove(out, in, len);
    c->late_len += len;
    *out_len = len;
    return 1;
}

/* Opens the message, which is `in` as a whole, or keeps a piece of it. For a false tag, zeros are written and their number
 * is returned, since OpenSSL's own cipher returns that length and some programs abort at another. */
static int open(context *c, uint8_t *out, size_t *out_len, const uint8_t *in, size_t len) {
    bool continues = c->stage == WAITING && out == c->late + c->late_len;
    if (overlap(out, in, len)) return refuse(c->provider, OVERLAP);
    if (c->stage == REFUSED && c->why == NO_TAG) return give_none(c, NO_TAG, out, len);
    if (c->stage != NAMED && !continues) return give_none(c, OPENING_IN_PIECES, out, len);
    if (continues) return wait_for_tag(c, out, out_len, in, len);
    if (!c->has_tag && c->provider->late_tag && len > 0) return wait_for_tag(c, out, out_len, in, len);
    if (!c->has_tag) return give_none(c, NO_TAG, out, len);
    if (len > 0) report(c->provider, TAG_BEFORE_TEXT);
    c->has_tag = false;
    if (deerlapse_key_open_to(&c->key, c->nonce, c->aad, c->aad_len, in, len, out, c->tag)) {
        c->stage = OPENED;
    } else {
        c->stage = REFUSED;
        c->why = 0;
        memset(out, 0, len);
    }
    *out_len = len;
    return 1;
}

/* Opens the message that waits, in place, if there is a tag. Otherwise, or if it is false, its bytes become zeros. */
static void open_late(context *c) {
    bool opened = c->has_tag && deerlapse_key_open_separate_tag(&c->key, c->nonce, c->aad, c->aad_len, c->late,
                                                                c->late_len, 0, c->tag);
    if (!opened) memset(c->late, 0, c->late_len);
    c->stage = opened ? OPENED : REFUSED;
    c->why = c->has_tag ? 0 : NO_TAG;
    c->has_tag = false;
}

/* A record of TLS 1.2 or DTLS 1.2, in place: eight bytes of the nonce, the text and the tag (RFC 5288 section 3). Also if
 * it is refused, it ends what has begun, and another nonce is needed. */
static int record(context *c, uint8_t *bytes, size_t *out_len, size_t room, const uint8_t *in, size_t len) {
    uint8_t *text;
    size_t text_len;
    bool done;
    give_up(c);
    c->stage = OVER;
    c->has_record = false;
    *out_len = 0;
    if (!c->has_key) return refuse(c->provider, NO_KEY);
    if (!c->counts || bytes == NULL || bytes != in || room < len) return refuse(c->provider, NO_RECORD);
    if (len < EXPLICIT + TAG) return 0;
    text = bytes + EXPLICIT;
    text_len = len - EXPLICIT - TAG;
    if (c->encrypting) {
        if (!next_nonce(c)) return refuse(c->provider, NO_NONCE);
        c->stage = OVER;
        memcpy(bytes, c->nonce + FIXED, EXPLICIT);
        done = deerlapse_key_seal(&c->key, c->nonce, c->record_aad, RECORD_AAD, text, text_len, text + text_len);
    } else {
        memcpy(c->nonce + FIXED, bytes, EXPLICIT);
        done = deerlapse_key_open_separate_tag(&c->key, c->nonce, c->record_aad, RECORD_AAD, text, text_len, 0,
                                               text + text_len);
    }
    if (done) *out_len = c->encrypting ? len : text_len;
    return done;
}

/* Whether the message may begin or go on. */
static bool goes_on(const context *c) {
    if (!c->has_key) return refuse(c->provider, NO_KEY);
    if (c->stage == UNNAMED) return refuse(c->provider, NO_NONCE);
    if (c->stage == OVER) return refuse(c->provider, SECOND_MESSAGE);
    return true;
}

/* For EVP_EncryptUpdate and EVP_DecryptUpdate: AAD where `out` is null, else text. */
static OSSL_FUNC_cipher_update_fn update;
static int update(void *v, unsigned char *out, size_t *out_len, size_t out_room, const unsigned char *in, size_t len) {
    KEEP_ERRNO;
    context *c = v;
    *out_len = 0;
    if (len == 0) return 1;
    if (c->has_record) return record(c, out, out_len, out_room, in, len);
    if (!goes_on(c)) return 0;
    if (out == NULL) {
        if (c->stage != NAMED) return refuse(c->provider, LATE_AAD);
        *out_len = len;
        return append_aad(c, in, len);
    }
    if (out_room < len) return refuse(c->provider, SHORT_OUTPUT);
    return c->encrypting ? seal(c, out, out_len, in, len) : open(c, out, out_len, in, len);
}

/* For EVP_EncryptFinal_ex and EVP_DecryptFinal_ex. A message without text is opened here. */
static OSSL_FUNC_cipher_final_fn final;
static int final(void *v, unsigned char *out, size_t *out_len, size_t out_room) {
    KEEP_ERRNO;
    context *c = v;
    uint8_t none = 0;
    bool opened;
    *out_len = 0;
    if (c->has_record) return record(c, out, out_len, out_room, NULL, 0);
    if (!goes_on(c)) return 0;
    if (c->encrypting) {
        c->has_tag = finishes(c);
        c->stage = OVER;
        return c->has_tag || refuse(c->provider, TOO_LONG);
    }
    if (c->stage == NAMED) open(c, &none, out_len, &none, 0);
    if (c->stage == WAITING) open_late(c);
    opened = c->stage == OPENED;
    c->stage = OVER;
    return opened || (c->why != 0 && refuse(c->provider, c->why));
}

/* For EVP_Cipher, which libssl and OpenSSH call: an update, or the end where `in` is null. The length of a record is that of
 * the input, as of OpenSSL's own cipher. */
static OSSL_FUNC_cipher_cipher_fn cipher;
static int cipher(void *v, unsigned char *out, size_t *out_len, size_t out_room, const unsigned char *in, size_t len) {
    KEEP_ERRNO;
    context *c = v;
    if (in == NULL) return final(v, out, out_len, out_room);
    if (!c->has_record) return update(v, out, out_len, out_room, in, len);
    if (!record(c, out, out_len, out_room, in, len)) return 0;
    *out_len = len;
    return 1;
}

/* What an EVP_CIPHER is. */
static OSSL_FUNC_cipher_gettable_params_fn gettable;
static const OSSL_PARAM *gettable(void *of) {
    static const OSSL_PARAM params[] = {
        OSSL_PARAM_uint(OSSL_CIPHER_PARAM_MODE, NULL),
        OSSL_PARAM_size_t(OSSL_CIPHER_PARAM_KEYLEN, NULL),
        OSSL_PARAM_size_t(OSSL_CIPHER_PARAM_IVLEN, NULL),
        OSSL_PARAM_size_t(OSSL_CIPHER_PARAM_BLOCK_SIZE, NULL),
        OSSL_PARAM_int(OSSL_CIPHER_PARAM_AEAD, NULL),
        OSSL_PARAM_int(OSSL_CIPHER_PARAM_CUSTOM_IV, NULL),
        OSSL_PARAM_END,
    };
    (void)of;
    return params;
}

/* Sets a parameter, if it is asked for. */
static bool gives_size(OSSL_PARAM params[], const char *name, size_t value) {
    OSSL_PARAM *param = OSSL_PARAM_locate(params, name);
    return param == NULL || OSSL_PARAM_set_size_t(param, value);
}

static bool gives_number(OSSL_PARAM params[], const char *name, int value) {
    OSSL_PARAM *param = OSSL_PARAM_locate(params, name);
    return param == NULL || OSSL_PARAM_set_int(param, value);
}

static int params_of(OSSL_PARAM params[], size_t key_len) {
    KEEP_ERRNO;
    return gives_number(params, OSSL_CIPHER_PARAM_MODE, EVP_CIPH_GCM_MODE) &&
           gives_size(params, OSSL_CIPHER_PARAM_KEYLEN, key_len) && gives_size(params, OSSL_CIPHER_PARAM_IVLEN, NONCE) &&
           gives_size(params, OSSL_CIPHER_PARAM_BLOCK_SIZE, 1) && gives_number(params, OSSL_CIPHER_PARAM_AEAD, 1) &&
           gives_number(params, OSSL_CIPHER_PARAM_CUSTOM_IV, 1);
}

static OSSL_FUNC_cipher_get_params_fn params_128, params_256;
static int params_128(OSSL_PARAM params[]) { return params_of(params, 16); }
static int params_256(OSSL_PARAM params[]) { return params_of(params, 32); }

/* What EVP_CIPHER_CTX_get_params and the EVP_CTRL_ that go by it may ask of a context. */
static OSSL_FUNC_cipher_gettable_ctx_params_fn gettable_of_context;
static const OSSL_PARAM *gettable_of_context(void *c, void *of) {
    static const OSSL_PARAM params[] = {
        OSSL_PARAM_size_t(OSSL_CIPHER_PARAM_KEYLEN, NULL),
        OSSL_PARAM_size_t(OSSL_CIPHER_PARAM_IVLEN, NULL),
        OSSL_PARAM_size_t(OSSL_CIPHER_PARAM_AEAD_TAGLEN, NULL),
        OSSL_PARAM_size_t(OSSL_CIPHER_PARAM_AEAD_TLS1_AAD_PAD, NULL),
        OSSL_PARAM_octet_string(OSSL_CIPHER_PARAM_IV, NULL, 0),
        OSSL_PARAM_octet_string(OSSL_CIPHER_PARAM_UPDATED_IV, NULL, 0),
        OSSL_PARAM_octet_string(OSSL_CIPHER_PARAM_AEAD_TAG, NULL, 0),
        OSSL_PARAM_octet_string(OSSL_CIPHER_PARAM_AEAD_TLS1_GET_IV_GEN, NULL, 0),
        OSSL_PARAM_END,
    };
    (void)c, (void)of;
    return params;
}

/* The nonce, as bytes or as a pointer to them. */
static bool gives_nonce(const context *c, OSSL_PARAM params[], const char *name) {
    OSSL_PARAM *param = OSSL_PARAM_locate(params, name);
    if (param == NULL) return true;
    if (c->stage == UNNAMED) return refuse(c->provider, NO_NONCE);
    return OSSL_PARAM_set_octet_string(param, c->nonce, NONCE) || OSSL_PARAM_set_octet_ptr(param, c->nonce, NONCE);
}

/* EVP_CTRL_AEAD_GET_TAG, after a message was sealed: the tag, or its first 12 to 15 bytes (SP 800-38D section 5.2.1.2). */
static bool gives_tag(const context *c, OSSL_PARAM params[]) {
    OSSL_PARAM *param = OSSL_PARAM_locate(params, OSSL_CIPHER_PARAM_AEAD_TAG);
    size_t len;
    if (param == NULL) return true;
    if (!c->encrypting || !c->has_tag) return refuse(c->provider, TAG_OF_NO_MESSAGE);
    len = param->data == NULL ? TAG : param->data_size;
    if (len < SHORTEST_TAG || len > TAG) return refuse(c->provider, TAG_LENGTH);
    return OSSL_PARAM_set_octet_string(param, c->tag, len);
}

/* EVP_CTRL_GCM_IV_GEN: the next nonce is taken, and its last bytes are written, or all if the length is 0. */
static bool gives_next_nonce(context *c, OSSL_PARAM params[]) {
    OSSL_PARAM *param = OSSL_PARAM_locate(params, OSSL_CIPHER_PARAM_AEAD_TLS1_GET_IV_GEN);
    size_t len;
    if (param == NULL) return true;
    if (param->data == NULL || param->data_type != OSSL_PARAM_OCTET_STRING) return refuse(c->provider, NONCE_LENGTH);
    if (!next_nonce(c)) return refuse(c->provider, NO_NONCE);
    len = param->data_size == 0 || param->data_size > NONCE ? NONCE : param->data_size;
    memcpy(param->data, c->nonce + NONCE - len, len);
    return true;
}

static OSSL_FUNC_cipher_get_ctx_params_fn get_params;
static int get_params(void *v, OSSL_PARAM params[]) {
    KEEP_ERRNO;
    context *c = v;
    return gives_size(params, OSSL_CIPHER_PARAM_KEYLEN, c->key_len) && gives_size(params, OSSL_CIPHER_PARAM_IVLEN, NONCE) &&
           gives_size(params, OSSL_CIPHER_PARAM_AEAD_TAGLEN, TAG) &&
           gives_size(params, OSSL_CIPHER_PARAM_AEAD_TLS1_AAD_PAD, TAG) && gives_nonce(c, params, OSSL_CIPHER_PARAM_IV) &&
           gives_nonce(c, params, OSSL_CIPHER_PARAM_UPDATED_IV) && gives_tag(c, params) && gives_next_nonce(c, params);
}

/* What EVP_CIPHER_CTX_set_params and the EVP_CTRL_ that go by it may set. */
static OSSL_FUNC_cipher_settable_ctx_params_fn settable_of_context;
static const OSSL_PARAM *settable_of_context(void *c, void *of) {
    static const OSSL_PARAM params[] = {
        OSSL_PARAM_size_t(OSSL_CIPHER_PARAM_AEAD_IVLEN, NULL),
        OSSL_PARAM_octet_string(OSSL_CIPHER_PARAM_AEAD_TAG, NULL, 0),
        OSSL_PARAM_octet_string(OSSL_CIPHER_PARAM_AEAD_TLS1_AAD, NULL, 0),
        OSSL_PARAM_octet_string(OSSL_CIPHER_PARAM_AEAD_TLS1_IV_FIXED, NULL, 0),
        OSSL_PARAM_octet_string(OSSL_CIPHER_PARAM_AEAD_TLS1_SET_IV_INV, NULL, 0),
        OSSL_PARAM_END,
    };
    (void)c, (void)of;
    return params;
}

/* The bytes of a parameter that may have `size` of them, or null. */
static const uint8_t *bytes_of(const OSSL_PARAM *param, size_t size) {
    return param->data_type == OSSL_PARAM_OCTET_STRING && param->data_size == size ? param->data : NULL;
}

/* EVP_CTRL_AEAD_SET_IVLEN */
static bool takes_nonce_len(const context *c, const OSSL_PARAM params[]) {
    const OSSL_PARAM *param = OSSL_PARAM_locate_const(params, OSSL_CIPHER_PARAM_AEAD_IVLEN);
    size_t len;
    return param == NULL || (OSSL_PARAM_get_size_t(param, &len) && len == NONCE) || refuse(c->provider, NONCE_LENGTH);
}

/* EVP_CTRL_AEAD_SET_TAG, before the update that opens the message, or before `final` if the message waits for it. */
static bool takes_tag(context *c, const OSSL_PARAM params[]) {
    const OSSL_PARAM *param = OSSL_PARAM_locate_const(params, OSSL_CIPHER_PARAM_AEAD_TAG);
    const uint8_t *tag;
    if (param == NULL) return true;
    tag = bytes_of(param, TAG);
    if (c->encrypting || tag == NULL) return refuse(c->provider, TAG_LENGTH);
    if (c->stage == WAITING || (c->stage == REFUSED && c->why == NO_TAG)) report(c->provider, TAG_AFTER_TEXT);
    if (c->stage == OPENED || c->stage == REFUSED) return refuse(c->provider, LATE_TAG);
    memcpy(c->tag, tag, TAG);
    c->has_tag = true;
    return true;
}

/* EVP_CTRL_AEAD_TLS1_AAD: the next update is a record. The AAD ends with its length, which is to be that of the text. */
static bool takes_record_aad(context *c, const OSSL_PARAM params[]) {
    const OSSL_PARAM *param = OSSL_PARAM_locate_const(params, OSSL_CIPHER_PARAM_AEAD_TLS1_AAD);
    size_t len, more = EXPLICIT + (c->encrypting ? 0 : TAG);
    const uint8_t *aad;
    if (param == NULL) return true;
    aad = bytes_of(param, RECORD_AAD);
    if (aad == NULL) return refuse(c->provider, NO_RECORD);
    len = (size_t)aad[RECORD_AAD - 2] << 8 | aad[RECORD_AAD - 1];
    if (len < more) return false;
    memcpy(c->record_aad, aad, RECORD_AAD);
    c->record_aad[RECORD_AAD - 2] = (uint8_t)((len - more) >> 8);
    c->record_aad[RECORD_AAD - 1] = (uint8_t)(len - more);
    c->has_record = true;
    return true;
}

/* EVP_CTRL_GCM_SET_IV_FIXED: nonces are made from here on. The first 4 bytes are given, and the number begins anywhere; or
 * the whole first nonce is given, where EVP passes a length of -1. None is set before one is made. */
static bool takes_fixed(context *c, const OSSL_PARAM params[]) {
    const OSSL_PARAM *param = OSSL_PARAM_locate_const(params, OSSL_CIPHER_PARAM_AEAD_TLS1_IV_FIXED);
    uint8_t first[NONCE] = {0};
    const uint8_t *whole, *fixed;
    if (param == NULL) return true;
    whole = bytes_of(param, (size_t)-1);
    fixed = bytes_of(param, FIXED);
    if (whole == NULL && fixed == NULL) return refuse(c->provider, NONCE_LENGTH);
    if (whole != NULL) memcpy(first, whole, NONCE);
    if (fixed != NULL) memcpy(first, fixed, FIXED);
    if (fixed != NULL && c->encrypting && RAND_bytes(first + FIXED, EXPLICIT) <= 0) return false;
    memcpy(c->nonce, first, NONCE);
    c->number = 0;
    for (int i = FIXED; i < NONCE; i++) c->number = c->number << 8 | first[i];
    c->left = UINT64_MAX;
    c->counts = true;
    give_up(c);
    c->stage = UNNAMED;
    return true;
}

/* EVP_CTRL_GCM_SET_IV_INV: the last bytes of the nonce, as the peer sent them. */
static bool takes_explicit(context *c, const OSSL_PARAM params[]) {
    const OSSL_PARAM *param = OSSL_PARAM_locate_const(params, OSSL_CIPHER_PARAM_AEAD_TLS1_SET_IV_INV);
    const uint8_t *bytes;
    if (param == NULL) return true;
    bytes = param->data_size <= NONCE ? bytes_of(param, param->data_size) : NULL;
    if (bytes == NULL) return refuse(c->provider, NONCE_LENGTH);
    if (!c->counts || c->encrypting) return refuse(c->provider, NO_NONCE);
    memcpy(c->nonce + NONCE - param->data_size, bytes, param->data_size);
    named(c);
    return true;
}

static int set_params(void *v, const OSSL_PARAM params[]) {
    KEEP_ERRNO;
    context *c = v;
    return params == NULL || (takes_nonce_len(c, params) && takes_tag(c, params) && takes_record_aad(c, params) &&
                              takes_fixed(c, params) && takes_explicit(c, params));
}

#define FUNCTIONS(new_context, params_of_cipher)                                     \
    {                                                                                \
        {OSSL_FUNC_CIPHER_NEWCTX, (void (*)(void))new_context},                      \
        {OSSL_FUNC_CIPHER_FREECTX, (void (*)(void))free_context},                    \
        {OSSL_FUNC_CIPHER_DUPCTX, (void (*)(void))copy_context},                     \
        {OSSL_FUNC_CIPHER_ENCRYPT_INIT, (void (*)(void))encrypt_init},               \
        {OSSL_FUNC_CIPHER_DECRYPT_INIT, (void (*)(void))decrypt_init},               \
        {OSSL_FUNC_CIPHER_UPDATE, (void (*)(void))update},                           \
        {OSSL_FUNC_CIPHER_FINAL, (void (*)(void))final},                             \
        {OSSL_FUNC_CIPHER_CIPHER, (void (*)(void))cipher},                           \
        {OSSL_FUNC_CIPHER_GET_PARAMS, (void (*)(void))params_of_cipher},             \
        {OSSL_FUNC_CIPHER_GETTABLE_PARAMS, (void (*)(void))gettable},                \
        {OSSL_FUNC_CIPHER_GET_CTX_PARAMS, (void (*)(void))get_params},               \
        {OSSL_FUNC_CIPHER_GETTABLE_CTX_PARAMS, (void (*)(void))gettable_of_context}, \
        {OSSL_FUNC_CIPHER_SET_CTX_PARAMS, (void (*)(void))set_params},               \
        {OSSL_FUNC_CIPHER_SETTABLE_CTX_PARAMS, (void (*)(void))settable_of_context}, \
        {0, NULL},                                                                   \
    }

const OSSL_DISPATCH aes_128_gcm[] = FUNCTIONS(new_128, params_128);
const OSSL_DISPATCH aes_256_gcm[] = FUNCTIONS(new_256, params_256);
