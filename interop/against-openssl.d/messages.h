/* A message, and every call that seals or opens it. Messages of AES-GCM and XAES-256-GCM are sealed and opened by the bytes of a
 * key, by an expanded key, in pieces, by a sealer and by an opener; those of QUIC and TLS 1.3 by the keys of packets and of
 * records. Each call must write what is expected, and refuse each change of what it opens. Each buffer is a block of its own with
 * canaries, so that the sanitizers see what lies outside of it. */
#ifndef MESSAGES_H
#define MESSAGES_H

#include "expected.h"

#ifndef MAX_START
#define MAX_START 0
#endif

typedef enum { GCM, XAES, PACKET, RECORD } kind;

/* A key, a nonce that is made of an IV and a number, an AAD, a message, and what it must be sealed to. The key of a packet or a record
 * may come from a secret. The message of a record is its content, a type and zeros, and its AAD is the header. */
typedef struct {
    kind kind;
    uint32_t version;
    uint8_t secret[DEERLAPSE_SHA384_LEN], key[32], iv[XAES_NONCE], nonce[XAES_NONCE], aad[MAX_AAD + 1], content_type;
    size_t secret_len, key_len, nonce_len, aad_len, len, content_len;
    uint64_t number;
    uint8_t message[MAX_MESSAGE + TAG + 1], sealed[MAX_MESSAGE + TAG + 1];
} sealing;

static void set_nonce(sealing *s) {
    memcpy(s->nonce, s->iv, XAES_NONCE);
    for (int i = 0; i < 8; i++) s->nonce[s->nonce_len - 8 + (size_t)i] ^= (uint8_t)(s->number >> (56 - 8 * i));
}

static void expect_sealed(sealing *s) {
    if (s->kind == XAES) {
        expect_xaes(s->key, s->nonce, s->aad, s->aad_len, s->message, s->len, s->sealed);
    } else {
        expect_gcm(s->key, s->key_len, s->nonce, s->aad, s->aad_len, s->message, s->len, s->sealed);
    }
}

/* OpenSSL opens what a call sealed, too. */
static void is_opened_by_openssl(const sealing *s, const uint8_t *sealed) {
#ifdef HASHED
    (void)s, (void)sealed;
#else
    static uint8_t found[MAX_MESSAGE];
    if (s->kind == XAES) return;
    CHECK(opens_by_gcm(s->key, s->key_len, s->nonce, s->aad, s->aad_len, sealed, s->len, found));
    CHECK(memcmp(found, s->message, s->len) == 0);
#endif
}

typedef union {
    deerlapse_key gcm;
    deerlapse_xaes xaes;
    deerlapse_quic_key packet;
    deerlapse_record_key record;
} expanded;

static void expand(expanded *key, const sealing *s) {
    bool is = true;
    memset(key, 0x5a, sizeof *key);
    switch (s->kind) {
    case GCM: is = CALL(deerlapse_key_init(&key->gcm, s->key, s->key_len)); break;
    case XAES: CALL(deerlapse_xaes_init(&key->xaes, s->key)); break;
    case PACKET:
        is = s->secret_len ? CALL(deerlapse_quic_key_from_secret(&key->packet, s->version, s->secret, s->secret_len))
                           : CALL(deerlapse_quic_key_init(&key->packet, s->key, s->key_len, s->iv));
        break;
    case RECORD:
        is = s->secret_len ? CALL(deerlapse_record_key_from_secret(&key->record, s->secret, s->secret_len))
                           : CALL(deerlapse_record_key_init(&key->record, s->key, s->key_len, s->iv));
    }
    CHECK(is);
}

/* The places that a call is given. `in` has `all` bytes, of which those from `start` on are opened. The call writes to `out`, which may
 * be `in`; `out_len` is its length, or UNSIZED if the call doesn't take one. It tells a length and a type of a content. */
typedef struct {
    uint8_t *in, *out, *tag, *content_type;
    size_t all, start, out_len, *len;
} places;
#define UNSIZED SIZE_MAX

typedef bool call_of(const sealing *s, const expanded *key, const uint8_t *aad, const places *p);

/* A call, the kinds of message that it takes, and what it does. */
typedef struct {
    unsigned kinds;
    call_of *call;
    bool appends;   /* the tag is after the ciphertext, and not where the caller says */
    bool elsewhere; /* it writes to `out`, which may be another buffer */
    bool has_start; /* what it opens begins at a start */
    bool tells;     /* it tells how long what it opened is */
} way;
#define OF(kind) (1u << (kind))
#define COUNT(ways) (sizeof(ways) / sizeof(ways)[0])

static bool takes(const way *by, const sealing *s) { return by->kinds & OF(s->kind); }

/* The calls under an expanded key of AES-GCM and of XAES-256-GCM have the same names but for one word, and do the same. */
#define UNCOUNTED(call, ...)                                                                                         \
    (s->kind == XAES ? deerlapse_xaes_##call(&key->xaes, s->nonce, aad, s->aad_len, __VA_ARGS__)                     \
                     : deerlapse_key_##call(&key->gcm, s->nonce, aad, s->aad_len, __VA_ARGS__))
#define BY_EITHER(...) CALL(UNCOUNTED(__VA_ARGS__))

/* ---- the calls that seal */

static bool seal_by_key(const sealing *s, const expanded *key, const uint8_t *aad, const places *p) {
    return BY_EITHER(seal, p->in, p->all, p->tag);
}

static bool seal_to(const sealing *s, const expanded *key, const uint8_t *aad, const places *p) {
    if (p->out_len == UNSIZED) return BY_EITHER(seal_to, p->in, p->all, p->out, p->tag);
    return BY_EITHER(seal_to_sized, p->in, p->all, p->out, p->out_len, p->tag);
}

static bool seal_append_tag(const sealing *s, const expanded *key, const uint8_t *aad, const places *p) {
    if (p->out_len == UNSIZED) return BY_EITHER(seal_append_tag, p->in, p->all, p->out);
    return BY_EITHER(seal_append_tag_sized, p->in, p->all, p->out, p->out_len);
}

static bool seal_once(const sealing *s, const expanded *key, const uint8_t *aad, const places *p) {
    (void)key;
    return CALL(deerlapse_seal(s->key, s->key_len, s->nonce, aad, s->aad_len, p->in, p->all, p->tag));
}

/* Nothing is sealed after the only number. */
static bool seal_by_sealer(const sealing *s, const expanded *key, const uint8_t *aad, const places *p) {
    deerlapse_sealer sealer, was;
    (void)key;
    memset(&sealer, 0x5a, sizeof sealer);
    CHECK(CALL(deerlapse_sealer_init(&sealer, s->key, s->key_len, s->iv, s->number, s->number + 1)));
    CHECK(CALL(deerlapse_sealer_next(&sealer)) == s->number);
    CHECK(CALL(deerlapse_sealer_seal(&sealer, aad, s->aad_len, p->in, p->all, p->tag)));
    CHECK(CALL(deerlapse_sealer_next(&sealer)) == s->number + 1);
    was = sealer;
    CHECK(!CALL(deerlapse_sealer_seal(&sealer, aad, s->aad_len, p->in, p->all, p->tag)));
    CHECK(SAME(sealer, was));
    return true;
}

/* Pieces of random lengths, of no bytes and all too, and pieces that are refused. Nothing is sealed after the end. */
static bool seal_in_pieces(const sealing *s, const expanded *key, const uint8_t *aad, const places *p) {
    static const deerlapse_message zeros;
    static const deerlapse_key no_key;
    deerlapse_message message, was;
    size_t longest = 1 + below(below(2) ? 300 : MAX_MESSAGE);
    memset(&message, 0x5a, sizeof message);
    CHECK(CALL(deerlapse_key_begin(&key->gcm, s->nonce, aad, s->aad_len, &message)));
    for (size_t done = 0, piece = 0; done < s->len; done += piece) {
        piece = below(longest + 1);
        if (piece > s->len - done) piece = s->len - done;
        CHECK(CALL(deerlapse_key_update(&key->gcm, &message, p->in + done, piece)));
    }
    was = message;
    CHECK(!CALL(deerlapse_key_update(&no_key, &message, p->in, s->len)));
    CHECK(!CALL(deerlapse_key_update(&key->gcm, &message, p->tag, ((size_t)1 << 36) - 31 - s->len)));
    CHECK(!CALL(deerlapse_key_finish(&no_key, &message, p->tag)) && SAME(message, was));
    CHECK(CALL(deerlapse_key_finish(&key->gcm, &message, p->tag)) && SAME(message, zeros));
    CHECK(!CALL(deerlapse_key_update(&key->gcm, &message, p->in, s->len)));
    CHECK(!CALL(deerlapse_key_finish(&key->gcm, &message, p->tag)) && SAME(message, zeros));
    CHECK(!CALL(deerlapse_key_begin(&no_key, s->nonce, aad, s->aad_len, &message)) && SAME(message, zeros));
    return true;
}

static bool seal_packet(const sealing *s, const expanded *key, const uint8_t *aad, const places *p) {
    return CALL(deerlapse_quic_key_seal(&key->packet, s->number, aad, s->aad_len, p->in, p->all, p->tag));
}

static bool seal_record(const sealing *s, const expanded *key, const uint8_t *aad, const places *p) {
    (void)aad;
    return CALL(deerlapse_record_key_seal(&key->record, s->number, s->content_type, p->in, p->all + TAG, s->content_len));
}

static const way seal_ways[] = {
    {OF(GCM) | OF(XAES), seal_by_key, false, false, false, false},
    {OF(GCM) | OF(XAES), seal_to, false, true, false, false},
    {OF(GCM) | OF(XAES), seal_append_tag, true, true, false, false},
    {OF(GCM), seal_once, false, false, false, false},
    {OF(GCM), seal_by_sealer, false, false, false, false},
    {OF(GCM), seal_in_pieces, false, false, false, false},
    {OF(PACKET), seal_packet, false, false, false, false},
    {OF(RECORD), seal_record, true, false, false, false},
};

/* Seals with the tag right after the message or apart, and in place or to another buffer. What is only read doesn't change, and
 * nothing changes if the call is refused. What follows the content of a record doesn't matter. */
static void seals_at(const sealing *s, const expanded *key, const way *by, bool apart, bool to, size_t out_len, bool right) {
    const size_t all = s->len + (apart ? 0 : TAG), out_room = out_len == UNSIZED ? all : out_len;
    buffer aad = copy_of(s->aad, s->aad_len), in = copy_of(s->message, to ? s->len : all);
    buffer out = copy_of(s->message, to ? out_room : 0), tag = copy_of(s->key, apart ? TAG : 0), *written = to ? &out : &in;
    if (s->kind == RECORD) {
        memset(in.at + s->content_len, 0x3c, all - s->content_len);
        memset(in.wanted + s->content_len, 0x3c, all - s->content_len);
    }
    const places p = {in.at, written->at, apart ? tag.at : written->at + s->len, NULL, s->len, 0, out_len, NULL};
    CHECK(by->call(s, key, aad.at, &p) == right);
    if (right) expect(written, s->sealed, all);
    if (right && apart) expect(&tag, s->sealed + s->len, TAG);
    if (right && !apart) is_opened_by_openssl(s, written->at);
    is_as_expected(&tag);
    is_as_expected(&out);
    is_as_expected(&in);
    is_as_expected(&aad);
}

static void seals(const sealing *s, const expanded *key, const way *by, bool right) {
    for (int i = 0; i < 4; i++) {
        const bool apart = i & 1, to = i & 2;
        if ((apart && by->appends) || (to && !by->elsewhere)) continue;
        seals_at(s, key, by, apart, to, UNSIZED, right);
    }
}

/* Each call that takes the message seals it, or refuses to. */
static inline void are_sealed(const sealing *s, const expanded *key, bool right) {
    for (const way *by = seal_ways; by < seal_ways + COUNT(seal_ways); by++)
        if (takes(by, s)) seals(s, key, by, right);
}

/* ---- the calls that open */

static bool open_by_key(const sealing *s, const expanded *key, const uint8_t *aad, const places *p) {
    return BY_EITHER(open, p->in, p->all, p->start, p->len);
}

static bool open_separate_tag(const sealing *s, const expanded *key, const uint8_t *aad, const places *p) {
    return BY_EITHER(open_separate_tag, p->in, p->all, p->start, p->tag);
}

static bool open_to(const sealing *s, const expanded *key, const uint8_t *aad, const places *p) {
    if (p->out_len == UNSIZED) return BY_EITHER(open_to, p->in, p->all, p->out, p->tag);
    return BY_EITHER(open_to_sized, p->in, p->all, p->out, p->out_len, p->tag);
}

static bool open_appended_tag(const sealing *s, const expanded *key, const uint8_t *aad, const places *p) {
    if (p->out_len == UNSIZED) return BY_EITHER(open_appended_tag, p->in, p->all, p->out);
    return BY_EITHER(open_appended_tag_sized, p->in, p->all, p->out, p->out_len);
}

static bool open_once(const sealing *s, const expanded *key, const uint8_t *aad, const places *p) {
    (void)key;
    return CALL(deerlapse_open(s->key, s->key_len, s->nonce, aad, s->aad_len, p->in, p->all, p->start, p->len));
}

/* It counts on true alone. */
static bool open_in_order(const sealing *s, const expanded *key, const uint8_t *aad, const places *p) {
    deerlapse_opener opener, was;
    (void)key;
    memset(&opener, 0x5a, sizeof opener);
    CHECK(CALL(deerlapse_opener_init(&opener, s->key, s->key_len, s->iv, s->number, s->number + 1)));
    was = opener;
    bool answer = CALL(deerlapse_opener_open(&opener, aad, s->aad_len, p->in, p->all, p->start, p->len));
    CHECK(CALL(deerlapse_opener_next(&opener)) == s->number + answer);
    CHECK(answer || SAME(opener, was));
    return answer;
}

/* Whatever number is next. */
static bool open_by_number(const sealing *s, const expanded *key, const uint8_t *aad, const places *p) {
    deerlapse_opener opener, was;
    uint64_t first = next_random();
    (void)key;
    CHECK(CALL(deerlapse_opener_init(&opener, s->key, s->key_len, s->iv, first, first)));
    was = opener;
    bool answer = CALL(deerlapse_opener_open_number(&opener, s->number, aad, s->aad_len, p->in, p->all, p->start, p->len));
    CHECK(SAME(opener, was));
    return answer;
}

static bool open_packet(const sealing *s, const expanded *key, const uint8_t *aad, const places *p) {
    return CALL(deerlapse_quic_key_open(&key->packet, s->number, aad, s->aad_len, p->in, p->all, p->len));
}

static bool open_record(const sealing *s, const expanded *key, const uint8_t *aad, const places *p) {
    (void)aad;
    return CALL(deerlapse_record_key_open(&key->record, s->number, p->in, p->all, p->content_type, p->len));
}

static const way open_ways[] = {
    {OF(GCM) | OF(XAES), open_by_key, true, false, true, true},
    {OF(GCM) | OF(XAES), open_separate_tag, false, false, true, false},
    {OF(GCM) | OF(XAES), open_to, false, true, false, false},
    {OF(GCM) | OF(XAES), open_appended_tag, true, true, false, false},
    {OF(GCM), open_once, true, false, true, true},
    {OF(GCM), open_in_order, true, false, true, true},
    {OF(GCM), open_by_number, true, false, true, true},
    {OF(PACKET), open_packet, true, false, false, true},
    {OF(RECORD), open_record, true, false, false, true},
};

/* How a message is opened: `all` bytes of the ciphertext with its tag are given, after `others` bytes. The caller says that the
 * ciphertext begins at `start`. */
typedef struct {
    size_t all, others, start, out_len;
    bool to;
} opening;

static opening opening_of(const sealing *s, size_t start) {
    const opening as = {s->len + TAG, start, start, UNSIZED, false};
    return as;
}

/* Opens, and finds the message at the front of where the call writes. What is only read doesn't change, and nothing changes if the
 * call is refused. */
static void opens(const sealing *s, const expanded *key, const way *by, opening as, bool right) {
    static uint8_t was[MAX_START + MAX_MESSAGE + TAG + 1];
    static const size_t untouched = UNTOUCHED;
    const size_t all = as.others + as.all - (by->appends ? 0 : TAG);
    memset(was, 0x3c, as.others);
    memcpy(was + as.others, s->sealed, as.all);
    buffer aad = copy_of(s->aad, s->aad_len), in = copy_of(was, all), tag = copy_of(s->sealed + s->len, by->appends ? 0 : TAG);
    buffer out = copy_of(s->sealed, !as.to ? 0 : as.out_len == UNSIZED ? s->len : as.out_len);
    buffer len = copy_of(&untouched, sizeof untouched), type = copy_of(&untouched, 1);
    const places p = {in.at, as.to ? out.at : in.at, tag.at, type.at, all, as.start, as.out_len, (size_t *)(void *)len.at};
    CHECK(by->call(s, key, aad.at, &p) == right);
    if (right) {
        const size_t found = s->kind == RECORD ? s->content_len : s->len;
        expect(as.to ? &out : &in, s->message, s->len);
        if (by->tells) expect(&len, &found, sizeof found);
        if (s->kind == RECORD) expect(&type, &s->content_type, 1);
    }
    is_as_expected(&type);
    is_as_expected(&len);
    is_as_expected(&out);
    is_as_expected(&tag);
    is_as_expected(&in);
    is_as_expected(&aad);
}

/* Each call that takes the message opens it, or refuses to. */
static inline void are_opened(const sealing *s, const expanded *key, bool right) {
    for (const way *by = open_ways; by < open_ways + COUNT(open_ways); by++)
        if (takes(by, s)) opens(s, key, by, opening_of(s, 0), right);
}

static void refuses_as(const sealing *s, const way *by, opening as) {
    expanded key;
    expand(&key, s);
    as.to = by->elsewhere && below(2);
    opens(s, &key, by, as, false);
}

/* The message isn't opened with a length or a start that doesn't fit. */
static void refuses_lengths_of(const sealing *s, const way *by) {
    opening as = opening_of(s, 0);
    if (by->appends) as.all = below(TAG), refuses_as(s, by, as);
    if (s->len) as.all = TAG + below(s->len), refuses_as(s, by, as);
    as.all = s->len + TAG + 1, refuses_as(s, by, as);
    if (!by->has_start) return;
    as = opening_of(s, 0);
    as.start = s->len + 1 + below(40), refuses_as(s, by, as);
    as.start = SIZE_MAX - below(40), refuses_as(s, by, as);
    if (s->len) as.start = 1 + below(s->len), refuses_as(s, by, as);
}

/* The message isn't opened with one bit flipped in any place that the tag covers, under another number or a key of another length,
 * or with a length that doesn't fit. */
static void refuses(const sealing *s, const way *by) {
    static sealing changed;
    const opening as = opening_of(s, 0);
    changed = *s, changed.secret_len = 0;
    flip_a_bit(changed.sealed, s->len + TAG);
    refuses_as(&changed, by, as);
    memcpy(changed.sealed, s->sealed, s->len + TAG);
    flip_a_bit(changed.sealed + s->len, TAG);
    refuses_as(&changed, by, as);
    memcpy(changed.sealed, s->sealed, s->len + TAG);
    for (size_t half = 0; half < 2; half++) {
        flip_a_bit(changed.iv + half * s->nonce_len / 2, s->nonce_len / 2);
        set_nonce(&changed);
        refuses_as(&changed, by, as);
        memcpy(changed.iv, s->iv, XAES_NONCE);
    }
    for (int i = 0; i < 2; i++) {
        changed.number = i ? s->number + 1 : s->number ^ (uint64_t)1 << below(62);
        set_nonce(&changed);
        if (s->kind != GCM || changed.number != UINT64_MAX) refuses_as(&changed, by, as);
    }
    changed.number = s->number;
    set_nonce(&changed);
    flip_a_bit(changed.key, s->key_len);
    refuses_as(&changed, by, as);
    memcpy(changed.key, s->key, sizeof s->key);
    if (s->kind != XAES) {
        changed.key_len = 48 - s->key_len;
        refuses_as(&changed, by, as);
        changed.key_len = s->key_len;
    }
    if (s->aad_len) flip_a_bit(changed.aad, s->aad_len);
    else changed.aad_len = 1;
    if (s->kind != RECORD) refuses_as(&changed, by, as);
    refuses_lengths_of(s, by);
}

/* ---- all of them */

/* A call that takes the length of another buffer refuses a length that doesn't fit. */
static void seals_sized(const sealing *s, const expanded *key, const way *by) {
    const size_t right = s->len + (by->appends ? TAG : 0), lens[] = {right, right + 1, below(right + 1)};
    for (int i = 0; i < 3; i++) seals_at(s, key, by, !by->appends, true, lens[i], lens[i] == right);
}

static void opens_sized(const sealing *s, const expanded *key, const way *by) {
    const size_t lens[] = {UNSIZED, s->len, s->len + 1, below(s->len + 1)};
    opening as = opening_of(s, 0);
    as.to = true;
    for (int i = 0; i < 4; i++) {
        as.out_len = lens[i];
        opens(s, key, by, as, i == 0 || lens[i] == s->len);
    }
}

/* Everything above, by each call that takes the message. A key is only read. */
static void seals_and_opens(const sealing *s) {
    expanded key, was;
    expand(&key, s);
    was = key;
    are_sealed(s, &key, true);
    for (const way *by = seal_ways; by < seal_ways + COUNT(seal_ways); by++)
        if (takes(by, s) && by->elsewhere) seals_sized(s, &key, by);
    for (const way *by = open_ways; by < open_ways + COUNT(open_ways); by++) {
        if (!takes(by, s)) continue;
        opens(s, &key, by, opening_of(s, by->has_start ? below(40) : 0), true);
        refuses(s, by);
        if (by->elsewhere) opens_sized(s, &key, by);
    }
    CHECK(SAME(key, was));
}

#endif
