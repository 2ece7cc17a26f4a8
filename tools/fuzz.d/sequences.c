/* Calls on one sealer, opener, key, message in pieces, QUIC key and record key, in the order that the input draws, beside a
 * model: which bytes and IV each has, or none, which number is next and which is the limit. What is sealed is OpenSSL's, what
 * OpenSSL doesn't open is refused, and a call that is refused changes nothing. */
#define FUZZED
#define main secrets_main
#include "../../interop/against-openssl.d/secrets.c"
#undef main

#define MOST 2000
#define LONGEST 12000
#define SENT 4

void fuzz_one(const uint8_t *bytes, size_t len);

/* A key with an IV, a number, and the nonce of both. */
typedef struct {
    uint8_t key[32], iv[NONCE], nonce[NONCE];
    size_t len;
    uint64_t number;
} traffic;

/* What a key has, if it has anything. */
typedef struct {
    bool is;
    traffic t;
    uint64_t next, limit;
} model;

/* A message that was sealed, its AAD and where its numbers are from. */
typedef struct {
    traffic t;
    size_t aad_len, len;
    uint8_t aad[MAX_AAD], plaintext[MOST + TAG], sealed[MOST + TAG];
} sent;

static struct {
    deerlapse_sealer sealer;
    deerlapse_opener opener;
    deerlapse_key key;
    deerlapse_message message;
    expanded quic, record;
    model of_sealer, of_opener, of_key, of_quic, of_record;
    sent sents[SENT];
    size_t count;
} it;

/* A message in pieces, and what of it was sealed so far. */
static struct {
    bool is;
    traffic t;
    size_t aad_len, len;
    uint8_t aad[MAX_AAD], plaintext[LONGEST + TAG], sealed[LONGEST];
} pieces;

static uint64_t some_number(void) {
    switch (below(4)) {
    case 0: return UINT64_MAX - below(4);
    case 1: return NUMBERS_END - 2 + below(4);
    case 2: return next_random();
    default: return below(4);
    }
}

static void set_number(traffic *t, uint64_t number) {
    t->number = number;
    memcpy(t->nonce, t->iv, NONCE);
    for (int i = 0; i < 8; i++) t->nonce[4 + i] ^= (uint8_t)(number >> (56 - 8 * i));
}

/* A key of a length that is taken, or of another one. */
static bool draws_key(traffic *t, size_t *len) {
    t->len = key_len();
    memcpy(t->key, part(32), 32);
    memcpy(t->iv, part(NONCE), NONCE);
    *len = below(4) ? t->len : below(4) ? below(100) : SIZE_MAX - below(100);
    if (*len != t->len && (*len == 16 || *len == 32)) ++*len;
    return *len == t->len;
}

/* ---- a sealer and an opener */

static model drawn_model(size_t *len) {
    model m;
    m.is = draws_key(&m.t, len);
    m.next = some_number();
    m.limit = below(2) ? m.next + below(4) : some_number();
    if (below(2) && it.of_sealer.is) m = it.of_sealer, *len = m.t.len, m.next -= below(2) && m.next;
    m.is = m.is && m.next <= m.limit;
    return m;
}

/* Initializes the sealer or the opener. */
static void inits_numbered(bool seals) {
    size_t len;
    const model m = drawn_model(&len);
    const deerlapse_sealer sealer_was = it.sealer;
    const deerlapse_opener opener_was = it.opener;
    const bool answer = seals ? CALL(deerlapse_sealer_init(&it.sealer, m.t.key, len, m.t.iv, m.next, m.limit))
                              : CALL(deerlapse_opener_init(&it.opener, m.t.key, len, m.t.iv, m.next, m.limit));
    CHECK(answer == m.is && (answer || (SAME(it.sealer, sealer_was) && SAME(it.opener, opener_was))));
    if (m.is) *(seals ? &it.of_sealer : &it.of_opener) = m;
}

static void inits_sealer(void) { inits_numbered(true); }
static void inits_opener(void) { inits_numbered(false); }

static void seals_next(void) {
    static sent s;
    model *m = &it.of_sealer;
    deerlapse_sealer was = it.sealer;
    s.aad_len = below(MAX_AAD), s.len = below(MOST + 1), s.t = m->t;
    memcpy(s.aad, part(s.aad_len), s.aad_len);
    memcpy(s.plaintext, part(s.len + TAG), s.len + TAG);
    buffer in_out = copy_of(s.plaintext, s.len + TAG), aad = copy_of(s.aad, s.aad_len);
    bool right = m->is && m->next < m->limit;
    CHECK(CALL(deerlapse_sealer_next(&it.sealer)) == (m->is ? m->next : 0));
    if (right) {
        uint8_t nonce[NONCE];
        CALL(deerlapse_nonce(m->t.iv, m->next, nonce));
        set_number(&s.t, m->next++);
        CHECK(SAME(nonce, s.t.nonce));
        expect_gcm(s.t.key, s.t.len, s.t.nonce, s.aad, s.aad_len, s.plaintext, s.len, s.sealed);
        expect(&in_out, s.sealed, s.len + TAG);
    }
    CHECK(CALL(deerlapse_sealer_seal(&it.sealer, aad.at, s.aad_len, in_out.at, s.len, in_out.at + s.len)) == right);
    is_as_expected(&aad);
    is_as_expected(&in_out);
    CHECK(right || SAME(it.sealer, was));
    if (right) it.sents[it.count++ % SENT] = s;
}

/* One of the last messages, as it was sealed or with a bit flipped, in order or by some number. */
static void opens_one(bool in_order) {
    static sent s;
    static uint8_t found[MOST];
    model *m = &it.of_opener;
    deerlapse_opener was = it.opener;
    s = it.sents[below(SENT)];
    traffic t = m->t;
    uint64_t number = in_order ? m->next : below(2) ? s.t.number : some_number();
    size_t all = s.len + TAG, len = UNTOUCHED;
    set_number(&t, number);
    if (below(4) == 0) flip_a_bit(s.sealed, all);
    buffer in_out = copy_of(s.sealed, all);
    bool right = opens_by_gcm(t.key, t.len, t.nonce, s.aad, s.aad_len, s.sealed, s.len, found) &&
                 memcmp(found, s.plaintext, s.len) == 0 && m->is && (!in_order || m->next < m->limit);
    CHECK(CALL(deerlapse_opener_next(&it.opener)) == (m->is ? m->next : 0));
    if (in_order) CHECK(CALL(deerlapse_opener_open(&it.opener, s.aad, s.aad_len, in_out.at, all, 0, &len)) == right);
    else CHECK(CALL(deerlapse_opener_open_number(&it.opener, number, s.aad, s.aad_len, in_out.at, all, 0, &len)) == right);
    if (right) expect(&in_out, s.plaintext, s.len);
    is_as_expected(&in_out);
    CHECK(len == (right ? s.len : UNTOUCHED));
    if (right && in_order) m->next++;
    else CHECK(SAME(it.opener, was));
}

/* ---- a key, and a message in pieces */

static void inits_key(void) {
    size_t len;
    it.of_key.is = draws_key(&it.of_key.t, &len);
    CHECK(CALL(deerlapse_key_init(&it.key, it.of_key.t.key, len)) == it.of_key.is);
}

static void begins(void) {
    deerlapse_message was = it.message;
    size_t aad_len = below(MAX_AAD);
    const uint8_t *aad = part(aad_len);
    traffic t = it.of_key.t;
    set_number(&t, some_number());
    CHECK(CALL(deerlapse_key_begin(&it.key, t.nonce, aad, aad_len, &it.message)) == it.of_key.is);
    if (!it.of_key.is) {
        CHECK(SAME(it.message, was));
        return;
    }
    pieces.is = true, pieces.t = t, pieces.aad_len = aad_len, pieces.len = 0;
    memcpy(pieces.aad, aad, aad_len);
}

/* The key is that which the message began with, or there is none. */
static bool goes_on(void) {
    const traffic *now = &it.of_key.t, *then = &pieces.t;
    return !it.of_key.is || !pieces.is || (now->len == then->len && memcmp(now->key, then->key, now->len) == 0);
}

static void updates(void) {
    size_t len = below(below(2) ? 40 : 4000);
    if (!goes_on() || pieces.len + len > LONGEST) return;
    deerlapse_message was = it.message;
    bool right = it.of_key.is && pieces.is;
    uint8_t *piece = guarded(part(len), len);
    if (right) memcpy(pieces.plaintext + pieces.len, piece, len);
    CHECK(CALL(deerlapse_key_update(&it.key, &it.message, piece, len)) == right);
    CHECK(right || SAME(it.message, was));
    if (right) memcpy(pieces.sealed + pieces.len, piece, len), pieces.len += len;
    release(piece, len);
}

static void finishes(void) {
    static const deerlapse_message zeros;
    static uint8_t expected[LONGEST + TAG];
    if (!goes_on()) return;
    deerlapse_message was = it.message;
    bool right = it.of_key.is && pieces.is;
    buffer tag = copy_of(pool, TAG);
    CHECK(CALL(deerlapse_key_finish(&it.key, &it.message, tag.at)) == right);
    if (right) {
        CHECK(SAME(it.message, zeros));
        expect_gcm(pieces.t.key, pieces.t.len, pieces.t.nonce, pieces.aad, pieces.aad_len, pieces.plaintext, pieces.len, expected);
        CHECK(memcmp(pieces.sealed, expected, pieces.len) == 0);
        expect(&tag, expected + pieces.len, TAG);
        pieces.is = false;
    } else {
        CHECK(SAME(it.message, was));
    }
    is_as_expected(&tag);
}

/* ---- keys of packets and records */

/* Initializes the key of packets or of records by bytes, or by a secret from which OpenSSL makes the bytes. A secret of packets has a
 * version, which may be unknown. */
static void inits(expanded *key, model *m, kind of) {
    static sealing s;
    const protocol *by = of == PACKET ? some_quic() : &tls13;
    const bool by_secret = below(2), is_known = of == RECORD || !by_secret || below(4);
    const expanded was = *key;
    size_t len;
    bool is_taken = is_known;
    traffic t;
    make_key(&s, of, by, by_secret);
    if (by_secret) {
        const uint32_t version = is_known ? by->number : no_version();
        memcpy(t.key, s.key, sizeof t.key), memcpy(t.iv, s.iv, NONCE), t.len = s.key_len;
        CHECK(CALL(of == PACKET ? deerlapse_quic_key_from_secret(&key->packet, version, s.secret, s.secret_len)
                                : deerlapse_record_key_from_secret(&key->record, s.secret, s.secret_len)) == is_taken);
    } else {
        is_taken = draws_key(&t, &len);
        CHECK(CALL(of == PACKET ? deerlapse_quic_key_init(&key->packet, t.key, len, t.iv)
                                : deerlapse_record_key_init(&key->record, t.key, len, t.iv)) == is_taken);
    }
    if (is_taken) m->is = true, m->t = t;
    else CHECK(SAME(*key, was));
}

static void inits_quic(void) { inits(&it.quic, &it.of_quic, PACKET); }
static void inits_record(void) { inits(&it.record, &it.of_record, RECORD); }

/* Seals and opens a message, and opens it with a bit flipped. The number of a packet may be too great to seal. */
static void uses(const expanded *key, const model *m, kind of) {
    static sealing s;
    const expanded was = *key;
    s.kind = of, s.nonce_len = NONCE, s.secret_len = 0, s.key_len = m->t.len;
    memcpy(s.key, m->t.key, sizeof s.key);
    memcpy(s.iv, m->t.iv, NONCE);
    if (!m->is) s.key_len = 16;
    if (of == PACKET) make_packet(&s);
    else make_record(&s, MAX_SEALED);
    const uint64_t number = s.number;
    const bool is_too_great = m->is && of == PACKET && below(8) == 0;
    if (is_too_great) s.number = NUMBERS_END + below(4);
    are_sealed(&s, key, m->is && !is_too_great);
    s.number = number;
    are_opened(&s, key, m->is);
    flip_a_bit(s.sealed, s.len + TAG);
    are_opened(&s, key, false);
    CHECK(SAME(*key, was));
}

static void uses_quic(void) { uses(&it.quic, &it.of_quic, PACKET); }
static void uses_record(void) { uses(&it.record, &it.of_record, RECORD); }

/* Overwrites one of the five with zeros. */
static void wipes(void) {
    switch (below(5)) {
    case 0: CALL(deerlapse_sealer_wipe(&it.sealer)), it.of_sealer.is = false; break;
    case 1: CALL(deerlapse_opener_wipe(&it.opener)), it.of_opener.is = false; break;
    case 2: CALL(deerlapse_key_wipe(&it.key)), it.of_key.is = false; break;
    case 3: CALL(deerlapse_quic_key_wipe(&it.quic.packet)), it.of_quic.is = false; break;
    default: CALL(deerlapse_record_key_wipe(&it.record.record)), it.of_record.is = false;
    }
}

/* Those of secrets.c, which keep nothing. */
static void (*const others[])(void) = {hmacs,        extracts,    expands, labels, initial_secrets,
                                       next_secrets, header_keys, packets, records};

static void (*const steps[])(void) = {inits_sealer, inits_opener, seals_next, inits_key, begins,     updates,
                                      finishes,     inits_quic,   uses_quic,  wipes,     inits_record, uses_record};

void fuzz_one(const uint8_t *bytes, size_t len) {
    const size_t count = sizeof steps / sizeof steps[0];
    begin(bytes, len);
    if (!hkdf) {
        hkdf = kdf("HKDF");
        label_kdf = kdf("TLS13-KDF");
        for (size_t i = 0; i < POOL; i++) pool[i] = pool_was[i] = (uint8_t)(xorshift() >> 24);
    }
    memset(&it, 0, sizeof it);
    memset(&pieces, 0, sizeof pieces);
    do {
        size_t step = below(count + 3);
        if (step < count) steps[step]();
        else if (step < count + 2) opens_one(step == count);
        else others[below(sizeof others / sizeof others[0])]();
    } while (input_left);
    CHECK(SAME(pool, pool_was));
}
