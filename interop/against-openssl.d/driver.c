/* Random calls of the static library beside OpenSSL's EVP: ROUNDS of each kind, from SEED on.
 *
 * With HASHED it needs neither OpenSSL nor POSIX: what one call wrote is expected of the others, and a hash of all of it is
 * printed, which must be the same on every system. Threads are left out. */
#define _GNU_SOURCE
#ifndef MAX_MESSAGE
#define MAX_MESSAGE 70000
#define MAX_AAD 600
#define MAX_START 70000
#endif
#include "messages.h"
#include "../../tools/targets.d/promises.h"
#ifndef HASHED
#include <pthread.h>
#endif

enum { THREADS = 8, SHARED = 40 };

/* Each length up to 299 first, then the greatest, those around a chunk of 192 blocks, and then random ones. */
static void make_sealing(sealing *s, size_t round, kind of) {
    s->kind = of;
    s->key_len = below(2) && of == GCM ? 16 : 32;
    s->nonce_len = of == XAES ? XAES_NONCE : NONCE;
    s->aad_len = below(4) ? below(MAX_AAD) : 0;
    s->len = below(4) ? below(2000) : below(MAX_MESSAGE + 1);
    if (round < 300) s->len = round;
    if (round == 300) s->len = MAX_MESSAGE;
    if (round > 300 && round <= 340) s->len = 192 * 16 - 20 + (round - 300);
    s->number = below(4) ? next_random() : below(4);
    if (s->number > UINT64_MAX - 3 || below(8) == 0) s->number = UINT64_MAX - 3;
    fill(s->key, sizeof s->key);
    fill(s->iv, XAES_NONCE);
    fill(s->aad, s->aad_len);
    fill(s->message, s->len);
    set_nonce(s);
    expect_sealed(s);
}

static void masks(void) {
    uint8_t key[32], sample[16], expected[5];
    deerlapse_quic_header_key expanded;
    size_t key_len = below(2) ? 16 : 32;
    fill(key, 32);
    fill(sample, 16);
    CHECK(CALL(deerlapse_quic_header_key_init(&expanded, key, key_len)));
    for (int by = 0; by < 3; by++) {
        buffer mask = copy_of(sample, 5);
        if (by == 0) CALL(deerlapse_mask_chacha20(key, sample, mask.at));
        else CHECK(CALL(by == 1 ? deerlapse_mask_aes(key, key_len, sample, mask.at)
                                : deerlapse_quic_header_key_mask(&expanded, sample, mask.at)));
        if (by == 0) expect_chacha20_mask(key, sample, expected);
        else expect_aes_mask(key, key_len, sample, expected);
        expect(&mask, expected, 5);
        is_as_expected(&mask);
    }
}

/* Every fourth time next to the last block, on both sides of it. */
static void chacha20(const sealing *s) {
    static uint8_t stream[MAX_MESSAGE];
    uint64_t blocks = (s->len + 63) / 64, counter = next_random() >> 32;
    if (below(4) == 0) counter = UINT32_MAX - below(150);
    buffer in_out = copy_of(s->message, s->len);
    bool answer = CALL(deerlapse_chacha20(s->key, s->nonce, (uint32_t)counter, in_out.at, s->len));
    CHECK(answer == (counter + blocks <= (uint64_t)1 << 32));
    memcpy(stream, s->message, s->len);
    if (answer && s->len) expect_stream(s->key, s->nonce, (uint32_t)counter, stream, s->len);
    expect(&in_out, stream, s->len);
    is_as_expected(&in_out);
}

/* Three messages of a sealer, each under the next nonce; an opener of the same numbers opens them in order, and takes
 * none of them before or after its turn. */
static void sequence(sealing *s, size_t round) {
    static uint8_t sealed[3][MAX_MESSAGE + TAG];
    static sealing made[3];
    size_t len = UNTOUCHED;
    uint64_t first;
    uint8_t nonce[NONCE];
    deerlapse_sealer sealer;
    deerlapse_opener opener;
    make_sealing(s, round, GCM);
    first = s->number;
    CHECK(CALL(deerlapse_sealer_init(&sealer, s->key, s->key_len, s->iv, first, first + 3)));
    CHECK(CALL(deerlapse_opener_init(&opener, s->key, s->key_len, s->iv, first, first + 3)));
    for (size_t i = 0; i < 3; i++) {
        sealing *it = &made[i];
        *it = *s;
        it->number = first + i;
        it->len = below(300);
        fill(it->message, it->len);
        set_nonce(it);
        expect_sealed(it);
        CALL(deerlapse_nonce(it->iv, it->number, nonce));
        CHECK(memcmp(nonce, it->nonce, NONCE) == 0);
        memcpy(sealed[i], it->message, it->len);
        CHECK(CALL(deerlapse_sealer_seal(&sealer, it->aad, it->aad_len, sealed[i], it->len, sealed[i] + it->len)));
        CHECK(CALL(deerlapse_sealer_next(&sealer)) == it->number + 1);
        CHECK(memcmp(sealed[i], it->sealed, it->len + TAG) == 0);
    }
    for (size_t turn = 0; turn < 3; turn++) {
        for (size_t i = 0; i < 3; i++) {
            size_t which = (turn + 1 + i) % 3; /* the one whose turn it is comes last */
            const sealing *it = &made[which];
            bool is = CALL(deerlapse_opener_open(&opener, it->aad, it->aad_len, sealed[which], it->len + TAG, 0, &len));
            CHECK(is == (which == turn));
            CHECK(memcmp(sealed[which], is ? it->message : it->sealed, it->len) == 0);
            memcpy(sealed[which], it->sealed, it->len + TAG);
        }
        CHECK(CALL(deerlapse_opener_next(&opener)) == first + turn + 1 && len == made[turn].len);
    }
    CHECK(!CALL(deerlapse_opener_open(&opener, s->aad, s->aad_len, sealed[2], made[2].len + TAG, 0, &len)));
    CHECK(!CALL(deerlapse_sealer_seal(&sealer, s->aad, s->aad_len, sealed[0], 5, sealed[1])));
    CHECK(memcmp(sealed[0], made[0].sealed, made[0].len + TAG) == 0);
    CHECK(memcmp(sealed[1], made[1].sealed, made[1].len + TAG) == 0);
}

/* Each start up to 299, at messages of a few lengths, and some far ones. */
static void starts(sealing *s, kind of) {
    static const size_t lens[] = {0, 1, 16, 47, 299};
    expanded key;
    for (size_t i = 0; i < COUNT(lens); i++) {
        for (size_t start = 0; start < 300; start++) {
            make_sealing(s, lens[i], of);
            expand(&key, s);
            for (const way *by = open_ways; by < open_ways + COUNT(open_ways); by++) {
                if (!takes(by, s) || !by->has_start) continue;
                opens(s, &key, by, opening_of(s, start), true);
                if (start % 30 == 0) opens(s, &key, by, opening_of(s, below(MAX_START)), true);
            }
        }
    }
}

#ifndef HASHED
/* What threads share: a key of each cipher, an opener, and messages under them, of which every other one is of XAES-256-GCM. */
static struct {
    expanded keys[2];
    deerlapse_opener opener;
    sealing made[SHARED];
} shared;

/* Seals and opens each message, beginning with another one in each thread. */
static void *works(void *from) {
    uint8_t *bytes = malloc(MAX_MESSAGE + TAG);
    CHECK(bytes);
    for (size_t i = 0; i < SHARED; i++) {
        const sealing *s = &shared.made[(i + *(const size_t *)from) % SHARED];
        const expanded *key = &shared.keys[s->kind];
        const uint8_t *aad = s->aad;
        size_t all = s->len + TAG, len = 0;
        memcpy(bytes, s->message, s->len);
        CHECK(UNCOUNTED(seal, bytes, s->len, bytes + s->len));
        CHECK(memcmp(bytes, s->sealed, all) == 0);
        CHECK(UNCOUNTED(open, bytes, all, 0, &len) && len == s->len);
        CHECK(memcmp(bytes, s->message, s->len) == 0);
        if (s->kind == XAES) continue;
        memcpy(bytes, s->sealed, all);
        CHECK(deerlapse_opener_open_number(&shared.opener, s->number, s->aad, s->aad_len, bytes, all, 0, &len));
        CHECK(len == s->len && memcmp(bytes, s->message, s->len) == 0);
    }
    free(bytes);
    return NULL;
}

static void threads(size_t round) {
    pthread_t started_as[THREADS];
    size_t from[THREADS];
    for (size_t i = 0; i < SHARED; i++) {
        sealing *s = &shared.made[i];
        make_sealing(s, 301 + round, i % 2 ? XAES : GCM);
        memcpy(s->key, shared.made[0].key, sizeof s->key);
        memcpy(s->iv, shared.made[0].iv, NONCE);
        if (s->kind == GCM) s->key_len = shared.made[0].key_len;
        set_nonce(s);
        expect_sealed(s);
    }
    const sealing *s = &shared.made[0];
    expand(&shared.keys[0], s);
    expand(&shared.keys[1], s + 1);
    CHECK(CALL(deerlapse_opener_init(&shared.opener, s->key, s->key_len, s->iv, 0, 0)));
    for (size_t i = 0; i < THREADS; i++) {
        from[i] = i * SHARED / THREADS;
        CHECK(pthread_create(&started_as[i], NULL, works, &from[i]) == 0);
    }
    for (size_t i = 0; i < THREADS; i++) CHECK(pthread_join(started_as[i], NULL) == 0);
    calls_made += 5 * THREADS * SHARED / 2;
}

/* The accumulated test of XAES-256-GCM's specification: SHAKE128 of nothing gives, 10,000 times, a key, a nonce, a plaintext and
 * an AAD, the last two after a byte with their length. SHAKE128 of all ciphertexts and tags is expected. */
static void accumulated(void) {
    enum { MESSAGES = 10000, STREAM = 3137982 };
    static const uint8_t expected[] = {0xe6, 0xb9, 0xed, 0xf2, 0xdf, 0x6c, 0xec, 0x60, 0xc8, 0xcb, 0xd8,
                                       0x64, 0xe2, 0x21, 0x1b, 0x59, 0x7f, 0xb6, 0x9a, 0x52, 0x91, 0x60,
                                       0xcd, 0x04, 0x0d, 0x56, 0xc0, 0xc2, 0x10, 0x08, 0x19, 0x39};
    static uint8_t stream[STREAM];
    uint8_t found[sizeof expected], sealed[UINT8_MAX + TAG];
    const uint8_t *at = stream;
    EVP_MD_CTX *context = EVP_MD_CTX_new();
    CHECK(context && EVP_DigestInit_ex(context, EVP_shake128(), NULL) == 1);
    CHECK(EVP_DigestFinalXOF(context, stream, STREAM) == 1 && EVP_DigestInit_ex(context, EVP_shake128(), NULL) == 1);
    for (int i = 0; i < MESSAGES; i++) {
        const uint8_t *bytes = at, *nonce = bytes + 32, *message = nonce + XAES_NONCE + 1, *aad = message + message[-1] + 1;
        size_t len = message[-1], aad_len = aad[-1], opened = UNTOUCHED;
        deerlapse_xaes key;
        at = aad + aad_len;
        CHECK(at <= stream + STREAM);
        CALL(deerlapse_xaes_init(&key, bytes));
        memcpy(sealed, message, len);
        CHECK(CALL(deerlapse_xaes_seal(&key, nonce, aad, aad_len, sealed, len, sealed + len)));
        CHECK(EVP_DigestUpdate(context, sealed, len + TAG) == 1);
        CHECK(CALL(deerlapse_xaes_open(&key, nonce, aad, aad_len, sealed, len + TAG, 0, &opened)) && opened == len);
        CHECK(memcmp(sealed, message, len) == 0);
    }
    CHECK(at == stream + STREAM && EVP_DigestFinalXOF(context, found, sizeof found) == 1 && SAME(found, expected));
    EVP_MD_CTX_free(context);
}
#endif

int main(int argc, char **argv) {
    size_t rounds = argc > 1 ? strtoul(argv[1], NULL, 10) : 2000;
    random_state = argc > 2 ? strtoull(argv[2], NULL, 10) : 1;
    CHECK(rounds > 0 && random_state != 0);
    static sealing s;
    all_promises_hold();
    starts(&s, GCM);
    starts(&s, XAES);
#ifndef HASHED
    accumulated();
#endif
    for (size_t round = 0; round < rounds; round++) {
        make_sealing(&s, round, GCM);
        seals_and_opens(&s);
        chacha20(&s);
        masks();
        make_sealing(&s, round, XAES);
        seals_and_opens(&s);
        sequence(&s, round);
        some_promises_hold();
#ifndef HASHED
        if (round % 100 == 0) threads(round);
#endif
    }
#ifdef HASHED
    printf("%lu random calls write bytes with the hash %08lx%08lx\n", calls_made, (unsigned long)(hash >> 32),
           (unsigned long)(hash & 0xffffffff));
#else
    printf("%lu random calls equal %s\n", calls_made, OpenSSL_version(OPENSSL_VERSION));
#endif
    return 0;
}
