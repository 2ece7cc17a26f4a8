/* Calls that seal and open one message, as the input draws them: lengths, places, ways, and what is changed. Each check is one
 * of interop/against-openssl.d/driver.c, whose results are OpenSSL's. Several may follow one another. */
#define FUZZED
#define MAX_MESSAGE 9000
#define MAX_AAD 600
#define MAX_START 9000
#define main driver_main
#include "../../interop/against-openssl.d/driver.c"
#undef main

void fuzz_one(const uint8_t *bytes, size_t len);

/* What is only read overlaps: the AAD and the nonce are parts of the message. */
static void overlaps(sealing *s) {
    expanded expanded_key, *key = &expanded_key;
    size_t from = below(s->len + 1);
    if (s->len < XAES_NONCE) return;
    s->aad_len = below(s->len - from + 1) % MAX_AAD;
    memcpy(s->aad, s->message + from, s->aad_len);
    buffer in = copy_of(s->message, s->len), out = copy_of(s->message, s->len + TAG);
    uint8_t *front = in.at + below(s->len - XAES_NONCE + 1);
    memcpy(s->nonce, front, XAES_NONCE);
    expect_sealed(s);
    expand(key, s);
    CHECK(s->kind == XAES
              ? CALL(deerlapse_xaes_seal_append_tag(&key->xaes, front, in.at + from, s->aad_len, in.at, s->len, out.at))
              : CALL(deerlapse_key_seal_append_tag(&key->gcm, front, in.at + from, s->aad_len, in.at, s->len, out.at)));
    expect(&out, s->sealed, s->len + TAG);
    is_as_expected(&out);
    is_as_expected(&in);
}

static const way *some_way(const way *ways, size_t count, const sealing *s) {
    const way *by = &ways[below(count)];
    while (!takes(by, s)) by = &ways[below(count)];
    return by;
}

static void check(sealing *s) {
    const way *sealing_way = some_way(seal_ways, COUNT(seal_ways), s), *opening_way = some_way(open_ways, COUNT(open_ways), s);
    const size_t key_len = below(2) ? 16 : 32;
    expanded key;
    expand(&key, s);
    switch (below(9)) {
    case 0: seals(s, &key, sealing_way, true); break;
    case 1: opens(s, &key, opening_way, opening_of(s, opening_way->has_start ? below(MAX_START) : 0), true); break;
    case 2: refuses(s, opening_way); break;
    case 3:
        if (sealing_way->elsewhere) seals_sized(s, &key, sealing_way);
        if (opening_way->elsewhere) opens_sized(s, &key, opening_way);
        break;
    case 4: overlaps(s); break;
    case 5: limit_holds(&calls[below(CALLS)], key_len, (limited)(1 + below(LIMITED - 1))); break;
    case 6: the_rest_holds(&calls[below(CALLS)], key_len); break;
    case 7: chacha20(s); break;
    default: masks();
    }
}

void fuzz_one(const uint8_t *bytes, size_t len) {
    static sealing s;
    begin(bytes, len);
    do {
        make_sealing(&s, below(342), below(2) ? GCM : XAES);
        check(&s);
    } while (input_left);
}
