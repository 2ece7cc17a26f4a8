/* Makes every call of the library for C, or with WATCHED those of tools/secrets.d/watched.txt, for tools/traces. With a word, it
 * leaks a byte of a key instead: by the index of a read, or by a branch. */
#ifdef WATCHED
#define MAX_LEN 16380 /* with its type and padding the most that a record holds */
#include "../secrets.d/watched.h"
#else
#include "../targets.d/calls.h"
#endif

enum { SEEDS = 12 };
static unsigned seed;

/* Each length up to a block's, and both sides of the limits of a batch, of four, eight or sixteen blocks, of a message whose
 * tag is in its batch, of a chunk of 192 blocks, and of four blocks of ChaCha20. */
static const size_t lens[] = {0,   1,   15,  16,  17,   31,   32,   33,   47,   48,   49,   63,   64,  65,
                              79,  80,  81,  95,  96,   97,   111,  112,  113,  127,  128,  129,  143, 144,
                              145, 191, 192, 193, 239,  240,  241,  255,  256,  257,  271,  272,  273, 300,
                              511, 512, 513, 1200, 1350, 3071, 3072, 3073, 3087, 3088, 3089, MAX_LEN};

/* The trace of a call is what is executed from the one to the other. */
__attribute__((noinline)) void traced_from(void);
__attribute__((noinline)) void traced_to(void);
void traced_from(void) { __asm__ volatile("" ::: "memory"); }
void traced_to(void) { __asm__ volatile("" ::: "memory"); }

static void make_secrets(void) {
    random_state = 88172645463325252u ^ seed * 2654435761u;
    fill(at->key_bytes, sizeof at->key_bytes);
    fill(at->header_key, sizeof at->header_key);
    fill(at->nonce, sizeof at->nonce);
    fill(at->sample, sizeof at->sample);
    fill(at->aad, at->aad_len);
    fill(at->message, at->len + 64);
    fill(at->secret, sizeof at->secret);
    memset(at->other, 0, at->len + 64);
    memset(at->tag, 0, sizeof at->tag);
}

/* A tag that is wrong in one bit, or in every one: which, by the seed. */
static void spoil(uint8_t *tag) {
    if (seed == 0) memset(tag, tag[0] ^ 0xff, TAG);
    else tag[seed % TAG] ^= (uint8_t)(1 << seed % 8);
}

/* Makes a call with each seed, with a false tag in the form `,false`, and prints its name and form, the length of the key and the
 * one that differs, a line for each trace. */
static void trace_seeds(const named *it, size_t differing, const char *form) {
    bool is_false = strcmp(form, ",false") == 0;
    for (seed = 0; seed < SEEDS; seed++) {
        make_secrets();
        bool is = it->before();
        if (is_false) spoil(it->tag());
        traced_from();
        bool answer = it->call();
        traced_to();
        if (!is || answer == is_false) {
            fprintf(stderr, "failed: %s%s, key of %zu bytes, %zu bytes\n", it->name, form, at->key_len, differing);
            exit(1);
        }
        printf("%s%s %zu %zu\n", it->name, form, at->key_len, differing);
    }
}

/* The calls of a table, with a message of each length; those that take an AAD, with one of each length too, or if they open a
 * message, with bytes before it. */
static void trace(const named *all, size_t count) {
    static arguments given;
    at = &given;
    for (const named *it = all; it < all + count; it++) {
        for (at->key_len = 16; at->key_len <= 32; at->key_len += 16) {
            for (size_t i = 0; i < (it->has_lens ? sizeof lens / sizeof lens[0] : 1); i++) {
                at->len = lens[i], at->aad_len = 20, at->start = 0;
                trace_seeds(it, at->len, "");
                if (it->tag) trace_seeds(it, at->len, ",false");
                if (it->has_aad && it->opens) at->start = 3, trace_seeds(it, at->len, ",start");
                if (it->has_aad && !it->opens) at->len = 40, at->aad_len = lens[i], trace_seeds(it, lens[i], ",AAD");
            }
        }
    }
}

static volatile uint8_t sink;

static bool nothing(void) { return true; }

static bool leaks_an_index(void) {
    sink = at->message[at->key_bytes[0]];
    return true;
}
static bool leaks_a_branch(void) {
    if (at->key_bytes[0] & 1) sink = 1;
    return true;
}
static const named leaks[] = {{"index", nothing, leaks_an_index, false, false, false, NULL},
                              {"branch", nothing, leaks_a_branch, false, false, false, NULL}};

int main(int argc, char **argv) {
    (void)argv;
    if (argc > 1) trace(leaks, 2);
    else trace(calls, CALLS);
    return 0;
}
