/* Times the library's calls beside other code, its peers. Before a peer is timed in a row, what it returns and leaves in
 * the buffer is compared with the library's. Then all take turns in one process, by the processor time of the thread.
 *
 * Use: bench [-o NAME] SECONDS [WORD..]
 *      bench -c PEER CALLS ROW
 *
 *   -o NAME   of the peers OpenSSL alone, which is called NAME
 *   SECONDS   for each row and length of the key, more if the fewest turns take longer
 *   WORD..    only the rows that have one of the words in their name
 *   -c        makes so many calls of the peer in one row, or of the library if the peer is "Ours", and prints eight bytes of
 *             what was made: `bench/instructions` counts the instructions. The status is 3 if the row doesn't have that peer
 *
 * Both lengths of the key take their turns together, under one load. A row is timed again, at most TRIES times, while the
 * median time of the library differs from its least time by more than a tenth.
 *
 * It prints a line for each row and peer, with tabs between the fields: the row, the bits of the key if the row is
 * timed for two, "MB/s" or "ns", the length of the buffer, the nanoseconds of the library's call, median and least, the
 * peer, and its time over the library's: median, first and third quartile. The last line is "clock", the seconds of the wall
 * clock that the turns took, and those of processor time.
 *
 * The status is 2 if the result of a peer differs, or a ratio to BearSSL built by clang is less than required. `bench/run`
 * builds and runs it, and `bench/tables` makes tables of what it prints.
 */
#define _POSIX_C_SOURCE 200809L
#include "bench.h"
#include <inttypes.h>
#include <stdbool.h>
#include <stdio.h>
#include <stdlib.h>
#include <time.h>
#include <unistd.h>

enum { KIB = 1024, MIB = 1024 * KIB, MAX_LEN = MIB, OF_KEY = -1 };

typedef struct {
    const char *name;
    const side *library;
    operation operation;
    size_t key_lens[2];
    long len; /* of the buffer; OF_KEY: as long as the key */
    enum { SPEED, TIME } shown;
    double wanted; /* the least ratio to the yardstick; 0: none */
} row;

/* A row of the libraries and one of the wide form, for both lengths of the key. */
#define OF_BOTH(name, operation, len, shown, wanted)                  \
    {name, &library, operation, {16, 32}, len, shown, wanted}, {      \
        name ", wide", &wide, operation, {16, 32}, len, shown, 0      \
    }

static const row rows[] = {
    OF_BOTH("sealing, 0 bytes", SEAL, 0, TIME, 0),
    OF_BOTH("sealing, 16 bytes", SEAL, 16, SPEED, 1.9),
    OF_BOTH("sealing, 32 bytes", SEAL, 32, SPEED, 1.8),
    OF_BOTH("sealing, 64 bytes", SEAL, 64, SPEED, 1.1),
    OF_BOTH("sealing, 250 bytes", SEAL, 250, SPEED, 0),
    OF_BOTH("sealing, 1350 bytes", SEAL, 1350, SPEED, 1.0),
    OF_BOTH("sealing, 16 KiB", SEAL, 16 * KIB, SPEED, 1.0),
    OF_BOTH("sealing, 1 MiB", SEAL, MIB, SPEED, 0),
    OF_BOTH("opening, 0 bytes", OPEN, 0, TIME, 0),
    OF_BOTH("opening, 16 bytes", OPEN, 16, SPEED, 0),
    OF_BOTH("opening, 32 bytes", OPEN, 32, SPEED, 0),
    OF_BOTH("opening, 64 bytes", OPEN, 64, SPEED, 0),
    OF_BOTH("opening, 250 bytes", OPEN, 250, SPEED, 0),
    OF_BOTH("opening, 1350 bytes", OPEN, 1350, SPEED, 0),
    OF_BOTH("opening, 16 KiB", OPEN, 16 * KIB, SPEED, 0.95),
    OF_BOTH("opening, 1 MiB", OPEN, MIB, SPEED, 0),
    OF_BOTH("making an AES-GCM key", GCM_KEY, OF_KEY, TIME, 0),
    {"cloning an AES-GCM key", &library, CLONE, {16}, OF_KEY, TIME, 0},
    {"cloning an AES-GCM key, wide", &wide, CLONE, {16}, OF_KEY, TIME, 0},
    OF_BOTH("making an AES key", AES_KEY, OF_KEY, TIME, 0),
    {"AES, four blocks", &library, ENCRYPT_FOUR, {16, 32}, 64, SPEED, 1.05},
    {"counter mode, 16 bytes, wide", &wide, CTR32, {16, 32}, 16, SPEED, 0},
    {"counter mode, 32 bytes, wide", &wide, CTR32, {16, 32}, 32, SPEED, 0},
    {"counter mode, 48 bytes, wide", &wide, CTR32, {16, 32}, 48, SPEED, 0},
    {"counter mode, 64 bytes, wide", &wide, CTR32, {16, 32}, 64, SPEED, 0},
    OF_BOTH("counter mode, 16 KiB", CTR32, 16 * KIB, SPEED, 1.0),
    {"GHASH, one block", &library, UPDATE_BLOCK, {16}, 16, SPEED, 1.15},
    {"GHASH, one block, wide", &wide, UPDATE_BLOCK, {16}, 16, SPEED, 0},
    {"GHASH, 16 KiB, wide", &wide, UPDATE_BLOCKS, {16}, 16 * KIB, SPEED, 0},
    {"an AAD of 16 KiB, wide", &wide, AUTHENTICATE, {16, 32}, 16 * KIB, SPEED, 0},
    {"ChaCha20, 64 bytes", &library, CHACHA, {32}, 64, SPEED, 0},
    {"ChaCha20, 16 KiB", &library, CHACHA, {32}, 16 * KIB, SPEED, 1.9},
    {"a mask by AES-128", &library, MASK, {16}, SAMPLE_LEN, TIME, 0},
    {"a mask by AES-128, wide", &wide, MASK, {16}, SAMPLE_LEN, TIME, 0},
    {"a mask by AES-256", &library, MASK, {32}, SAMPLE_LEN, TIME, 0},
    {"a mask by AES-256, wide", &wide, MASK, {32}, SAMPLE_LEN, TIME, 0},
    {"a mask by ChaCha20", &library, CHACHA_MASK, {32}, SAMPLE_LEN, TIME, 0},
    {"sending a QUIC packet, 1350 bytes", &library, SEND, {16, 32}, 1350, SPEED, 0},
    {"sending and receiving it", &library, SEND_AND_RECEIVE, {16, 32}, 1350, SPEED, 0},
    {"sealing a record, 1350 bytes", &wide, SEAL_RECORD, {16, 32}, 1350, SPEED, 0},
    {"sealing and opening a record, 1350 bytes", &wide, SEAL_AND_OPEN_RECORD, {16, 32}, 1350, SPEED, 0},
    {"sealing a record of 16 KiB", &wide, SEAL_RECORD, {16, 32}, 16 * KIB + 22, SPEED, 0},
    {"sealing and opening a record of 16 KiB", &wide, SEAL_AND_OPEN_RECORD, {16, 32}, 16 * KIB + 22, SPEED, 0},
    {"`deerlapse_seal`, 16 bytes", &calls, SEAL_ONCE, {16, 32}, 16, SPEED, 0},
    {"`deerlapse_seal`, 1350 bytes", &calls, SEAL_ONCE, {16, 32}, 1350, SPEED, 0},
    {"`deerlapse_seal`, 16 KiB", &calls, SEAL_ONCE, {16, 32}, 16 * KIB, SPEED, 0},
    {"`deerlapse_open`, 1350 bytes", &calls, OPEN_ONCE, {16, 32}, 1350, SPEED, 0},
    {"`deerlapse_key_init`", &calls, GCM_KEY, {16, 32}, OF_KEY, TIME, 0},
    {"`deerlapse_key_seal`, 16 bytes", &calls, SEAL, {16, 32}, 16, SPEED, 0},
    {"`deerlapse_key_seal`, 1350 bytes", &calls, SEAL, {16, 32}, 1350, SPEED, 0},
    {"`deerlapse_key_seal`, 16 KiB", &calls, SEAL, {16, 32}, 16 * KIB, SPEED, 0},
    {"`deerlapse_key_open_separate_tag`, 1350 bytes", &calls, OPEN, {16, 32}, 1350, SPEED, 0},
    {"`deerlapse_chacha20`, 1350 bytes", &calls, CHACHA, {32}, 1350, SPEED, 0},
    {"`deerlapse_quic_header_key_mask`, AES-128", &calls, MASK, {16}, SAMPLE_LEN, TIME, 0},
    {"`deerlapse_mask_aes`, AES-128", &calls, MASK_ONCE, {16}, SAMPLE_LEN, TIME, 0},
    {"`deerlapse_mask_chacha20`", &calls, CHACHA_MASK_ONCE, {32}, SAMPLE_LEN, TIME, 0},
#ifdef WITH_V3
    {"`deerlapse_seal`, 1350 bytes, v3", &calls_v3, SEAL_ONCE, {16, 32}, 1350, SPEED, 0},
    {"`deerlapse_key_init`, v3", &calls_v3, GCM_KEY, {16, 32}, OF_KEY, TIME, 0},
    {"`deerlapse_key_seal`, 16 bytes, v3", &calls_v3, SEAL, {16, 32}, 16, SPEED, 0},
    {"`deerlapse_key_seal`, 64 bytes, v3", &calls_v3, SEAL, {16, 32}, 64, SPEED, 0},
    {"`deerlapse_key_seal`, 250 bytes, v3", &calls_v3, SEAL, {16, 32}, 250, SPEED, 0},
    {"`deerlapse_key_seal`, 1350 bytes, v3", &calls_v3, SEAL, {16, 32}, 1350, SPEED, 0},
    {"`deerlapse_key_seal`, 16 KiB, v3", &calls_v3, SEAL, {16, 32}, 16 * KIB, SPEED, 0},
    {"`deerlapse_key_open_separate_tag`, 250 bytes, v3", &calls_v3, OPEN, {16, 32}, 250, SPEED, 0},
    {"`deerlapse_key_open_separate_tag`, 1350 bytes, v3", &calls_v3, OPEN, {16, 32}, 1350, SPEED, 0},
    {"`deerlapse_key_open_separate_tag`, 16 KiB, v3", &calls_v3, OPEN, {16, 32}, 16 * KIB, SPEED, 0},
    {"`deerlapse_quic_header_key_mask`, AES-128, v3", &calls_v3, MASK, {16}, SAMPLE_LEN, TIME, 0},
#endif
};

typedef struct {
    const char *name;
    const side *side;
    const side *of[2]; /* the sides of the library that it is compared with; none: each */
} peer;

/* The peer to which the rows have least ratios. */
static const char yardstick[] = "BearSSL, clang";

static const peer all_peers[] = {
    {"Libraries", &library, {&wide}},
    {"`LessSafeKey`", &less_safe_key, {&library, &wide}},
#ifdef WITH_BEARSSL
    {"BearSSL", &bearssl, {0}},
#endif
#ifdef WITH_BEARSSL_CLANG
    {yardstick, &bearssl_clang, {0}},
#endif
#ifdef WITH_OPENSSL
    {"OpenSSL", &openssl, {0}},
#endif
#ifdef ON_ARM64
    {"ring", &ring, {0}},
    {"RustCrypto", &rust_crypto, {0}},
#endif
#ifdef WITH_V3
    {"x86-64-v2", &calls, {&calls_v3}},
#endif
#ifdef WITH_BEFORE
    {"Before", &before_library, {&library}},
    {"Before", &before_wide, {&wide}},
#endif
};

enum {
    ALL_PEERS = sizeof all_peers / sizeof all_peers[0],
    MAX_SIDES = 1 + ALL_PEERS,
    MAX_COLUMNS = 2,
    TURNS = 31,
    LEAST_TURNS = 7,
    TRIES = 3
};

/* A row at a length of the key. */
typedef struct {
    const row *row;
    char name[80];
    size_t key_len, len;
} timing;

/* A side in a row: the library's is the first. */
typedef struct {
    const peer *peer; /* null: the library */
    loop *loop;
    uint64_t times;        /* the calls of a turn */
    double seconds[TURNS]; /* of a call, by turn */
} timed;

/* A row at a length of the key, with its sides. */
typedef struct {
    timing of;
    timed sides[MAX_SIDES];
    int count;
} column;

static uint8_t buffer[MAX_LEN + TAG_LEN];

static double seconds_of_clock(clockid_t clock) {
    struct timespec t;
    clock_gettime(clock, &t);
    return (double)t.tv_sec + 1e-9 * (double)t.tv_nsec;
}

static void fill_buffer(size_t len) {
    for (size_t i = 0; i < len; i++) buffer[i] = (uint8_t)(i * 167 + (i >> 5));
}

static uint64_t run(loop *loop, uint64_t times, const timing *of) {
    uint8_t key[32];
    memset(key, 7, sizeof key);
    return loop(times, key, of->key_len, buffer, of->len);
}

static double seconds_of_run(loop *loop, uint64_t times, const timing *of) {
    fill_buffer(of->len);
    double from = seconds_of_clock(CLOCK_THREAD_CPUTIME_ID);
    run(loop, times, of);
    return seconds_of_clock(CLOCK_THREAD_CPUTIME_ID) - from;
}

/* The time of the calls alone: that of a run without calls, which makes keys and tags, is taken off. */
static double seconds_of_calls(loop *loop, uint64_t times, const timing *of) {
    double without = seconds_of_run(loop, 0, of);
    return seconds_of_run(loop, times, of) - without;
}

/* Whether two loops return the same and leave the same buffer. */
static bool agree(loop *a, loop *b, const timing *of) {
    static uint8_t left[MAX_LEN];
    uint64_t times = of->len > 16 * KIB ? 3 : 37;
    fill_buffer(of->len);
    uint64_t answer = run(a, times, of);
    memcpy(left, buffer, of->len);
    fill_buffer(of->len);
    return run(b, times, of) == answer && memcmp(left, buffer, of->len) == 0;
}

/* As many calls as take half of the time or more, and more than what comes before them. */
static uint64_t times_in(double seconds, loop *loop, const timing *of) {
    double without = seconds_of_run(loop, 0, of), least = seconds / 2 > without ? seconds / 2 : without;
    uint64_t times = 1;
    while (seconds_of_calls(loop, times, of) < least) times *= 2;
    return times;
}

/* Times the sides of all columns in turns, and returns how many turns they had. Each side is the first of some. */
static int take_turns(column *columns, int column_count, double seconds) {
    struct {
        const timing *of;
        timed *side;
    } all[MAX_COLUMNS * MAX_SIDES];
    int count = 0;
    for (column *c = columns; c < columns + column_count; c++) {
        for (int i = 0; i < c->count; i++, count++) all[count].of = &c->of, all[count].side = &c->sides[i];
    }
    seconds *= column_count;
    double from = seconds_of_clock(CLOCK_THREAD_CPUTIME_ID);
    for (int i = 0; i < count; i++) all[i].side->times = times_in(seconds / (TURNS * count), all[i].side->loop, all[i].of);
    int turn = 0;
    for (; turn < TURNS; turn++) {
        if (turn >= LEAST_TURNS && seconds_of_clock(CLOCK_THREAD_CPUTIME_ID) - from > seconds) break;
        for (int i = 0; i < count; i++) {
            int at = (turn + i) % count;
            timed *it = all[at].side;
            it->seconds[turn] = seconds_of_calls(it->loop, it->times, all[at].of) / (double)it->times;
        }
    }
    return turn;
}

static int by_value(const void *a, const void *b) {
    double x = *(const double *)a, y = *(const double *)b;
    return (x > y) - (x < y);
}

static void sort(double *values, int count) { qsort(values, (size_t)count, sizeof *values, by_value); }

/* The median time of a side's call, and the least. */
static double median_of(const timed *it, int turns, double *least) {
    double time[TURNS];
    memcpy(time, it->seconds, (size_t)turns * sizeof *time);
    sort(time, turns);
    *least = time[0];
    return time[turns / 2];
}

/* Whether the library's times repeat: in each column the median is at most a tenth above the least. */
static bool repeats(const column *columns, int column_count, int turns) {
    for (const column *c = columns; c < columns + column_count; c++) {
        double least, median = median_of(&c->sides[0], turns, &least);
        if (median > 1.1 * least) return false;
    }
    return true;
}

/* Prints the line of a peer, and returns whether its ratio is at least what the row requires. */
static bool print_peer(const timing *of, const timed *ours, const timed *theirs, int turns) {
    double ratio[TURNS], least, time = median_of(ours, turns, &least);
    for (int i = 0; i < turns; i++) ratio[i] = theirs->seconds[i] / ours->seconds[i];
    sort(ratio, turns);
    const row *r = of->row;
    double median = ratio[turns / 2], wanted = theirs->peer->name == yardstick ? r->wanted : 0;
    printf("%s\t", r->name);
    if (r->key_lens[1]) printf("%zu", 8 * of->key_len);
    printf("\t%s\t%zu\t%.4g\t%.4g\t", r->shown == SPEED ? "MB/s" : "ns", of->len, 1e9 * time, 1e9 * least);
    printf("%s\t%.4g\t%.4g\t%.4g\n", theirs->peer->name, median, ratio[turns / 4], ratio[turns - 1 - turns / 4]);
    fflush(stdout);
    if (median < wanted) fprintf(stderr, "bench: %s: %.2f to %s, less than %.2f\n", of->name, median, yardstick, wanted);
    return median >= wanted;
}

/* Whether a peer is timed in a row. */
static bool is_in(const peer *it, const row *r) {
    return it->side->loops[r->operation] && (!it->of[0] || it->of[0] == r->library || it->of[1] == r->library);
}

/* The name has the algorithm's where the row is timed for two lengths of a key. */
static timing timing_of(const row *r, size_t key_len) {
    timing of = {.row = r, .key_len = key_len, .len = r->len == OF_KEY ? key_len : (size_t)r->len};
    if (r->key_lens[1]) snprintf(of.name, sizeof of.name, "%s, AES-%zu", r->name, 8 * key_len);
    else snprintf(of.name, sizeof of.name, "%s", r->name);
    return of;
}

/* Gives a column its sides, and returns whether the peers agree with the library. */
static bool fill_column(column *c, const peer *peers, int peer_count) {
    const row *r = c->of.row;
    bool fine = true;
    c->sides[0] = (timed){.loop = r->library->loops[r->operation]};
    c->count = 1;
    for (const peer *it = peers; it < peers + peer_count; it++) {
        if (!is_in(it, r)) continue;
        loop *theirs = it->side->loops[r->operation];
        if (agree(c->sides[0].loop, theirs, &c->of)) {
            c->sides[c->count++] = (timed){.peer = it, .loop = theirs};
        } else {
            fprintf(stderr, "bench: %s: %s differs\n", c->of.name, it->name);
            fine = false;
        }
    }
    return fine;
}

/* Times the columns of a row, prints them, and returns whether the ratios are as wanted. */
static bool time_columns(column *columns, int column_count, double seconds) {
    int turns, tries = 1;
    while (turns = take_turns(columns, column_count, seconds), !repeats(columns, column_count, turns) && tries < TRIES) tries++;
    bool fine = true;
    for (column *c = columns; c < columns + column_count; c++) {
        for (int i = 1; i < c->count; i++) fine &= print_peer(&c->of, &c->sides[0], &c->sides[i], turns);
    }
    return fine;
}

/* Whether a name has one of the words, or there is none. */
static bool is_wanted(const char *name, char **words) {
    if (!*words) return true;
    for (; *words; words++) {
        if (strstr(name, *words)) return true;
    }
    return false;
}

static bool time_rows(const peer *peers, int peer_count, double seconds, char **words) {
    bool fine = true;
    for (const row *r = rows; r < rows + sizeof rows / sizeof rows[0]; r++) {
        column columns[MAX_COLUMNS];
        int count = 0;
        for (int i = 0; i < MAX_COLUMNS && r->key_lens[i]; i++) {
            columns[count].of = timing_of(r, r->key_lens[i]);
            if (!is_wanted(columns[count].of.name, words)) continue;
            fine &= fill_column(&columns[count], peers, peer_count);
            if (columns[count].count > 1) count++;
        }
        if (count > 0) fine &= time_columns(columns, count, seconds);
    }
    return fine;
}

/* Makes calls of one side in one row, and prints what they return. Returns false where there is none. */
static bool make_calls(const char *peer_name, uint64_t times, const char *row_name) {
    for (const row *r = rows; r < rows + sizeof rows / sizeof rows[0]; r++) {
        for (int i = 0; i < MAX_COLUMNS && r->key_lens[i]; i++) {
            timing of = timing_of(r, r->key_lens[i]);
            if (strcmp(of.name, row_name) != 0) continue;
            loop *made = strcmp(peer_name, "Ours") == 0 ? r->library->loops[r->operation] : NULL;
            for (const peer *it = all_peers; it < all_peers + ALL_PEERS; it++) {
                if (strcmp(it->name, peer_name) == 0 && is_in(it, r)) made = it->side->loops[r->operation];
            }
            if (!made) return false;
            fill_buffer(of.len);
            printf("%016" PRIx64 "\n", run(made, times, &of));
            return true;
        }
    }
    return false;
}

int main(int n, char **v) {
    if (n == 5 && strcmp(v[1], "-c") == 0) return make_calls(v[2], strtoull(v[3], NULL, 10), v[4]) ? 0 : 3;
    const peer *peers = all_peers;
    int peer_count = ALL_PEERS;
#ifdef WITH_OPENSSL
    peer openssl_alone = {.side = &openssl};
    if (n > 3 && strcmp(v[1], "-o") == 0) {
        openssl_alone.name = v[2];
        peers = &openssl_alone;
        peer_count = 1;
        n -= 2, v += 2;
    }
#endif
    double seconds = n > 1 ? atof(v[1]) : 0;
    if (seconds <= 0) {
        fputs("bench: use: bench [-o NAME] SECONDS [WORD..] or bench -c PEER CALLS ROW\n", stderr);
        return 2;
    }
    double wall = seconds_of_clock(CLOCK_MONOTONIC), processor = seconds_of_clock(CLOCK_PROCESS_CPUTIME_ID);
    bool fine = time_rows(peers, peer_count, seconds, v + 2);
    printf("clock\t%.4g\t%.4g\n", seconds_of_clock(CLOCK_MONOTONIC) - wall,
           seconds_of_clock(CLOCK_PROCESS_CPUTIME_ID) - processor);
    return fine ? 0 : 2;
}
