/* The program aeadrun, which FUZZ_PROGRAM names, on lines: its exit status and each byte that it prints, beside what
 * crates/aeadrun/README.md says, with OpenSSL. */
#define _GNU_SOURCE
#define FUZZED
#include "../../interop/against-openssl.d/expected.h"
#include <errno.h>
#include <spawn.h>
#include <sys/wait.h>
#include <unistd.h>

#define LONGEST 30000
#define WORDS 8

void fuzz_one(const uint8_t *bytes, size_t len);

/* A word of a line, and the bytes that it stands for. */
typedef struct {
    const char *text;
    size_t text_len, len;
    uint8_t bytes[LONGEST / 2];
} word;

static word words[WORDS];
static size_t count;

/* The keys of the last `keys` line: how many nonces each has left. The number of the next one is `end` minus that. */
static struct {
    bool is;
    size_t key_len;
    uint8_t key[32], prefix[4];
    uint64_t end, left_to_seal, left_to_open;
} keys;

/* A bad line takes 9 bytes for one. */
static char wanted[10 * LONGEST];
static size_t wanted_len;

static void put(const char *text) {
    size_t len = strlen(text);
    memcpy(wanted + wanted_len, text, len);
    wanted_len += len;
}

static void put_bytes(const uint8_t *bytes, size_t len) {
    put(len ? " " : " -");
    for (size_t i = 0; i < len; i++) {
        char digits[3];
        snprintf(digits, sizeof digits, "%02x", bytes[i]);
        put(digits);
    }
}

/* ---- words */

static bool is_word(const word *w, const char *text) {
    return w->text_len == strlen(text) && memcmp(w->text, text, w->text_len) == 0;
}

static int digit(char c) {
    if (c >= '0' && c <= '9') return c - '0';
    if (c >= 'a' && c <= 'f') return c - 'a' + 10;
    return c >= 'A' && c <= 'F' ? c - 'A' + 10 : -1;
}

static bool reads_bytes(word *w) {
    w->len = 0;
    if (is_word(w, "-")) return true;
    if (w->text_len == 0 || w->text_len % 2) return false;
    for (size_t i = 0; i < w->text_len; i += 2) {
        int high = digit(w->text[i]), low = digit(w->text[i + 1]);
        if (high < 0 || low < 0) return false;
        w->bytes[w->len++] = (uint8_t)(high << 4 | low);
    }
    return true;
}

static bool reads_number(const word *w, uint64_t *number) {
    *number = 0;
    if (w->text_len < 1 || w->text_len > 20) return false;
    for (size_t i = 0; i < w->text_len; i++) {
        uint64_t now = *number * 10 + (uint64_t)(w->text[i] - '0');
        if (w->text[i] < '0' || w->text[i] > '9') return false;
        if (*number > UINT64_MAX / 10 || now < *number) return false;
        *number = now;
    }
    return true;
}

/* So many words, of which those from one to another are bytes. */
static bool are(size_t wanted_count, size_t from, size_t to) {
    if (count != wanted_count) return false;
    for (size_t i = from; i <= to; i++)
        if (!reads_bytes(&words[i])) return false;
    return true;
}

/* The length of the keys of 128 or 256, or 0. */
static size_t key_len_of(const word *w) { return is_word(w, "128") ? 16 : is_word(w, "256") ? 32 : 0; }

/* ---- responses */

static void put_sealed(const uint8_t *key, size_t key_len, const uint8_t *nonce, const word *aad, const word *message,
                       bool apart) {
    static uint8_t sealed[LONGEST];
    expect_gcm(key, key_len, nonce, aad->bytes, aad->len, message->bytes, message->len, sealed);
    put("ok");
    put_bytes(sealed, message->len + (apart ? 0 : TAG));
    if (apart) put_bytes(sealed + message->len, TAG);
}

static void put_opened(bool can, const uint8_t *key, size_t key_len, const uint8_t *nonce, const word *aad, uint64_t start,
                       word *buffer) {
    static uint8_t message[LONGEST];
    size_t len = 0;
    can = can && buffer->len >= TAG && start <= buffer->len - TAG;
    if (can) {
        len = buffer->len - TAG - (size_t)start;
        can = opens_by_gcm(key, key_len, nonce, aad->bytes, aad->len, buffer->bytes + start, len, message);
    }
    put(can ? "ok" : "refused");
    if (can) put_bytes(message, len);
    if (can) memcpy(buffer->bytes, message, len);
    put_bytes(buffer->bytes, buffer->len);
}

static void next_nonce(uint8_t nonce[12], uint64_t left) {
    memcpy(nonce, keys.prefix, 4);
    for (int i = 0; i < 8; i++) nonce[4 + i] = (uint8_t)((keys.end - left) >> (56 - 8 * i));
}

static void new_keys(size_t key_len, uint64_t times) {
    uint64_t first = 0;
    for (int i = 0; i < 8; i++) first = first << 8 | words[4].bytes[i];
    if (words[2].len != key_len || (first && times > UINT64_MAX - first + 1)) {
        put("refused");
        return;
    }
    keys.is = true, keys.key_len = key_len, keys.end = first + times, keys.left_to_seal = keys.left_to_open = times;
    memcpy(keys.key, words[2].bytes, key_len);
    memcpy(keys.prefix, words[3].bytes, 4);
    put("ok");
}

static void put_mask(size_t key_len, bool is_chacha) {
    uint8_t mask[5];
    if (words[2].len != key_len || words[3].len != 16) {
        put("refused");
        return;
    }
    if (is_chacha) expect_chacha20_mask(words[2].bytes, words[3].bytes, mask);
    else expect_aes_mask(words[2].bytes, key_len, words[3].bytes, mask);
    put("ok");
    put_bytes(mask, sizeof mask);
}

/* Puts the response to the words of a line, unless it is bad. */
static bool responds(void) {
    const word *name = &words[0], *algorithm = &words[1];
    size_t key_len = count > 1 ? key_len_of(algorithm) : 0;
    uint64_t number;
    uint8_t nonce[12];
    if (is_word(name, "seal")) {
        if (!key_len || !are(6, 2, 5)) return false;
        if (words[2].len != key_len || words[3].len != 12) put("refused");
        else put_sealed(words[2].bytes, key_len, words[3].bytes, &words[4], &words[5], true);
    } else if (is_word(name, "open")) {
        if (!key_len || !are(7, 2, 4) || !reads_number(&words[5], &number) || !reads_bytes(&words[6])) return false;
        bool can = words[2].len == key_len && words[3].len == 12;
        put_opened(can, words[2].bytes, key_len, words[3].bytes, &words[4], number, &words[6]);
    } else if (is_word(name, "mask")) {
        if (count != 4) return false;
        bool is_128 = is_word(algorithm, "aes128"), is_chacha = is_word(algorithm, "chacha20");
        if (!(is_128 || is_chacha || is_word(algorithm, "aes256")) || !are(4, 2, 3)) return false;
        put_mask(is_128 ? 16 : 32, is_chacha);
    } else if (is_word(name, "keys")) {
        if (!key_len || !are(6, 2, 4) || words[3].len != 4 || words[4].len != 8) return false;
        if (!reads_number(&words[5], &number)) return false;
        new_keys(key_len, number);
    } else if (is_word(name, "next-seal")) {
        if (!are(3, 1, 2) || !keys.is) return false;
        next_nonce(nonce, keys.left_to_seal);
        if (!keys.left_to_seal) put("refused");
        else put_sealed(keys.key, keys.key_len, nonce, &words[1], &words[2], false), keys.left_to_seal--;
    } else {
        if (!is_word(name, "next-open") || count != 4 || !reads_bytes(&words[1])) return false;
        if (!reads_number(&words[2], &number) || !reads_bytes(&words[3]) || !keys.is) return false;
        next_nonce(nonce, keys.left_to_open);
        put_opened(keys.left_to_open, keys.key, keys.key_len, nonce, &words[1], number, &words[3]);
        keys.left_to_open -= keys.left_to_open > 0;
    }
    return true;
}

/* Splits a line at its spaces. A line of more words than any command has is bad. */
static bool line_is_good(const char *line, const char *end) {
    for (count = 0; count < WORDS; count++) {
        const char *space = memchr(line, ' ', (size_t)(end - line));
        words[count].text = line;
        words[count].text_len = (size_t)((space ? space : end) - line);
        if (!space) {
            count++;
            return responds();
        }
        line = space + 1;
    }
    return false;
}

/* ---- the program */

static int file_of(const void *bytes, size_t len) {
    int file = memfd_create("lines", MFD_CLOEXEC);
    CHECK(file >= 0 && write(file, bytes, len) == (ssize_t)len && lseek(file, 0, SEEK_SET) == 0);
    return file;
}

void fuzz_one(const uint8_t *bytes, size_t len) {
    static char found[sizeof wanted];
    char *argv[] = {getenv("FUZZ_PROGRAM"), NULL}, *environment[] = {NULL};
    posix_spawn_file_actions_t actions;
    pid_t program;
    int all_good = 1, status, in, out;
    begin(bytes, len);
    if (len > LONGEST) return;
    wanted_len = 0;
    keys.is = false;
    for (const char *at = (const char *)bytes, *end = at + len, *line_end; at < end; at = line_end + 1) {
        line_end = memchr(at, '\n', (size_t)(end - at));
        if (!line_end) line_end = end;
        bool is_good = line_is_good(at, line_end);
        if (!is_good) put("bad line");
        all_good = all_good && is_good;
        put("\n");
    }
    in = file_of(bytes, len), out = file_of("", 0);
    CHECK(argv[0] && posix_spawn_file_actions_init(&actions) == 0);
    CHECK(posix_spawn_file_actions_adddup2(&actions, in, 0) == 0 && posix_spawn_file_actions_adddup2(&actions, out, 1) == 0);
    CHECK(posix_spawn(&program, argv[0], &actions, NULL, argv, environment) == 0);
    /* libFuzzer's timer may interrupt the call. */
    while (waitpid(program, &status, 0) != program) CHECK(errno == EINTR);
    CHECK(WIFEXITED(status) && WEXITSTATUS(status) == !all_good);
    CHECK(pread(out, found, sizeof found, 0) == (ssize_t)wanted_len && memcmp(found, wanted, wanted_len) == 0);
    posix_spawn_file_actions_destroy(&actions);
    close(in), close(out);
}
