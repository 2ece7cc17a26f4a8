/* Seals a file in chunks, and opens it. It refuses a file that was cut, or in which chunks were exchanged or are another file's.
 *
 * A sealed file begins with 32 random bytes. HKDF makes of them and of the caller's key a key and an IV for this file alone, so a
 * sealer begins with number 0 for each file. Chunks of 64 KiB follow, each with its tag after it. The last chunk may be shorter, or
 * empty, and its AAD is the byte 1. The AAD of every other chunk is the byte 0. This is an example, and no format for files: the
 * program seal_file has one.
 *
 * For Windows, link bcrypt too. */
#define _DEFAULT_SOURCE /* for getentropy, as glibc and musl declare it */
#include "deerlapse.h"
#include <stdio.h>
#if defined(_WIN32)
#include <windows.h>
#include <bcrypt.h>
#elif defined(__APPLE__)
#include <sys/random.h>
#else
#include <unistd.h>
#endif

enum { KEY_LEN = 32, SALT_LEN = 32, CHUNK_LEN = 1 << 16 };

/* Draws up to 256 bytes from the system's random generator. */
static bool draw(uint8_t *bytes, size_t len) {
#if defined(_WIN32)
    return BCryptGenRandom(NULL, bytes, (ULONG)len, BCRYPT_USE_SYSTEM_PREFERRED_RNG) == 0;
#else
    return getentropy(bytes, len) == 0;
#endif
}

/* Writes the key of a file, and after it the IV. */
static bool derive(const uint8_t key[KEY_LEN], const uint8_t salt[SALT_LEN], uint8_t out[KEY_LEN + DEERLAPSE_NONCE_LEN]) {
    static const uint8_t info[] = "deerlapse example file";
    uint8_t prk[DEERLAPSE_SHA256_LEN];
    return deerlapse_hkdf_extract(salt, SALT_LEN, key, KEY_LEN, prk, sizeof prk) &&
           deerlapse_hkdf_expand(prk, sizeof prk, info, sizeof info - 1, out, KEY_LEN + DEERLAPSE_NONCE_LEN);
}

/* Returns whether no byte is left, or none can be read. */
static bool is_at_end(FILE *in) {
    int byte = getc(in);
    if (byte != EOF) ungetc(byte, in);
    return byte == EOF;
}

/* Seals all that can be read. If it returns false, discard what was written. */
static bool seal_chunks(const uint8_t key[KEY_LEN], FILE *in, FILE *out) {
    uint8_t salt[SALT_LEN], own[KEY_LEN + DEERLAPSE_NONCE_LEN], chunk[CHUNK_LEN + DEERLAPSE_TAG_LEN], is_last = 0;
    deerlapse_sealer sealer = {{0}};
    bool is_right = draw(salt, sizeof salt) && derive(key, salt, own) &&
                    deerlapse_sealer_init(&sealer, own, KEY_LEN, own + KEY_LEN, 0, UINT64_MAX) &&
                    fwrite(salt, 1, sizeof salt, out) == sizeof salt;
    while (is_right && !is_last) {
        size_t len = fread(chunk, 1, CHUNK_LEN, in), all = len + DEERLAPSE_TAG_LEN;
        is_last = is_at_end(in);
        is_right = !ferror(in) && deerlapse_sealer_seal(&sealer, &is_last, 1, chunk, len, chunk + len) &&
                   fwrite(chunk, 1, all, out) == all;
    }
    deerlapse_sealer_wipe(&sealer);
    return is_right && fflush(out) == 0;
}

/* Opens what seal_chunks wrote. If it returns false, discard what was written: it may be the beginning of a file that was cut. */
static bool open_chunks(const uint8_t key[KEY_LEN], FILE *in, FILE *out) {
    uint8_t salt[SALT_LEN], own[KEY_LEN + DEERLAPSE_NONCE_LEN], chunk[CHUNK_LEN + DEERLAPSE_TAG_LEN], is_last = 0;
    deerlapse_opener opener = {{0}};
    bool is_right = fread(salt, 1, sizeof salt, in) == sizeof salt && derive(key, salt, own) &&
                    deerlapse_opener_init(&opener, own, KEY_LEN, own + KEY_LEN, 0, UINT64_MAX);
    while (is_right && !is_last) {
        size_t all = fread(chunk, 1, sizeof chunk, in), len = 0;
        is_last = is_at_end(in);
        is_right = !ferror(in) && deerlapse_opener_open(&opener, &is_last, 1, chunk, all, 0, &len) &&
                   fwrite(chunk, 1, len, out) == len;
    }
    deerlapse_opener_wipe(&opener);
    return is_right && fflush(out) == 0;
}

int main(void) {
    uint8_t key[KEY_LEN];
    FILE *file = tmpfile(), *sealed = tmpfile(), *opened = tmpfile();
    long written = 0;

    if (!deerlapse_cpu_supported()) {
        fputs("this processor lacks instructions that the library was built for\n", stderr);
        return 1;
    }
    bool is_right = file && sealed && opened && draw(key, sizeof key);
    while (is_right && written < 2 * CHUNK_LEN + 5) is_right = putc((int)(written++ % 251), file) != EOF;
    if (is_right) rewind(file);
    is_right = is_right && seal_chunks(key, file, sealed);
    if (is_right) rewind(sealed);
    is_right = is_right && open_chunks(key, sealed, opened) && ftell(opened) == written;
    if (is_right) printf("opened: a file of %ld bytes\n", written);
    else fputs("a file cannot be written, or is not what was sealed\n", stderr);
    return is_right ? 0 : 1;
}
