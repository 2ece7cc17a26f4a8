/* What the files of the bench share.
 *
 * A side is an implementation that is timed: a loop for each operation that it has. All loops of an operation make the
 * same calls from the same key and buffer, so what they return and what they leave in the buffer can be compared.
 */
#ifndef BENCH_H
#define BENCH_H

#include <stddef.h>
#include <stdint.h>
#include <string.h>

#ifdef ON_ARM64 /* The program of bench/arm64 has the calls for C alone: its rows of libraries are of them. */
#define library calls
#define wide calls
#define less_safe_key calls
#endif

enum { NONCE_LEN = 12, TAG_LEN = 16, SAMPLE_LEN = 16, MASK_LEN = 5, BLOCK_LEN = 16 };

typedef enum {
    SEAL,         /* seals the buffer in place, under a key that is made before */
    OPEN,         /* opens the buffer in place, under a key that is made before */
    SEAL_ONCE,    /* makes the key and seals */
    OPEN_ONCE,    /* makes the key and opens */
    AUTHENTICATE, /* seals no bytes with the buffer as the AAD, under a key that is made before */
    CTR32,        /* encrypts the buffer by counter mode */
    ENCRYPT_FOUR, /* encrypts four blocks, which are not the buffer's */
    UPDATE_BLOCK, /* takes one block into a hash: the first of the key, which is the hash subkey as well */
    UPDATE_BLOCKS, /* takes the whole blocks of the buffer into a hash, whose subkey is the key */
    CHACHA,       /* encrypts the buffer by ChaCha20 */
    MASK,         /* makes a mask of the buffer, a sample, by AES, and writes it over its front */
    MASK_ONCE,    /* makes the key and the mask */
    CHACHA_MASK,  /* the same by ChaCha20 */
    CHACHA_MASK_ONCE,
    AES_KEY,      /* makes an AES key of the buffer */
    GCM_KEY,      /* makes an AES-GCM key of the buffer */
    CLONE,        /* copies an AES-GCM key */
    SEND,         /* sends the buffer as a QUIC packet with a short header, and then writes zeros over the header */
    SEND_AND_RECEIVE, /* sends and receives it */
    SEAL_RECORD, /* seals a record of TLS that fills the buffer */
    SEAL_AND_OPEN_RECORD, /* seals and opens it */
    OPERATIONS
} operation;

/* Makes a call `times` times, and returns eight bytes of what was made. The TAG_LEN bytes after the buffer's are free for a
 * tag. */
typedef uint64_t loop(uint64_t times, const uint8_t *key, size_t key_len, uint8_t *buffer, size_t len);

typedef struct {
    loop *loops[OPERATIONS]; /* null: it hasn't this one */
} side;

extern const side library;       /* the loops of crates/aead_bench over the keys of the libraries, and over packets */
extern const side before_library; /* those of an older crates/aead_bench */
extern const side wide;          /* those over the keys of crates/aead_ciphers_wide, and over records */
extern const side before_wide;   /* those of an older crates/aead_bench */
extern const side less_safe_key; /* those that seal and open what a packet or a record holds, without making it */
extern const side calls;         /* the calls for C of crates/deerlapse */
extern const side calls_v3;      /* those of the text for x86-64-v3 in dist/ */
extern const side bearssl;       /* BearSSL as the system has it */
extern const side bearssl_clang; /* BearSSL's sources, by the compiler of the library */
extern const side openssl;
extern const side ring;          /* on ARM64 */
extern const side rust_crypto;   /* RustCrypto's aes-gcm, on ARM64 */

static const uint8_t nonce[NONCE_LEN] = {1, 1, 1, 1, 1, 1, 1, 1, 1, 1, 1, 1};

static inline uint64_t first_bytes(const uint8_t *bytes) {
    uint64_t first;
    memcpy(&first, bytes, sizeof first);
    return first;
}

static inline void set_first_bytes(uint8_t *bytes, uint64_t number) {
    memcpy(bytes, &number, sizeof number);
}

#endif
