// SPDX-License-Identifier: Apache-2.0
/* AES-GCM, XAES-256-GCM, the ChaCha20 stream, QUIC's header protection masks, and the keys of QUIC's packets and TLS 1.3's
 * records, for C and C++. deerlapse.h is C99. The library is a file of assembly for each target, such as
 * deerlapse-x86_64-v2.s, of which libdeerlapse.a and libdeerlapse.so are made.
 *
 * The following holds for every call:
 *  - It returns true on success. It returns false on failure, and leaves every byte unchanged, except that
 *    deerlapse_key_init then fills the key with zeros. A call that cannot fail returns nothing, or the number that it
 *    computes.
 *  - A pointer with a length points to that many bytes, and may be null if the length is 0: the name in the call is that
 *    of a wrapper, such as deerlapse_key_seal_nullable, at the end of deerlapse.h. No other pointer may be null. A
 *    parameter such as nonce[12] points to as many bytes as its brackets say.
 *  - The bytes that a call writes must not overlap any other bytes that it is given. No call checks this. Bytes that it
 *    only reads may overlap. A tag may come right after its message: `tag` is then `in_out + in_out_len`.
 *  - It allocates no memory, has no state and starts no thread. Threads may make calls at the same time, as long as no
 *    call writes bytes that another one is given.
 *  - It uses at most DEERLAPSE_MAX_STACK bytes of stack, whatever the lengths.
 *
 * The library is for Linux, FreeBSD and macOS, on ARM64 or on an x86-64 processor of the level DEERLAPSE_X86_64_LEVEL, and
 * for Windows on such an x86-64 processor. On Linux it ran on x86-64, and on ARM64 under QEMU; for Windows it ran under Wine;
 * for FreeBSD and macOS it was built, and not run. Only deerlapse_cpu_supported checks the processor.
 */
#ifndef DEERLAPSE_H
#define DEERLAPSE_H

#include <stdbool.h>
#include <stddef.h>
#include <stdint.h>

#if defined(_MSC_VER) && defined(_M_X64) && !defined(__GNUC__)
#include <intrin.h>
#endif

#if defined(__GNUC__)
/* The compiler warns if a null pointer is passed. */
#define DEERLAPSE_CALL __attribute__((nonnull))
/* It also warns if the result is ignored. */
#define DEERLAPSE_NODISCARD __attribute__((nonnull, warn_unused_result))
/* It gives both warnings for a function of which only the parameters with these numbers must not be null. */
#define DEERLAPSE_WRAPS(...) static inline __attribute__((nonnull(__VA_ARGS__), warn_unused_result))
/* It only warns if the result is ignored, for a function each of whose pointers may be null. */
#define DEERLAPSE_WRAPS_NULLABLE static inline __attribute__((warn_unused_result))
#else
#define DEERLAPSE_CALL
#define DEERLAPSE_NODISCARD
#define DEERLAPSE_WRAPS(...) static inline
#define DEERLAPSE_WRAPS_NULLABLE static inline
#endif

#define DEERLAPSE_VERSION_MAJOR 0
#define DEERLAPSE_VERSION_MINOR 1
#define DEERLAPSE_VERSION_PATCH 0

/* The version as one number: 0x010203 for 1.2.3. */
#define DEERLAPSE_VERSION (DEERLAPSE_VERSION_MAJOR << 16 | DEERLAPSE_VERSION_MINOR << 8 | DEERLAPSE_VERSION_PATCH)

/* The level of x86-64 processors that the library was built for: 2 for x86-64-v2, 3 for x86-64-v3. It is the level of the
 * installed library in an installed deerlapse.h, and 2 in any other: a program with deerlapse-x86_64-v3.s is compiled with
 * -DDEERLAPSE_X86_64_LEVEL=3. For Windows and macOS there is only level 2. On ARM64 every processor will do. */
#ifndef DEERLAPSE_X86_64_LEVEL
#define DEERLAPSE_X86_64_LEVEL 2
#endif

/* The most bytes of stack that a call uses, as measured by the repository's tools/stack on Linux. They include the bytes that
 * the dynamic linker uses when it binds memcpy, memmove and memset in the first call. */
#define DEERLAPSE_MAX_STACK 8192

/* The lengths of arrays, in bytes. */
#define DEERLAPSE_NONCE_LEN 12
#define DEERLAPSE_XAES_KEY_LEN 32
#define DEERLAPSE_XAES_NONCE_LEN 24
#define DEERLAPSE_TAG_LEN 16
#define DEERLAPSE_SAMPLE_LEN 16
#define DEERLAPSE_MASK_LEN 5
#define DEERLAPSE_SHA256_LEN 32
#define DEERLAPSE_SHA384_LEN 48

/* The numbers of QUIC's versions 1 and 2 in a long header (RFC 9000 section 15, RFC 9369 section 3.1). */
#define DEERLAPSE_QUIC_V1 UINT32_C(1)
#define DEERLAPSE_QUIC_V2 UINT32_C(0x6b3343cf)

#ifdef __cplusplus
extern "C" {
#endif

/* Returns the version of the library that the program was linked with. DEERLAPSE_VERSION is the version of deerlapse.h. */
uint32_t deerlapse_version(void);

/* A key that is expanded once, for many messages and many threads. deerlapse_key_init initializes it. It is in the caller's
 * memory: on the stack, in a struct or in a table. It contains no pointer, so a copy by `=` or memcpy is a key as well.
 * Sealing and opening only read it, so threads may share it once they see it initialized.
 *
 * Every call under a key of zeros, such as `deerlapse_key key = {{0}}`, returns false. A key is also all zeros after
 * deerlapse_key_init returned false and after it is wiped. Any other memory, such as an uninitialized variable, must only be
 * passed to deerlapse_key_init and deerlapse_key_wipe. */
typedef struct deerlapse_key {
    uint64_t words[399]; /* private: neither read nor write them */
} deerlapse_key;

/* Expands a key. The previous bytes of `key` are not read.
 *
 *   bytes   len bytes: 16 for AES-128-GCM, 32 for AES-256-GCM
 *
 * Returns false if len is neither 16 nor 32. Every byte of `key` is then zero. */
DEERLAPSE_NODISCARD
bool deerlapse_key_init(deerlapse_key *key, const uint8_t *bytes, size_t len);

/* Encrypts in place with AES-128-GCM or AES-256-GCM, and writes the tag (SP 800-38D algorithm 4).
 *
 *   key      initialized by deerlapse_key_init, or zeros
 *   nonce    12 bytes, never used twice under one key: a counter is safe, and a deerlapse_sealer keeps one. A nonce that is
 *            used twice reveals the XOR of the two messages, and lets others forge tags under the key
 *   aad      aad_len bytes, which are authenticated but not encrypted
 *   in_out   in_out_len bytes: the message, which the ciphertext replaces
 *   tag      16 bytes, which are written
 *
 * Returns false if the key is zeros, if in_out_len is above 2^36 - 32, or if aad_len is 2^61 or more. */
DEERLAPSE_NODISCARD
bool deerlapse_key_seal(const deerlapse_key *key, const uint8_t nonce[DEERLAPSE_NONCE_LEN], const uint8_t *aad,
                        size_t aad_len, uint8_t *in_out, size_t in_out_len, uint8_t tag[DEERLAPSE_TAG_LEN]);

/* Opens in place what deerlapse_key_seal sealed: the ciphertext from in_out + start on, and the tag, which is the last 16 of
 * the in_out_len bytes (SP 800-38D algorithm 5). On success the plaintext is at in_out, and the bytes after it are unchanged.
 *
 *   key, nonce, aad   as for deerlapse_key_seal
 *   in_out            in_out_len bytes: `start` bytes of anything, the ciphertext and the tag
 *   plaintext_len     written on success: in_out_len - 16 - start
 *
 * aad must not be in in_out, not even before `start`. For a header before its ciphertext, pass the pointer after the header,
 * and 0 for `start`.
 *
 * Returns false if the tag is wrong, if there are fewer than 16 bytes from `start` on, if the key is zeros, or if the
 * ciphertext or the AAD is longer than deerlapse_key_seal takes. */
DEERLAPSE_NODISCARD
bool deerlapse_key_open(const deerlapse_key *key, const uint8_t nonce[DEERLAPSE_NONCE_LEN], const uint8_t *aad,
                        size_t aad_len, uint8_t *in_out, size_t in_out_len, size_t start, size_t *plaintext_len);

/* Opens in place a ciphertext whose tag is passed separately. All bytes from in_out + start on are the ciphertext. On success
 * the plaintext, of in_out_len - start bytes, is at in_out, and the bytes after it are unchanged.
 *
 *   tag   16 bytes, which are read
 *
 * Returns false if the tag is wrong, if `start` is above in_out_len, if the key is zeros, or if the ciphertext or the AAD is
 * longer than deerlapse_key_seal takes. */
DEERLAPSE_NODISCARD
bool deerlapse_key_open_separate_tag(const deerlapse_key *key, const uint8_t nonce[DEERLAPSE_NONCE_LEN],
                                     const uint8_t *aad, size_t aad_len, uint8_t *in_out, size_t in_out_len,
                                     size_t start, const uint8_t tag[DEERLAPSE_TAG_LEN]);

/* These calls do the same as deerlapse_key_seal and deerlapse_key_open_separate_tag, but from one buffer to another. `in` is
 * unchanged. Opening writes no byte of `out` before the tag is verified.
 *
 *   in    in_len bytes: the message, or the ciphertext
 *   out   in_len bytes, which must not overlap `in`, unless it is the same pointer
 *
 * Return false if the call in place does. */
DEERLAPSE_WRAPS(1, 2, 8)
bool deerlapse_key_seal_to(const deerlapse_key *key, const uint8_t nonce[DEERLAPSE_NONCE_LEN], const uint8_t *aad,
                           size_t aad_len, const uint8_t *in, size_t in_len, uint8_t *out,
                           uint8_t tag[DEERLAPSE_TAG_LEN]);
DEERLAPSE_WRAPS(1, 2, 8)
bool deerlapse_key_open_to(const deerlapse_key *key, const uint8_t nonce[DEERLAPSE_NONCE_LEN], const uint8_t *aad,
                           size_t aad_len, const uint8_t *in, size_t in_len, uint8_t *out,
                           const uint8_t tag[DEERLAPSE_TAG_LEN]);

/* These calls do the same as deerlapse_key_seal_to and deerlapse_key_open_to, with the tag after the ciphertext: sealing
 * writes both to `out`, and opening reads both from `in`.
 *
 *   in    in_len bytes: the message, or the ciphertext and its tag
 *   out   in_len + 16 bytes for sealing, in_len - 16 bytes for opening, which must not overlap `in`, unless it is the same
 *         pointer
 *
 * Return false if the calls with a separate tag do. Opening also returns false if in_len is below 16. */
DEERLAPSE_WRAPS(1, 2, 7)
bool deerlapse_key_seal_append_tag(const deerlapse_key *key, const uint8_t nonce[DEERLAPSE_NONCE_LEN],
                                   const uint8_t *aad, size_t aad_len, const uint8_t *in, size_t in_len,
                                   uint8_t *out);
DEERLAPSE_WRAPS(1, 2)
bool deerlapse_key_open_appended_tag(const deerlapse_key *key, const uint8_t nonce[DEERLAPSE_NONCE_LEN],
                                     const uint8_t *aad, size_t aad_len, const uint8_t *in, size_t in_len,
                                     uint8_t *out);

/* deerlapse_key_seal_to and the three calls after it are inline functions. They call the functions whose names end in _sized
 * or, if `in` and `out` are the same pointer, the calls in place. The functions in _sized also take the length of `out`, and
 * none of their pointers may be null. A program that doesn't include deerlapse.h calls them directly.
 *
 * Return false if the inline calls do, or if out_len is not the length that `out` has in the inline call. */
DEERLAPSE_NODISCARD
bool deerlapse_key_seal_to_sized(const deerlapse_key *key, const uint8_t nonce[DEERLAPSE_NONCE_LEN],
                                 const uint8_t *aad, size_t aad_len, const uint8_t *in, size_t in_len, uint8_t *out,
                                 size_t out_len, uint8_t tag[DEERLAPSE_TAG_LEN]);
DEERLAPSE_NODISCARD
bool deerlapse_key_open_to_sized(const deerlapse_key *key, const uint8_t nonce[DEERLAPSE_NONCE_LEN],
                                 const uint8_t *aad, size_t aad_len, const uint8_t *in, size_t in_len, uint8_t *out,
                                 size_t out_len, const uint8_t tag[DEERLAPSE_TAG_LEN]);
DEERLAPSE_NODISCARD
bool deerlapse_key_seal_append_tag_sized(const deerlapse_key *key, const uint8_t nonce[DEERLAPSE_NONCE_LEN],
                                         const uint8_t *aad, size_t aad_len, const uint8_t *in, size_t in_len,
                                         uint8_t *out, size_t out_len);
DEERLAPSE_NODISCARD
bool deerlapse_key_open_appended_tag_sized(const deerlapse_key *key, const uint8_t nonce[DEERLAPSE_NONCE_LEN],
                                           const uint8_t *aad, size_t aad_len, const uint8_t *in, size_t in_len,
                                           uint8_t *out, size_t out_len);

/* A message that is sealed in pieces of any lengths: deerlapse_key_begin begins it, deerlapse_key_update encrypts its pieces
 * in order, and deerlapse_key_finish writes its tag. It is in the caller's memory, and contains no pointer. A message of
 * zeros has not begun, and any other memory must only be passed to deerlapse_key_begin. Never copy it: pieces that follow the
 * copy would be encrypted with the same keystream. Only one thread may use it at a time.
 *
 * It contains keystream, which is secret, until deerlapse_key_finish overwrites it with zeros. Finish every message before its
 * key is wiped. A message that is given up is finished too, and its tag is discarded. No sealer counts such messages: seal
 * them under a key that seals nothing else, the nth under the nonce that deerlapse_nonce writes for n. No call opens a message
 * in pieces, since its plaintext would be used before it is verified. */
typedef struct deerlapse_message {
    uint64_t words[22]; /* private: neither read nor write them */
} deerlapse_message;

/* Begins a message. The previous bytes of `message` are not read.
 *
 *   key, nonce, aad   as for deerlapse_key_seal
 *
 * Returns false if the key is zeros, or if aad_len is 2^61 or more. */
DEERLAPSE_NODISCARD
bool deerlapse_key_begin(const deerlapse_key *key, const uint8_t nonce[DEERLAPSE_NONCE_LEN], const uint8_t *aad,
                         size_t aad_len, deerlapse_message *message);

/* Encrypts the next piece in place. However a message is cut into pieces, its ciphertext is that of deerlapse_key_seal.
 *
 *   key      the key that the message began with. No call checks this
 *   in_out   in_out_len bytes: the piece, which its ciphertext replaces
 *
 * Returns false if the message has not begun, if it would be longer than 2^36 - 32 bytes, or if the key is zeros. */
DEERLAPSE_NODISCARD
bool deerlapse_key_update(const deerlapse_key *key, deerlapse_message *message, uint8_t *in_out, size_t in_out_len);

/* Writes the tag that deerlapse_key_seal writes for the whole message, and overwrites `message` with zeros.
 *
 *   key   the key that the message began with. No call checks this
 *   tag   16 bytes, which are written
 *
 * Returns false if the message has not begun, or if the key is zeros. */
DEERLAPSE_NODISCARD
bool deerlapse_key_finish(const deerlapse_key *key, deerlapse_message *message, uint8_t tag[DEERLAPSE_TAG_LEN]);

/* Overwrites a key with zeros. Every call under it then returns false. Nothing else has to be freed. This does not clear
 * what earlier calls left on the stack. */
DEERLAPSE_CALL
void deerlapse_key_wipe(deerlapse_key *key);

/* These calls do the same as deerlapse_key_seal and deerlapse_key_open, under a key of key_len bytes, 16 or 32, which is
 * expanded for this message only.
 *
 * Return false if key_len is neither 16 nor 32, or if the call under a deerlapse_key does. */
DEERLAPSE_NODISCARD
bool deerlapse_seal(const uint8_t *key, size_t key_len, const uint8_t nonce[DEERLAPSE_NONCE_LEN],
                    const uint8_t *aad, size_t aad_len, uint8_t *in_out, size_t in_out_len,
                    uint8_t tag[DEERLAPSE_TAG_LEN]);
DEERLAPSE_NODISCARD
bool deerlapse_open(const uint8_t *key, size_t key_len, const uint8_t nonce[DEERLAPSE_NONCE_LEN],
                    const uint8_t *aad, size_t aad_len, uint8_t *in_out, size_t in_out_len, size_t start,
                    size_t *plaintext_len);

/* A key of XAES-256-GCM (c2sp.org/XAES-256-GCM), whose nonces have 24 bytes: enough to be drawn at random for each message.
 * Each message is sealed by AES-256-GCM under a key of its own, which is derived from the key and the first 12 bytes of the
 * nonce. AES-256-GCM takes the last 12 bytes as its nonce. The specification allows 2^80 messages under one key with random
 * nonces. With random nonces of 12 bytes, AES-GCM allows 2^32 messages under one key (SP 800-38D section 8.3).
 *
 * deerlapse_xaes_init expands it once, for many messages and many threads. Like a deerlapse_key, it is in the caller's memory
 * and contains no pointer, every call under a key of zeros returns false, and any other memory must only be passed to
 * deerlapse_xaes_init and deerlapse_xaes_wipe. The library draws no random bytes. A call leaves the derived key of its message
 * on the stack. */
typedef struct deerlapse_xaes {
    uint64_t words[33]; /* private: neither read nor write them */
} deerlapse_xaes;

/* Expands a key. The previous bytes of `key` are not read. The call cannot fail.
 *
 *   bytes   32 bytes, for example drawn at random */
DEERLAPSE_CALL
void deerlapse_xaes_init(deerlapse_xaes *key, const uint8_t bytes[DEERLAPSE_XAES_KEY_LEN]);

/* These calls do the same with XAES-256-GCM as the calls whose names have `key` in the place of `xaes`.
 *
 *   key     initialized by deerlapse_xaes_init, or zeros
 *   nonce   24 bytes, never used twice under one key: random bytes for each message
 *
 * Return false if the call under a deerlapse_key does. */
DEERLAPSE_NODISCARD
bool deerlapse_xaes_seal(const deerlapse_xaes *key, const uint8_t nonce[DEERLAPSE_XAES_NONCE_LEN], const uint8_t *aad,
                         size_t aad_len, uint8_t *in_out, size_t in_out_len, uint8_t tag[DEERLAPSE_TAG_LEN]);
DEERLAPSE_NODISCARD
bool deerlapse_xaes_open(const deerlapse_xaes *key, const uint8_t nonce[DEERLAPSE_XAES_NONCE_LEN], const uint8_t *aad,
                         size_t aad_len, uint8_t *in_out, size_t in_out_len, size_t start, size_t *plaintext_len);
DEERLAPSE_NODISCARD
bool deerlapse_xaes_open_separate_tag(const deerlapse_xaes *key, const uint8_t nonce[DEERLAPSE_XAES_NONCE_LEN],
                                      const uint8_t *aad, size_t aad_len, uint8_t *in_out, size_t in_out_len,
                                      size_t start, const uint8_t tag[DEERLAPSE_TAG_LEN]);
DEERLAPSE_WRAPS(1, 2, 8)
bool deerlapse_xaes_seal_to(const deerlapse_xaes *key, const uint8_t nonce[DEERLAPSE_XAES_NONCE_LEN], const uint8_t *aad,
                            size_t aad_len, const uint8_t *in, size_t in_len, uint8_t *out,
                            uint8_t tag[DEERLAPSE_TAG_LEN]);
DEERLAPSE_WRAPS(1, 2, 8)
bool deerlapse_xaes_open_to(const deerlapse_xaes *key, const uint8_t nonce[DEERLAPSE_XAES_NONCE_LEN], const uint8_t *aad,
                            size_t aad_len, const uint8_t *in, size_t in_len, uint8_t *out,
                            const uint8_t tag[DEERLAPSE_TAG_LEN]);
DEERLAPSE_WRAPS(1, 2, 7)
bool deerlapse_xaes_seal_append_tag(const deerlapse_xaes *key, const uint8_t nonce[DEERLAPSE_XAES_NONCE_LEN],
                                    const uint8_t *aad, size_t aad_len, const uint8_t *in, size_t in_len,
                                    uint8_t *out);
DEERLAPSE_WRAPS(1, 2)
bool deerlapse_xaes_open_appended_tag(const deerlapse_xaes *key, const uint8_t nonce[DEERLAPSE_XAES_NONCE_LEN],
                                      const uint8_t *aad, size_t aad_len, const uint8_t *in, size_t in_len,
                                      uint8_t *out);

/* deerlapse_xaes_seal_to and the three calls after it are inline functions, like those for a deerlapse_key. They call the
 * functions whose names end in _sized, with the length of `out`, or the calls in place.
 *
 * Return false if the inline calls do, or if out_len is not the length that `out` has in the inline call. */
DEERLAPSE_NODISCARD
bool deerlapse_xaes_seal_to_sized(const deerlapse_xaes *key, const uint8_t nonce[DEERLAPSE_XAES_NONCE_LEN],
                                  const uint8_t *aad, size_t aad_len, const uint8_t *in, size_t in_len, uint8_t *out,
                                  size_t out_len, uint8_t tag[DEERLAPSE_TAG_LEN]);
DEERLAPSE_NODISCARD
bool deerlapse_xaes_open_to_sized(const deerlapse_xaes *key, const uint8_t nonce[DEERLAPSE_XAES_NONCE_LEN],
                                  const uint8_t *aad, size_t aad_len, const uint8_t *in, size_t in_len, uint8_t *out,
                                  size_t out_len, const uint8_t tag[DEERLAPSE_TAG_LEN]);
DEERLAPSE_NODISCARD
bool deerlapse_xaes_seal_append_tag_sized(const deerlapse_xaes *key, const uint8_t nonce[DEERLAPSE_XAES_NONCE_LEN],
                                          const uint8_t *aad, size_t aad_len, const uint8_t *in, size_t in_len,
                                          uint8_t *out, size_t out_len);
DEERLAPSE_NODISCARD
bool deerlapse_xaes_open_appended_tag_sized(const deerlapse_xaes *key, const uint8_t nonce[DEERLAPSE_XAES_NONCE_LEN],
                                            const uint8_t *aad, size_t aad_len, const uint8_t *in, size_t in_len,
                                            uint8_t *out, size_t out_len);

/* Overwrites a key with zeros. Every call under it then returns false. This does not clear what earlier calls left on the
 * stack. */
DEERLAPSE_CALL
void deerlapse_xaes_wipe(deerlapse_xaes *key);

/* A key that seals each message under its own nonce: an IV XOR the message's number, in eight big-endian bytes after four
 * zeros (RFC 8446 section 5.3, RFC 9001 section 5.3). It is in the caller's memory, and deerlapse_sealer_init initializes
 * it. A sealer of zeros seals nothing, and any other memory must only be passed to deerlapse_sealer_init and
 * deerlapse_sealer_wipe. Never copy it: the copy would use the same nonces again. Only one thread may use it at a time. It
 * has room for the fields of a later version. Nothing has to be freed. */
typedef struct deerlapse_sealer {
    uint64_t words[430]; /* private: neither read nor write them */
} deerlapse_sealer;

/* Initializes a sealer. Its previous bytes are not read.
 *
 *   key            key_len bytes: 16 for AES-128-GCM, 32 for AES-256-GCM
 *   iv             12 bytes, the same at both ends: from the key exchange, or any value if the key is new. Use one key for
 *                  each direction, because the nonces of two IVs may coincide
 *   first, limit   the numbers of the messages go from first up to limit, exclusive
 *
 * Under the same key, none of its nonces may be used by any other call that seals. The simplest way is a key for this
 * sealer alone. A sealer of the same key and IV that is made after a restart, or copied by fork or a snapshot, begins
 * again: take a new key, or a `first` above all numbers used before. The number of messages that a key may seal is chosen
 * by the protocol (TLS 1.3: about 24 million of full length, RFC 8446 section 5.5).
 *
 * Returns false if key_len is neither 16 nor 32, or if first is above limit. The sealer is then unchanged. */
DEERLAPSE_NODISCARD
bool deerlapse_sealer_init(deerlapse_sealer *sealer, const uint8_t *key, size_t key_len,
                           const uint8_t iv[DEERLAPSE_NONCE_LEN], uint64_t first, uint64_t limit);

/* Returns the number of the next message, for example to send it with the message, or 0 for a sealer of zeros. */
DEERLAPSE_NODISCARD
uint64_t deerlapse_sealer_next(const deerlapse_sealer *sealer);

/* Does the same as deerlapse_key_seal under the nonce of the next number, and then counts the number up by one.
 *
 * Returns false if the next number is not below limit, if the sealer is zeros, or for lengths that deerlapse_key_seal
 * refuses. The sealer is then unchanged. */
DEERLAPSE_NODISCARD
bool deerlapse_sealer_seal(deerlapse_sealer *sealer, const uint8_t *aad, size_t aad_len, uint8_t *in_out,
                           size_t in_out_len, uint8_t tag[DEERLAPSE_TAG_LEN]);

/* Overwrites a sealer with zeros. It then seals nothing. This does not clear what earlier calls left on the stack. */
DEERLAPSE_CALL
void deerlapse_sealer_wipe(deerlapse_sealer *sealer);

/* A key that opens what a sealer with the same key and IV sealed, in order or by number. It is in the caller's memory, and
 * deerlapse_opener_init initializes it. An opener of zeros opens nothing, and any other memory must only be passed to
 * deerlapse_opener_init and deerlapse_opener_wipe. A copy counts separately. Only one thread at a time may open in order. Any
 * number of threads may open by number, as long as no thread initializes the opener or opens in order at the same time. It has
 * room for the fields of a later version. Nothing has to be freed. */
typedef struct deerlapse_opener {
    uint64_t words[430]; /* private: neither read nor write them */
} deerlapse_opener;

/* Initializes an opener. Its previous bytes are not read. The parameters are those of deerlapse_sealer_init.
 *
 * Returns false if key_len is neither 16 nor 32, or if first is above limit. The opener is then unchanged. */
DEERLAPSE_NODISCARD
bool deerlapse_opener_init(deerlapse_opener *opener, const uint8_t *key, size_t key_len,
                           const uint8_t iv[DEERLAPSE_NONCE_LEN], uint64_t first, uint64_t limit);

/* Returns the number of the message that is opened next in order, or 0 for an opener of zeros. After a message that was lost,
 * open by number, or initialize an opener whose `first` is the number after it. */
DEERLAPSE_NODISCARD
uint64_t deerlapse_opener_next(const deerlapse_opener *opener);

/* Does the same as deerlapse_key_open under the nonce of the next number, and then counts the number up by one.
 *
 * Returns false if the next number is not below limit, if the opener is zeros, or if deerlapse_key_open does. The opener is
 * then unchanged, so the message with that number can still be opened. */
DEERLAPSE_NODISCARD
bool deerlapse_opener_open(deerlapse_opener *opener, const uint8_t *aad, size_t aad_len, uint8_t *in_out,
                           size_t in_out_len, size_t start, size_t *plaintext_len);

/* Does the same as deerlapse_opener_open under the nonce of a number that the caller knows, for example from a packet. It
 * counts nothing, has no limit, and only reads the opener. It opens a message any number of times: it is the caller's
 * responsibility to know which numbers were opened before.
 *
 * Returns false if the opener is zeros, or if deerlapse_key_open does. */
DEERLAPSE_NODISCARD
bool deerlapse_opener_open_number(const deerlapse_opener *opener, uint64_t number, const uint8_t *aad, size_t aad_len,
                                  uint8_t *in_out, size_t in_out_len, size_t start, size_t *plaintext_len);

/* Overwrites an opener with zeros. It then opens nothing. */
DEERLAPSE_CALL
void deerlapse_opener_wipe(deerlapse_opener *opener);

/* Writes the nonce of a number under an IV, as a sealer uses it, for a call under a deerlapse_key. */
DEERLAPSE_CALL
void deerlapse_nonce(const uint8_t iv[DEERLAPSE_NONCE_LEN], uint64_t number, uint8_t nonce[DEERLAPSE_NONCE_LEN]);

/* HMAC, HKDF and HKDF-Expand-Label with SHA-256 or SHA-384. A length selects the hash function, 32 bytes SHA-256 and 48 bytes
 * SHA-384: the length of what a call writes or, for the calls that fill `out`, the length of the secret. */

/* Writes the authentication code of a message (RFC 2104). To verify a code, compare all of its bytes, in a time that doesn't
 * depend on which of them are right.
 *
 *   key       key_len bytes
 *   message   message_len bytes
 *   code      code_len bytes, which are written: 32 for SHA-256, 48 for SHA-384
 *
 * Returns false if code_len is neither 32 nor 48. */
DEERLAPSE_NODISCARD
bool deerlapse_hmac(const uint8_t *key, size_t key_len, const uint8_t *message, size_t message_len, uint8_t *code,
                    size_t code_len);

/* HKDF-Extract: writes the pseudorandom key of a salt and input keying material (RFC 5869 section 2.2).
 *
 *   salt   salt_len bytes
 *   ikm    ikm_len bytes
 *   prk    prk_len bytes, which are written: 32 for SHA-256, 48 for SHA-384
 *
 * Returns false if prk_len is neither 32 nor 48. */
DEERLAPSE_NODISCARD
bool deerlapse_hkdf_extract(const uint8_t *salt, size_t salt_len, const uint8_t *ikm, size_t ikm_len, uint8_t *prk,
                            size_t prk_len);

/* HKDF-Expand: fills `out` with output keying material (RFC 5869 section 2.3).
 *
 *   prk    prk_len bytes: 32 for SHA-256, 48 for SHA-384
 *   info   info_len bytes
 *   out    out_len bytes, which are written: at most 255 * prk_len
 *
 * Returns false if prk_len is neither 32 nor 48, or if out_len is above 255 * prk_len. */
DEERLAPSE_NODISCARD
bool deerlapse_hkdf_expand(const uint8_t *prk, size_t prk_len, const uint8_t *info, size_t info_len, uint8_t *out,
                           size_t out_len);

/* HKDF-Expand-Label: fills `out` from a secret (RFC 8446 section 7.1). It is Derive-Secret if the context is the hash of the
 * messages, and out_len is secret_len.
 *
 *   secret    secret_len bytes: 32 for SHA-256, 48 for SHA-384
 *   label     label_len bytes, 1 to 249: without "tls13 ", which the call puts before it
 *   context   context_len bytes, at most 255
 *   out       out_len bytes, which are written: at most 255 * secret_len
 *
 * Returns false if secret_len is neither 32 nor 48, if label_len is 0 or above 249, if context_len is above 255, or if out_len
 * is above 255 * secret_len. */
DEERLAPSE_NODISCARD
bool deerlapse_hkdf_expand_label(const uint8_t *secret, size_t secret_len, const uint8_t *label, size_t label_len,
                                 const uint8_t *context, size_t context_len, uint8_t *out, size_t out_len);

/* A key and an IV that protect the packets of QUIC in one direction by their numbers (RFC 9001 section 5.3). It is in the
 * caller's memory, and contains no pointer, so a copy is a key as well. Sealing and opening only read it, so threads may
 * share it. Every call under a key of zeros returns false. Any other memory must only be passed to the calls that initialize
 * it and to deerlapse_quic_key_wipe.
 *
 * It counts nothing, and it opens a packet again that was opened before. It is the caller's responsibility to seal no number
 * twice under one key, to know which numbers were opened before, and to keep the limits of RFC 9001 section 6.6. */
typedef struct deerlapse_quic_key {
    uint64_t words[401]; /* private: neither read nor write them */
} deerlapse_quic_key;

/* Initializes a key. Its previous bytes are not read.
 *
 *   bytes   len bytes: 16 for AES-128-GCM, 32 for AES-256-GCM
 *   iv      12 bytes
 *
 * Returns false if len is neither 16 nor 32. */
DEERLAPSE_NODISCARD
bool deerlapse_quic_key_init(deerlapse_quic_key *key, const uint8_t *bytes, size_t len,
                             const uint8_t iv[DEERLAPSE_NONCE_LEN]);

/* Initializes a key with the key and the IV of a secret (RFC 9001 section 5.1, RFC 9369 section 3.3.2). Its previous bytes are
 * not read.
 *
 *   version   DEERLAPSE_QUIC_V1 or DEERLAPSE_QUIC_V2
 *   secret    secret_len bytes: 32 for TLS_AES_128_GCM_SHA256, 48 for TLS_AES_256_GCM_SHA384
 *
 * Returns false if version is neither DEERLAPSE_QUIC_V1 nor DEERLAPSE_QUIC_V2, or if secret_len is neither 32 nor 48. */
DEERLAPSE_NODISCARD
bool deerlapse_quic_key_from_secret(deerlapse_quic_key *key, uint32_t version, const uint8_t *secret, size_t secret_len);

/* Writes the secrets that protect the Initial packets of the client and of the server (RFC 9001 section 5.2, RFC 9369 section
 * 3.3.1).
 *
 *   version   DEERLAPSE_QUIC_V1 or DEERLAPSE_QUIC_V2
 *   id        id_len bytes, at most 20: the Destination Connection ID of the client's first Initial packet or, after a Retry
 *             packet, the Source Connection ID of that packet
 *   client    32 bytes, which are written
 *   server    32 bytes, which are written
 *
 * Returns false if version is neither DEERLAPSE_QUIC_V1 nor DEERLAPSE_QUIC_V2, or if id_len is above 20. */
DEERLAPSE_NODISCARD
bool deerlapse_quic_initial_secrets(uint32_t version, const uint8_t *id, size_t id_len,
                                    uint8_t client[DEERLAPSE_SHA256_LEN], uint8_t server[DEERLAPSE_SHA256_LEN]);

/* Overwrites a secret with the one after a key update (RFC 9001 section 6.1, RFC 9369 section 3.3.2).
 *
 *   version, secret   as for deerlapse_quic_key_from_secret
 *
 * Returns false if version is neither DEERLAPSE_QUIC_V1 nor DEERLAPSE_QUIC_V2, or if secret_len is neither 32 nor 48. */
DEERLAPSE_NODISCARD
bool deerlapse_quic_next_secret(uint32_t version, uint8_t *secret, size_t secret_len);

/* Encrypts the payload of a packet in place, and writes its tag.
 *
 *   key       initialized, or zeros
 *   number    the packet number, below 2^62
 *   header    header_len bytes, which are not masked yet: the AAD
 *   payload   payload_len bytes, which the ciphertext replaces
 *   tag       16 bytes, which are written. They may come right after the payload
 *
 * Returns false if the key is zeros, if the number is 2^62 or more, or for lengths that deerlapse_key_seal refuses. */
DEERLAPSE_NODISCARD
bool deerlapse_quic_key_seal(const deerlapse_quic_key *key, uint64_t number, const uint8_t *header, size_t header_len,
                             uint8_t *payload, size_t payload_len, uint8_t tag[DEERLAPSE_TAG_LEN]);

/* Opens the payload of a packet in place. On success the plaintext is at `payload`, and the tag after it is unchanged.
 *
 *   key, number     as for deerlapse_quic_key_seal
 *   header          header_len bytes, whose mask is removed: the AAD
 *   payload         payload_len bytes: the ciphertext and its tag of 16 bytes
 *   plaintext_len   written on success: payload_len - 16
 *
 * Returns false if the tag is wrong, if payload_len is below 16, if the key is zeros, if the number is 2^62 or more, or for
 * lengths that deerlapse_key_seal refuses. */
DEERLAPSE_NODISCARD
bool deerlapse_quic_key_open(const deerlapse_quic_key *key, uint64_t number, const uint8_t *header, size_t header_len,
                             uint8_t *payload, size_t payload_len, size_t *plaintext_len);

/* Overwrites a key with zeros. Every call under it then returns false. */
DEERLAPSE_CALL
void deerlapse_quic_key_wipe(deerlapse_quic_key *key);

/* An AES key that masks the headers of QUIC's packets in one direction (RFC 9001 section 5.4.3), and seals nothing. Like a
 * deerlapse_quic_key, it is in the caller's memory and contains no pointer, threads may share it, every call under a key of
 * zeros returns false, and any other memory must only be passed to the calls that initialize it and to
 * deerlapse_quic_header_key_wipe. */
typedef struct deerlapse_quic_header_key {
    uint64_t words[31]; /* private: neither read nor write them */
} deerlapse_quic_header_key;

/* Expands a key. Its previous bytes are not read.
 *
 *   bytes   len bytes: 16 for AES-128, 32 for AES-256
 *
 * Returns false if len is neither 16 nor 32. */
DEERLAPSE_NODISCARD
bool deerlapse_quic_header_key_init(deerlapse_quic_header_key *key, const uint8_t *bytes, size_t len);

/* Expands the header protection key of a secret (RFC 9001 section 5.1, RFC 9369 section 3.3.2). Its previous bytes are not
 * read. A key update doesn't change this key (RFC 9001 section 6.1).
 *
 *   version, secret   as for deerlapse_quic_key_from_secret
 *
 * Returns false if version is neither DEERLAPSE_QUIC_V1 nor DEERLAPSE_QUIC_V2, or if secret_len is neither 32 nor 48. */
DEERLAPSE_NODISCARD
bool deerlapse_quic_header_key_from_secret(deerlapse_quic_header_key *key, uint32_t version, const uint8_t *secret,
                                           size_t secret_len);

/* Writes the mask for a sample of 16 bytes of a sealed packet (RFC 9001 section 5.4.2).
 *
 *   key   initialized, or zeros
 *
 * Returns false if the key is zeros. */
DEERLAPSE_NODISCARD
bool deerlapse_quic_header_key_mask(const deerlapse_quic_header_key *key, const uint8_t sample[DEERLAPSE_SAMPLE_LEN],
                                    uint8_t mask[DEERLAPSE_MASK_LEN]);

/* Overwrites a key with zeros. Every call under it then returns false. */
DEERLAPSE_CALL
void deerlapse_quic_header_key_wipe(deerlapse_quic_header_key *key);

/* A key and an IV that protect the records of TLS 1.3 in one direction by their numbers (RFC 8446 section 5.2). What is said of
 * the memory, the threads and the numbers of a deerlapse_quic_key holds for it. RFC 8446 section 5.5 says how many records a
 * key may seal. */
typedef struct deerlapse_record_key {
    uint64_t words[401]; /* private: neither read nor write them */
} deerlapse_record_key;

/* Initializes a key. Its previous bytes are not read. The parameters are those of deerlapse_quic_key_init.
 *
 * Returns false if len is neither 16 nor 32. */
DEERLAPSE_NODISCARD
bool deerlapse_record_key_init(deerlapse_record_key *key, const uint8_t *bytes, size_t len,
                               const uint8_t iv[DEERLAPSE_NONCE_LEN]);

/* Initializes a key with the key and the IV of a traffic secret (RFC 8446 section 7.3). Its previous bytes are not read.
 *
 *   secret   secret_len bytes: 32 for TLS_AES_128_GCM_SHA256, 48 for TLS_AES_256_GCM_SHA384
 *
 * Returns false if secret_len is neither 32 nor 48. */
DEERLAPSE_NODISCARD
bool deerlapse_record_key_from_secret(deerlapse_record_key *key, const uint8_t *secret, size_t secret_len);

/* Overwrites a traffic secret with the one after a KeyUpdate (RFC 8446 section 7.2).
 *
 *   secret   as for deerlapse_record_key_from_secret
 *
 * Returns false if secret_len is neither 32 nor 48. */
DEERLAPSE_NODISCARD
bool deerlapse_tls_next_secret(uint8_t *secret, size_t secret_len);

/* Seals the payload of a record in place, which is all of the record but its header. The AAD is the header that announces
 * payload_len bytes.
 *
 *   key            initialized, or zeros
 *   number         the number of the record
 *   content_type   the type of the content, not 0
 *   payload        payload_len bytes, at most 2^14 + 17: the content, and at least 17 bytes after it. These are overwritten
 *                  with the type, as many zeros as there is room for, as padding, and the tag
 *   content_len    at most payload_len - 17
 *
 * Returns false if the key is zeros, if the type is 0, if payload_len is above 2^14 + 17, or if there are fewer than 17 bytes
 * after the content. */
DEERLAPSE_NODISCARD
bool deerlapse_record_key_seal(const deerlapse_record_key *key, uint64_t number, uint8_t content_type, uint8_t *payload,
                               size_t payload_len, size_t content_len);

/* Opens the payload of a record in place. On success the content is at `payload`. Its type, the padding and the tag are after
 * it.
 *
 *   key, number    as for deerlapse_record_key_seal
 *   payload        payload_len bytes, 17 to 2^14 + 256: all of the record but its header, which announces this length
 *   content_type   written on success: the type of the content, or 0 if the plaintext is all zeros, and so has no type
 *   content_len    written on success: the length of the content, or 0 if it has no type
 *
 * The call also opens authentic records that TLS rejects: one without a type, one whose type isn't known, and one whose
 * plaintext, without the tag, has more than 2^14 + 1 bytes (RFC 8446 sections 5.2 and 5.4). The caller has to reject them, and
 * to apply the rules of each type.
 *
 * Returns false if the tag is wrong, if the key is zeros, or if payload_len is below 17 or above 2^14 + 256. */
DEERLAPSE_NODISCARD
bool deerlapse_record_key_open(const deerlapse_record_key *key, uint64_t number, uint8_t *payload, size_t payload_len,
                               uint8_t *content_type, size_t *content_len);

/* Overwrites a key with zeros. Every call under it then returns false. */
DEERLAPSE_CALL
void deerlapse_record_key_wipe(deerlapse_record_key *key);

/* Does the same as deerlapse_quic_header_key_mask under a key that is expanded for this sample only.
 *
 *   key   key_len bytes: 16 for AES-128, 32 for AES-256
 *
 * Returns false if key_len is neither 16 nor 32. */
DEERLAPSE_NODISCARD
bool deerlapse_mask_aes(const uint8_t *key, size_t key_len, const uint8_t sample[DEERLAPSE_SAMPLE_LEN],
                        uint8_t mask[DEERLAPSE_MASK_LEN]);

/* Writes the mask for a sample with ChaCha20 (RFC 9001 section 5.4.4), which has no key to expand. */
DEERLAPSE_CALL
void deerlapse_mask_chacha20(const uint8_t key[32], const uint8_t sample[DEERLAPSE_SAMPLE_LEN],
                             uint8_t mask[DEERLAPSE_MASK_LEN]);

/* XORs in_out with the ChaCha20 stream from block `counter` on, which both encrypts and decrypts (RFC 8439 section 2.4). It
 * computes no tag: a changed ciphertext decrypts to a changed plaintext.
 *
 *   in_out   in_out_len bytes
 *
 * Returns false if in_out would need a block after the last one, whose counter is 2^32 - 1. */
DEERLAPSE_NODISCARD
bool deerlapse_chacha20(const uint8_t key[32], const uint8_t nonce[DEERLAPSE_NONCE_LEN], uint32_t counter,
                        uint8_t *in_out, size_t in_out_len);

/* Returns whether this processor has the instructions of the library. Where it returns false, a call of the library may end
 * the program with SIGILL, or on Windows with an illegal instruction. With a compiler that defines neither __GNUC__ nor
 * _MSC_VER, it returns true on every processor.
 *
 * In a program that includes deerlapse.h this is an inline function, for which the assembly alone is enough. libdeerlapse.a and
 * libdeerlapse.so also have a function of this name, for callers without deerlapse.h. */
bool deerlapse_cpu_supported(void);

/* The functions of the library take no null pointer. So from here on, the name of every function that has a pointer with a
 * length is that of a wrapper, which passes another address if the length is 0. The functions that seal or open from one buffer
 * to another, such as deerlapse_key_seal_to, are wrappers from the start. The test of the processor comes first. */

static inline bool deerlapse_cpu_supported_inline(void) {
#if defined(__GNUC__) && defined(__x86_64__) && DEERLAPSE_X86_64_LEVEL >= 3
    return __builtin_cpu_supports("avx2") && __builtin_cpu_supports("bmi2") && __builtin_cpu_supports("fma");
#elif defined(__GNUC__) && defined(__x86_64__)
    return __builtin_cpu_supports("ssse3") && __builtin_cpu_supports("sse4.2") && __builtin_cpu_supports("popcnt");
#elif defined(_MSC_VER) && defined(_M_X64) && DEERLAPSE_X86_64_LEVEL >= 3
    const int fma_and_osxsave = 1 << 12 | 1 << 27, avx2_and_bmi2 = 1 << 5 | 1 << 8; /* of ECX, and of EBX */
    int first[4], seventh[4];
    __cpuid(first, 0);
    if (first[0] < 7) return false;
    __cpuid(first, 1);
    __cpuidex(seventh, 7, 0);
    return (first[2] & fma_and_osxsave) == fma_and_osxsave && (seventh[1] & avx2_and_bmi2) == avx2_and_bmi2 &&
           (_xgetbv(0) & 6) == 6; /* the system keeps XMM and YMM registers */
#elif defined(_MSC_VER) && defined(_M_X64)
    const int ssse3_sse42_and_popcnt = 1 << 9 | 1 << 20 | 1 << 23; /* of ECX */
    int first[4];
    __cpuid(first, 1);
    return (first[2] & ssse3_sse42_and_popcnt) == ssse3_sse42_and_popcnt;
#else
    return true;
#endif
}
#define deerlapse_cpu_supported deerlapse_cpu_supported_inline

static inline const uint8_t *deerlapse_to_read(const uint8_t *bytes, size_t len) {
    static const uint8_t none = 0;
    return len == 0 ? &none : bytes;
}

static inline uint8_t *deerlapse_to_write(uint8_t *bytes, size_t len) {
    static uint8_t none = 0;
    return len == 0 ? &none : bytes;
}

DEERLAPSE_WRAPS(1)
bool deerlapse_key_init_nullable(deerlapse_key *key, const uint8_t *bytes, size_t len) {
    return deerlapse_key_init(key, deerlapse_to_read(bytes, len), len);
}
#define deerlapse_key_init deerlapse_key_init_nullable

DEERLAPSE_WRAPS(1, 2, 7)
bool deerlapse_key_seal_nullable(const deerlapse_key *key, const uint8_t nonce[DEERLAPSE_NONCE_LEN],
                                 const uint8_t *aad, size_t aad_len, uint8_t *in_out, size_t in_out_len,
                                 uint8_t tag[DEERLAPSE_TAG_LEN]) {
    return deerlapse_key_seal(key, nonce, deerlapse_to_read(aad, aad_len), aad_len,
                              deerlapse_to_write(in_out, in_out_len), in_out_len, tag);
}
#define deerlapse_key_seal deerlapse_key_seal_nullable

DEERLAPSE_WRAPS(1, 2, 8)
bool deerlapse_key_open_nullable(const deerlapse_key *key, const uint8_t nonce[DEERLAPSE_NONCE_LEN],
                                 const uint8_t *aad, size_t aad_len, uint8_t *in_out, size_t in_out_len,
                                 size_t start, size_t *plaintext_len) {
    return deerlapse_key_open(key, nonce, deerlapse_to_read(aad, aad_len), aad_len,
                              deerlapse_to_write(in_out, in_out_len), in_out_len, start, plaintext_len);
}
#define deerlapse_key_open deerlapse_key_open_nullable

DEERLAPSE_WRAPS(1, 2, 8)
bool deerlapse_key_open_separate_tag_nullable(const deerlapse_key *key, const uint8_t nonce[DEERLAPSE_NONCE_LEN],
                                              const uint8_t *aad, size_t aad_len, uint8_t *in_out,
                                              size_t in_out_len, size_t start,
                                              const uint8_t tag[DEERLAPSE_TAG_LEN]) {
    return deerlapse_key_open_separate_tag(key, nonce, deerlapse_to_read(aad, aad_len), aad_len,
                                           deerlapse_to_write(in_out, in_out_len), in_out_len, start, tag);
}
#define deerlapse_key_open_separate_tag deerlapse_key_open_separate_tag_nullable

DEERLAPSE_WRAPS(1, 2, 5)
bool deerlapse_key_begin_nullable(const deerlapse_key *key, const uint8_t nonce[DEERLAPSE_NONCE_LEN],
                                  const uint8_t *aad, size_t aad_len, deerlapse_message *message) {
    return deerlapse_key_begin(key, nonce, deerlapse_to_read(aad, aad_len), aad_len, message);
}
#define deerlapse_key_begin deerlapse_key_begin_nullable

DEERLAPSE_WRAPS(1, 2)
bool deerlapse_key_update_nullable(const deerlapse_key *key, deerlapse_message *message, uint8_t *in_out,
                                   size_t in_out_len) {
    return deerlapse_key_update(key, message, deerlapse_to_write(in_out, in_out_len), in_out_len);
}
#define deerlapse_key_update deerlapse_key_update_nullable

DEERLAPSE_WRAPS(1, 2, 8)
bool deerlapse_key_seal_to(const deerlapse_key *key, const uint8_t nonce[DEERLAPSE_NONCE_LEN], const uint8_t *aad,
                           size_t aad_len, const uint8_t *in, size_t in_len, uint8_t *out,
                           uint8_t tag[DEERLAPSE_TAG_LEN]) {
    if (in == out) return deerlapse_key_seal(key, nonce, aad, aad_len, out, in_len, tag);
    return deerlapse_key_seal_to_sized(key, nonce, deerlapse_to_read(aad, aad_len), aad_len,
                                       deerlapse_to_read(in, in_len), in_len, deerlapse_to_write(out, in_len), in_len,
                                       tag);
}

DEERLAPSE_WRAPS(1, 2, 8)
bool deerlapse_key_open_to(const deerlapse_key *key, const uint8_t nonce[DEERLAPSE_NONCE_LEN], const uint8_t *aad,
                           size_t aad_len, const uint8_t *in, size_t in_len, uint8_t *out,
                           const uint8_t tag[DEERLAPSE_TAG_LEN]) {
    if (in == out) return deerlapse_key_open_separate_tag(key, nonce, aad, aad_len, out, in_len, 0, tag);
    return deerlapse_key_open_to_sized(key, nonce, deerlapse_to_read(aad, aad_len), aad_len,
                                       deerlapse_to_read(in, in_len), in_len, deerlapse_to_write(out, in_len), in_len,
                                       tag);
}

DEERLAPSE_WRAPS(1, 2, 7)
bool deerlapse_key_seal_append_tag(const deerlapse_key *key, const uint8_t nonce[DEERLAPSE_NONCE_LEN],
                                   const uint8_t *aad, size_t aad_len, const uint8_t *in, size_t in_len,
                                   uint8_t *out) {
    /* The call in place refuses a length above 2^36 - 32, for which out + in_len may be no valid pointer. */
    if (in == out && in_len > 0xfffffffe0) return false;
    if (in == out) return deerlapse_key_seal(key, nonce, aad, aad_len, out, in_len, out + in_len);
    return deerlapse_key_seal_append_tag_sized(key, nonce, deerlapse_to_read(aad, aad_len), aad_len,
                                               deerlapse_to_read(in, in_len), in_len, out,
                                               in_len + DEERLAPSE_TAG_LEN);
}

DEERLAPSE_WRAPS(1, 2)
bool deerlapse_key_open_appended_tag(const deerlapse_key *key, const uint8_t nonce[DEERLAPSE_NONCE_LEN],
                                     const uint8_t *aad, size_t aad_len, const uint8_t *in, size_t in_len,
                                     uint8_t *out) {
    size_t out_len = in_len - DEERLAPSE_TAG_LEN;
    if (in_len < DEERLAPSE_TAG_LEN) return false;
    if (in == out) return deerlapse_key_open(key, nonce, aad, aad_len, out, in_len, 0, &out_len);
    return deerlapse_key_open_appended_tag_sized(key, nonce, deerlapse_to_read(aad, aad_len), aad_len, in, in_len,
                                                 deerlapse_to_write(out, out_len), out_len);
}

DEERLAPSE_WRAPS(3, 8)
bool deerlapse_seal_nullable(const uint8_t *key, size_t key_len, const uint8_t nonce[DEERLAPSE_NONCE_LEN],
                             const uint8_t *aad, size_t aad_len, uint8_t *in_out, size_t in_out_len,
                             uint8_t tag[DEERLAPSE_TAG_LEN]) {
    return deerlapse_seal(deerlapse_to_read(key, key_len), key_len, nonce, deerlapse_to_read(aad, aad_len), aad_len,
                          deerlapse_to_write(in_out, in_out_len), in_out_len, tag);
}
#define deerlapse_seal deerlapse_seal_nullable

DEERLAPSE_WRAPS(3, 9)
bool deerlapse_open_nullable(const uint8_t *key, size_t key_len, const uint8_t nonce[DEERLAPSE_NONCE_LEN],
                             const uint8_t *aad, size_t aad_len, uint8_t *in_out, size_t in_out_len, size_t start,
                             size_t *plaintext_len) {
    return deerlapse_open(deerlapse_to_read(key, key_len), key_len, nonce, deerlapse_to_read(aad, aad_len), aad_len,
                          deerlapse_to_write(in_out, in_out_len), in_out_len, start, plaintext_len);
}
#define deerlapse_open deerlapse_open_nullable

DEERLAPSE_WRAPS(1, 2, 7)
bool deerlapse_xaes_seal_nullable(const deerlapse_xaes *key, const uint8_t nonce[DEERLAPSE_XAES_NONCE_LEN],
                                  const uint8_t *aad, size_t aad_len, uint8_t *in_out, size_t in_out_len,
                                  uint8_t tag[DEERLAPSE_TAG_LEN]) {
    return deerlapse_xaes_seal(key, nonce, deerlapse_to_read(aad, aad_len), aad_len,
                               deerlapse_to_write(in_out, in_out_len), in_out_len, tag);
}
#define deerlapse_xaes_seal deerlapse_xaes_seal_nullable

DEERLAPSE_WRAPS(1, 2, 8)
bool deerlapse_xaes_open_nullable(const deerlapse_xaes *key, const uint8_t nonce[DEERLAPSE_XAES_NONCE_LEN],
                                  const uint8_t *aad, size_t aad_len, uint8_t *in_out, size_t in_out_len,
                                  size_t start, size_t *plaintext_len) {
    return deerlapse_xaes_open(key, nonce, deerlapse_to_read(aad, aad_len), aad_len,
                               deerlapse_to_write(in_out, in_out_len), in_out_len, start, plaintext_len);
}
#define deerlapse_xaes_open deerlapse_xaes_open_nullable

DEERLAPSE_WRAPS(1, 2, 8)
bool deerlapse_xaes_open_separate_tag_nullable(const deerlapse_xaes *key, const uint8_t nonce[DEERLAPSE_XAES_NONCE_LEN],
                                               const uint8_t *aad, size_t aad_len, uint8_t *in_out,
                                               size_t in_out_len, size_t start,
                                               const uint8_t tag[DEERLAPSE_TAG_LEN]) {
    return deerlapse_xaes_open_separate_tag(key, nonce, deerlapse_to_read(aad, aad_len), aad_len,
                                            deerlapse_to_write(in_out, in_out_len), in_out_len, start, tag);
}
#define deerlapse_xaes_open_separate_tag deerlapse_xaes_open_separate_tag_nullable

DEERLAPSE_WRAPS(1, 2, 8)
bool deerlapse_xaes_seal_to(const deerlapse_xaes *key, const uint8_t nonce[DEERLAPSE_XAES_NONCE_LEN], const uint8_t *aad,
                            size_t aad_len, const uint8_t *in, size_t in_len, uint8_t *out,
                            uint8_t tag[DEERLAPSE_TAG_LEN]) {
    if (in == out) return deerlapse_xaes_seal(key, nonce, aad, aad_len, out, in_len, tag);
    return deerlapse_xaes_seal_to_sized(key, nonce, deerlapse_to_read(aad, aad_len), aad_len,
                                        deerlapse_to_read(in, in_len), in_len, deerlapse_to_write(out, in_len), in_len,
                                        tag);
}

DEERLAPSE_WRAPS(1, 2, 8)
bool deerlapse_xaes_open_to(const deerlapse_xaes *key, const uint8_t nonce[DEERLAPSE_XAES_NONCE_LEN], const uint8_t *aad,
                            size_t aad_len, const uint8_t *in, size_t in_len, uint8_t *out,
                            const uint8_t tag[DEERLAPSE_TAG_LEN]) {
    if (in == out) return deerlapse_xaes_open_separate_tag(key, nonce, aad, aad_len, out, in_len, 0, tag);
    return deerlapse_xaes_open_to_sized(key, nonce, deerlapse_to_read(aad, aad_len), aad_len,
                                        deerlapse_to_read(in, in_len), in_len, deerlapse_to_write(out, in_len), in_len,
                                        tag);
}

DEERLAPSE_WRAPS(1, 2, 7)
bool deerlapse_xaes_seal_append_tag(const deerlapse_xaes *key, const uint8_t nonce[DEERLAPSE_XAES_NONCE_LEN],
                                    const uint8_t *aad, size_t aad_len, const uint8_t *in, size_t in_len,
                                    uint8_t *out) {
    /* The call in place refuses a length above 2^36 - 32, for which out + in_len may be no valid pointer. */
    if (in == out && in_len > 0xfffffffe0) return false;
    if (in == out) return deerlapse_xaes_seal(key, nonce, aad, aad_len, out, in_len, out + in_len);
    return deerlapse_xaes_seal_append_tag_sized(key, nonce, deerlapse_to_read(aad, aad_len), aad_len,
                                                deerlapse_to_read(in, in_len), in_len, out,
                                                in_len + DEERLAPSE_TAG_LEN);
}

DEERLAPSE_WRAPS(1, 2)
bool deerlapse_xaes_open_appended_tag(const deerlapse_xaes *key, const uint8_t nonce[DEERLAPSE_XAES_NONCE_LEN],
                                      const uint8_t *aad, size_t aad_len, const uint8_t *in, size_t in_len,
                                      uint8_t *out) {
    size_t out_len = in_len - DEERLAPSE_TAG_LEN;
    if (in_len < DEERLAPSE_TAG_LEN) return false;
    if (in == out) return deerlapse_xaes_open(key, nonce, aad, aad_len, out, in_len, 0, &out_len);
    return deerlapse_xaes_open_appended_tag_sized(key, nonce, deerlapse_to_read(aad, aad_len), aad_len, in, in_len,
                                                  deerlapse_to_write(out, out_len), out_len);
}

DEERLAPSE_WRAPS(1, 4)
bool deerlapse_sealer_init_nullable(deerlapse_sealer *sealer, const uint8_t *key, size_t key_len,
                                    const uint8_t iv[DEERLAPSE_NONCE_LEN], uint64_t first, uint64_t limit) {
    return deerlapse_sealer_init(sealer, deerlapse_to_read(key, key_len), key_len, iv, first, limit);
}
#define deerlapse_sealer_init deerlapse_sealer_init_nullable

DEERLAPSE_WRAPS(1, 6)
bool deerlapse_sealer_seal_nullable(deerlapse_sealer *sealer, const uint8_t *aad, size_t aad_len, uint8_t *in_out,
                                    size_t in_out_len, uint8_t tag[DEERLAPSE_TAG_LEN]) {
    return deerlapse_sealer_seal(sealer, deerlapse_to_read(aad, aad_len), aad_len,
                                 deerlapse_to_write(in_out, in_out_len), in_out_len, tag);
}
#define deerlapse_sealer_seal deerlapse_sealer_seal_nullable

DEERLAPSE_WRAPS(1, 4)
bool deerlapse_opener_init_nullable(deerlapse_opener *opener, const uint8_t *key, size_t key_len,
                                    const uint8_t iv[DEERLAPSE_NONCE_LEN], uint64_t first, uint64_t limit) {
    return deerlapse_opener_init(opener, deerlapse_to_read(key, key_len), key_len, iv, first, limit);
}
#define deerlapse_opener_init deerlapse_opener_init_nullable

DEERLAPSE_WRAPS(1, 7)
bool deerlapse_opener_open_nullable(deerlapse_opener *opener, const uint8_t *aad, size_t aad_len, uint8_t *in_out,
                                    size_t in_out_len, size_t start, size_t *plaintext_len) {
    return deerlapse_opener_open(opener, deerlapse_to_read(aad, aad_len), aad_len,
                                 deerlapse_to_write(in_out, in_out_len), in_out_len, start, plaintext_len);
}
#define deerlapse_opener_open deerlapse_opener_open_nullable

DEERLAPSE_WRAPS(1, 8)
bool deerlapse_opener_open_number_nullable(const deerlapse_opener *opener, uint64_t number, const uint8_t *aad,
                                           size_t aad_len, uint8_t *in_out, size_t in_out_len, size_t start,
                                           size_t *plaintext_len) {
    return deerlapse_opener_open_number(opener, number, deerlapse_to_read(aad, aad_len), aad_len,
                                        deerlapse_to_write(in_out, in_out_len), in_out_len, start, plaintext_len);
}
#define deerlapse_opener_open_number deerlapse_opener_open_number_nullable

DEERLAPSE_WRAPS_NULLABLE
bool deerlapse_hmac_nullable(const uint8_t *key, size_t key_len, const uint8_t *message, size_t message_len,
                             uint8_t *code, size_t code_len) {
    return deerlapse_hmac(deerlapse_to_read(key, key_len), key_len, deerlapse_to_read(message, message_len), message_len,
                          deerlapse_to_write(code, code_len), code_len);
}
#define deerlapse_hmac deerlapse_hmac_nullable

DEERLAPSE_WRAPS_NULLABLE
bool deerlapse_hkdf_extract_nullable(const uint8_t *salt, size_t salt_len, const uint8_t *ikm, size_t ikm_len,
                                     uint8_t *prk, size_t prk_len) {
    return deerlapse_hkdf_extract(deerlapse_to_read(salt, salt_len), salt_len, deerlapse_to_read(ikm, ikm_len), ikm_len,
                                  deerlapse_to_write(prk, prk_len), prk_len);
}
#define deerlapse_hkdf_extract deerlapse_hkdf_extract_nullable

DEERLAPSE_WRAPS_NULLABLE
bool deerlapse_hkdf_expand_nullable(const uint8_t *prk, size_t prk_len, const uint8_t *info, size_t info_len,
                                    uint8_t *out, size_t out_len) {
    return deerlapse_hkdf_expand(deerlapse_to_read(prk, prk_len), prk_len, deerlapse_to_read(info, info_len), info_len,
                                 deerlapse_to_write(out, out_len), out_len);
}
#define deerlapse_hkdf_expand deerlapse_hkdf_expand_nullable

DEERLAPSE_WRAPS_NULLABLE
bool deerlapse_hkdf_expand_label_nullable(const uint8_t *secret, size_t secret_len, const uint8_t *label,
                                          size_t label_len, const uint8_t *context, size_t context_len, uint8_t *out,
                                          size_t out_len) {
    return deerlapse_hkdf_expand_label(deerlapse_to_read(secret, secret_len), secret_len,
                                       deerlapse_to_read(label, label_len), label_len,
                                       deerlapse_to_read(context, context_len), context_len,
                                       deerlapse_to_write(out, out_len), out_len);
}
#define deerlapse_hkdf_expand_label deerlapse_hkdf_expand_label_nullable

DEERLAPSE_WRAPS(1, 4)
bool deerlapse_quic_key_init_nullable(deerlapse_quic_key *key, const uint8_t *bytes, size_t len,
                                      const uint8_t iv[DEERLAPSE_NONCE_LEN]) {
    return deerlapse_quic_key_init(key, deerlapse_to_read(bytes, len), len, iv);
}
#define deerlapse_quic_key_init deerlapse_quic_key_init_nullable

DEERLAPSE_WRAPS(1)
bool deerlapse_quic_key_from_secret_nullable(deerlapse_quic_key *key, uint32_t version, const uint8_t *secret,
                                             size_t secret_len) {
    return deerlapse_quic_key_from_secret(key, version, deerlapse_to_read(secret, secret_len), secret_len);
}
#define deerlapse_quic_key_from_secret deerlapse_quic_key_from_secret_nullable

DEERLAPSE_WRAPS(4, 5)
bool deerlapse_quic_initial_secrets_nullable(uint32_t version, const uint8_t *id, size_t id_len,
                                             uint8_t client[DEERLAPSE_SHA256_LEN],
                                             uint8_t server[DEERLAPSE_SHA256_LEN]) {
    return deerlapse_quic_initial_secrets(version, deerlapse_to_read(id, id_len), id_len, client, server);
}
#define deerlapse_quic_initial_secrets deerlapse_quic_initial_secrets_nullable

DEERLAPSE_WRAPS_NULLABLE
bool deerlapse_quic_next_secret_nullable(uint32_t version, uint8_t *secret, size_t secret_len) {
    return deerlapse_quic_next_secret(version, deerlapse_to_write(secret, secret_len), secret_len);
}
#define deerlapse_quic_next_secret deerlapse_quic_next_secret_nullable

DEERLAPSE_WRAPS(1, 7)
bool deerlapse_quic_key_seal_nullable(const deerlapse_quic_key *key, uint64_t number, const uint8_t *header,
                                      size_t header_len, uint8_t *payload, size_t payload_len,
                                      uint8_t tag[DEERLAPSE_TAG_LEN]) {
    return deerlapse_quic_key_seal(key, number, deerlapse_to_read(header, header_len), header_len,
                                   deerlapse_to_write(payload, payload_len), payload_len, tag);
}
#define deerlapse_quic_key_seal deerlapse_quic_key_seal_nullable

DEERLAPSE_WRAPS(1, 7)
bool deerlapse_quic_key_open_nullable(const deerlapse_quic_key *key, uint64_t number, const uint8_t *header,
                                      size_t header_len, uint8_t *payload, size_t payload_len, size_t *plaintext_len) {
    return deerlapse_quic_key_open(key, number, deerlapse_to_read(header, header_len), header_len,
                                   deerlapse_to_write(payload, payload_len), payload_len, plaintext_len);
}
#define deerlapse_quic_key_open deerlapse_quic_key_open_nullable

DEERLAPSE_WRAPS(1)
bool deerlapse_quic_header_key_init_nullable(deerlapse_quic_header_key *key, const uint8_t *bytes, size_t len) {
    return deerlapse_quic_header_key_init(key, deerlapse_to_read(bytes, len), len);
}
#define deerlapse_quic_header_key_init deerlapse_quic_header_key_init_nullable

DEERLAPSE_WRAPS(1)
bool deerlapse_quic_header_key_from_secret_nullable(deerlapse_quic_header_key *key, uint32_t version,
                                                    const uint8_t *secret, size_t secret_len) {
    return deerlapse_quic_header_key_from_secret(key, version, deerlapse_to_read(secret, secret_len), secret_len);
}
#define deerlapse_quic_header_key_from_secret deerlapse_quic_header_key_from_secret_nullable

DEERLAPSE_WRAPS(1, 4)
bool deerlapse_record_key_init_nullable(deerlapse_record_key *key, const uint8_t *bytes, size_t len,
                                        const uint8_t iv[DEERLAPSE_NONCE_LEN]) {
    return deerlapse_record_key_init(key, deerlapse_to_read(bytes, len), len, iv);
}
#define deerlapse_record_key_init deerlapse_record_key_init_nullable

DEERLAPSE_WRAPS(1)
bool deerlapse_record_key_from_secret_nullable(deerlapse_record_key *key, const uint8_t *secret, size_t secret_len) {
    return deerlapse_record_key_from_secret(key, deerlapse_to_read(secret, secret_len), secret_len);
}
#define deerlapse_record_key_from_secret deerlapse_record_key_from_secret_nullable

DEERLAPSE_WRAPS_NULLABLE
bool deerlapse_tls_next_secret_nullable(uint8_t *secret, size_t secret_len) {
    return deerlapse_tls_next_secret(deerlapse_to_write(secret, secret_len), secret_len);
}
#define deerlapse_tls_next_secret deerlapse_tls_next_secret_nullable

DEERLAPSE_WRAPS(1)
bool deerlapse_record_key_seal_nullable(const deerlapse_record_key *key, uint64_t number, uint8_t content_type,
                                        uint8_t *payload, size_t payload_len, size_t content_len) {
    return deerlapse_record_key_seal(key, number, content_type, deerlapse_to_write(payload, payload_len), payload_len,
                                     content_len);
}
#define deerlapse_record_key_seal deerlapse_record_key_seal_nullable

DEERLAPSE_WRAPS(1, 5, 6)
bool deerlapse_record_key_open_nullable(const deerlapse_record_key *key, uint64_t number, uint8_t *payload,
                                        size_t payload_len, uint8_t *content_type, size_t *content_len) {
    return deerlapse_record_key_open(key, number, deerlapse_to_write(payload, payload_len), payload_len, content_type,
                                     content_len);
}
#define deerlapse_record_key_open deerlapse_record_key_open_nullable

DEERLAPSE_WRAPS(3, 4)
bool deerlapse_mask_aes_nullable(const uint8_t *key, size_t key_len, const uint8_t sample[DEERLAPSE_SAMPLE_LEN],
                                 uint8_t mask[DEERLAPSE_MASK_LEN]) {
    return deerlapse_mask_aes(deerlapse_to_read(key, key_len), key_len, sample, mask);
}
#define deerlapse_mask_aes deerlapse_mask_aes_nullable

DEERLAPSE_WRAPS(1, 2)
bool deerlapse_chacha20_nullable(const uint8_t key[32], const uint8_t nonce[DEERLAPSE_NONCE_LEN], uint32_t counter,
                                 uint8_t *in_out, size_t in_out_len) {
    return deerlapse_chacha20(key, nonce, counter, deerlapse_to_write(in_out, in_out_len), in_out_len);
}
#define deerlapse_chacha20 deerlapse_chacha20_nullable

#ifdef __cplusplus
}
#endif

#undef DEERLAPSE_CALL
#undef DEERLAPSE_NODISCARD
#undef DEERLAPSE_WRAPS
#undef DEERLAPSE_WRAPS_NULLABLE

#endif
