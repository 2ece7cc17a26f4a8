/* The loops of the sides that are called from C. A file that includes this defines before
 *
 * - gcm, an AES-GCM key with what lives as long as a loop: gcm_new makes it without a key, gcm_set gives it one, and gcm_free
 *   ends it. seal_with and open_with seal and open in place.
 * - aes, a key that makes masks, with the same three functions. write_mask writes a mask over the front of its sample.
 * - ONCE_IS_A_CALL, if it has calls of its own that also make the key: seal_once_with, open_once_with and write_mask_once. */
#ifndef LOOPS_H
#define LOOPS_H

#include "bench.h"
#include <stdbool.h>

/* Defines a loop. In it `k` is a key of the type, which seals or opens, `made` has blocks for what is made, `i` is the number of the
 * call, and `opened` counts. `begun` comes before the calls, and `done` is a call: where one of them is false, the loop ends, and
 * returns 0. Otherwise it returns the first bytes of `result`. */
#define LOOP(name, type, seals, begun, done, result)                                                                       \
    static inline uint64_t name(uint64_t times, const uint8_t *key, size_t key_len, uint8_t *buffer, size_t len) {         \
        type k;                                                                                                            \
        uint8_t made[4][BLOCK_LEN] = {{0}};                                                                                \
        uint64_t opened = 0;                                                                                               \
        (void)key, (void)key_len, (void)buffer, (void)len, (void)made;                                                     \
        type##_new(&k, key_len, seals);                                                                                    \
        if (!(begun)) return 0;                                                                                            \
        for (uint64_t i = 0; i < times; i++) {                                                                             \
            if (!(done)) return 0;                                                                                         \
        }                                                                                                                  \
        uint64_t first = first_bytes(result);                                                                              \
        type##_free(&k);                                                                                                   \
        return first + opened;                                                                                             \
    }

#ifndef ONCE_IS_A_CALL
static inline bool seal_once_with(gcm *k, const uint8_t *key, size_t key_len, uint8_t *data, size_t len, uint8_t *tag) {
    return gcm_set(k, key, key_len) && seal_with(k, nonce, 0, data, len, tag);
}

static inline bool open_once_with(gcm *k, const uint8_t *key, size_t key_len, uint8_t *tag, uint8_t *data, size_t len) {
    return gcm_set(k, key, key_len) && open_with(k, tag, data, len);
}

static inline bool write_mask_once(aes *k, const uint8_t *key, size_t key_len, uint8_t *sample) {
    return aes_set(k, key, key_len) && write_mask(k, sample);
}
#endif

/* Opening makes the plaintext the ciphertext of what stood there before: two tags take turns. */
static inline bool seal_twice(const uint8_t *key, size_t key_len, uint8_t *buffer, size_t len, uint8_t (*tags)[TAG_LEN]) {
    gcm k;
    gcm_new(&k, key_len, true);
    bool done = gcm_set(&k, key, key_len) && seal_with(&k, nonce, 0, buffer, len, tags[1]) &&
                seal_with(&k, nonce, 0, buffer, len, tags[0]);
    gcm_free(&k);
    return done;
}

LOOP(seal, gcm, true, gcm_set(&k, key, key_len), seal_with(&k, nonce, 0, buffer, len, made[0]), made[0])
LOOP(open, gcm, false, gcm_set(&k, key, key_len) && seal_twice(key, key_len, buffer, len, made),
     (opened += open_with(&k, made[i % 2], buffer, len), true), made[0])
LOOP(seal_once, gcm, true, true, seal_once_with(&k, key, key_len, buffer, len, made[0]), made[0])
LOOP(open_once, gcm, false, seal_twice(key, key_len, buffer, len, made),
     (opened += open_once_with(&k, key, key_len, made[i % 2], buffer, len), true), made[0])
LOOP(authenticate, gcm, true, gcm_set(&k, key, key_len), seal_with(&k, buffer, len, NULL, 0, made[0]), made[0])
LOOP(gcm_key, gcm, true, gcm_set(&k, key, key_len), (set_first_bytes(buffer, i), gcm_set(&k, buffer, len)),
     (seal_with(&k, nonce, sizeof nonce, NULL, 0, made[0]), made[0]))
LOOP(mask, aes, true, aes_set(&k, key, key_len), write_mask(&k, buffer), buffer)
LOOP(mask_once, aes, true, true, write_mask_once(&k, key, key_len, buffer), buffer)

#endif
