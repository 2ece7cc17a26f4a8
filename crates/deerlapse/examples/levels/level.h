/* The calls of the library that this program makes, once for each level of x86-64 processors. A key that was initialized by the
 * call of one level may be used by those of the other. */
#include "deerlapse.h"

typedef struct level {
    bool (*is_supported)(void);
    bool (*init)(deerlapse_key *key, const uint8_t *bytes, size_t len);
    bool (*seal)(const deerlapse_key *key, const uint8_t nonce[DEERLAPSE_NONCE_LEN], uint8_t *in_out, size_t len);
} level;

extern const level level_2, level_3;
