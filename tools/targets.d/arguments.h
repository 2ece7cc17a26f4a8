/* What the programs share that make the calls of a table: the arguments, and what a row says of a call. */
#ifndef ARGUMENTS_H
#define ARGUMENTS_H

#include "checks.h"

/* The longest message. */
#ifndef MAX_LEN
#define MAX_LEN 16384
#endif

enum { ROOM = MAX_LEN + 64 };

typedef struct {
#ifdef DEERLAPSE_H
    deerlapse_key key;
    deerlapse_xaes xaes;
    deerlapse_message in_pieces;
    deerlapse_sealer sealer;
    deerlapse_opener opener;
    deerlapse_quic_key quic_key;
    deerlapse_quic_header_key quic_header_key;
    deerlapse_record_key record_key;
#endif
    /* What is known. A message that is opened in place begins at `start`. */
    size_t key_len, len, aad_len, start;
    size_t opened;
    /* The secrets: those of a hash of 32 bytes go with a key of 16. `other` is room for an output, or for a sealed message. */
    uint8_t key_bytes[32], header_key[32], nonce[XAES_NONCE], sample[16], secret[48], tag[TAG], mask[5], content_type;
    uint8_t aad[ROOM], message[ROOM], other[ROOM];
} arguments;
static arguments *at;

/* What a reader of a record is told is told of a secret: a program may say here that it is known from now on. */
#ifndef TELL
#define TELL(object) ((void)0)
#endif
static unsigned long authentic_records;

/* Whether what a reader is told of an authentic record is right. */
static inline bool is_told(void) {
    authentic_records++;
    TELL(at->opened);
    TELL(at->content_type);
    return at->opened == at->len && at->content_type == 23;
}

/* A call, and what comes before it: both return whether they did what they must. */
typedef struct {
    const char *name;
    bool (*before)(void);
    bool (*call)(void);
    bool has_lens;         /* it is made for each length of a message */
    bool has_aad;          /* and of an AAD */
    bool opens;            /* it compares a tag */
    uint8_t *(*tag)(void); /* where the right tag is: with another one, the call returns false */
} named;

#endif
