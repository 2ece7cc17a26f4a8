// SPDX-License-Identifier: Apache-2.0
/* What the two files of the provider share. */
#ifndef DEERLAPSE_PROVIDER_H
#define DEERLAPSE_PROVIDER_H

#include <errno.h>
#include <openssl/core_dispatch.h>
#include <openssl/crypto.h>
#include <stdbool.h>

/* A loaded provider: OpenSSL's handle of it, the functions that put an error into OpenSSL's queue, and what the provider's
 * section of the configuration says. */
typedef struct {
    const OSSL_CORE_HANDLE *core;
    OSSL_FUNC_core_new_error_fn *new_error;
    OSSL_FUNC_core_set_error_debug_fn *set_error_debug;
    OSSL_FUNC_core_vset_error_fn *vset_error;
    bool late_tag; /* late-tag = yes: text may come before its tag */
    bool trace;    /* trace = yes: what the process does is reported */
} provider;

/* Why a call is refused. The texts, which OpenSSL prints, are in provider.c. */
typedef enum {
    KEY_LENGTH = 1,
    NONCE_LENGTH,
    TAG_LENGTH,
    NO_KEY,
    NO_NONCE,
    SECOND_MESSAGE,
    LATE_AAD,
    OPENING_IN_PIECES,
    NO_TAG,
    LATE_TAG,
    TAG_OF_NO_MESSAGE,
    COPY,
    SHORT_OUTPUT,
    OVERLAP,
    TOO_LONG,
    NO_RECORD
} reason;

/* Puts a reason into the queue, and returns 0. The text `format`, if it isn't null, is printed after it. */
int refuse_at(const provider *by, const char *file, int line, const char *function, int why, const char *format, ...);
#define refuse(by, why) refuse_at(by, OPENSSL_FILE, OPENSSL_LINE, OPENSSL_FUNC, why, NULL)

/* What a process is seen to do. */
typedef enum { MAKES_KEY, TAG_BEFORE_TEXT, TAG_AFTER_TEXT } event;

/* With `trace = yes`, writes a line to standard error at the first event of its kind in the process. */
void report(const provider *by, event what);

/* Each function that OpenSSL calls, and that calls others which may set `errno`, begins with it: where the function ends, errno
 * gets the value back that it had. */
#define KEEP_ERRNO __attribute__((cleanup(give_back_errno), unused)) const int kept = errno
static inline void give_back_errno(const int *kept) { errno = *kept; }

/* The functions of the two ciphers, in cipher.c. */
extern const OSSL_DISPATCH aes_128_gcm[], aes_256_gcm[];

#endif
