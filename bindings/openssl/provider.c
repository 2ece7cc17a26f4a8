// SPDX-License-Identifier: Apache-2.0
/* An OpenSSL 3 provider of AES-128-GCM and AES-256-GCM by deerlapse.h: what OpenSSL loads, asks and unloads (provider(7),
 * provider-base(7)). The ciphers are in cipher.c. */
#define _XOPEN_SOURCE 700 /* for sigaction, as -std=c11 declares it */
#include "provider.h"
#include <deerlapse.h>
#include <openssl/core_names.h>
#include <openssl/err.h>
#include <openssl/params.h>
#include <openssl/proverr.h>
#include <signal.h>
#include <stdatomic.h>
#include <string.h>
#include <strings.h>
#include <unistd.h>

#define TEXT_OF(number) #number
#define DOTTED(major, minor, patch) TEXT_OF(major) "." TEXT_OF(minor) "." TEXT_OF(patch)
#define VERSION DOTTED(DEERLAPSE_VERSION_MAJOR, DEERLAPSE_VERSION_MINOR, DEERLAPSE_VERSION_PATCH)

#ifdef __x86_64__
#define LEVEL_OF(number) "x86-64-v" TEXT_OF(number)
#define PROCESSOR LEVEL_OF(DEERLAPSE_X86_64_LEVEL)
#else
#define PROCESSOR "aarch64"
#endif

static const OSSL_ITEM texts[] = {
    {KEY_LENGTH, "deerlapse: the key has another length than the cipher's"},
    {NONCE_LENGTH, "deerlapse: a nonce has 12 bytes"},
    {TAG_LENGTH, "deerlapse: a tag has 16 bytes, and is set to open a message"},
    {NO_KEY, "deerlapse: no key is set"},
    {NO_NONCE, "deerlapse: no nonce is set"},
    {SECOND_MESSAGE, "deerlapse: a second message before a new nonce"},
    {LATE_AAD, "deerlapse: AAD after the message has begun"},
    {OPENING_IN_PIECES, "deerlapse: opening in pieces: a message is opened in one update"},
    {NO_TAG, "deerlapse: no tag is set before the message is opened"},
    {LATE_TAG, "deerlapse: a tag is set after the update, and not before"},
    {TAG_OF_NO_MESSAGE, "deerlapse: no message was sealed to its end, which makes the tag"},
    {COPY, "deerlapse: a context that seals isn't copied: both would use one nonce"},
    {SHORT_OUTPUT, "deerlapse: the output is shorter than the input"},
    {OVERLAP, "deerlapse: the output overlaps the input, and isn't the same"},
    {TOO_LONG, "deerlapse: the message is too long"},
    {NO_RECORD, "deerlapse: not a record in place, under a nonce of which the first 4 bytes are fixed"},
    {0, NULL},
};

int refuse_at(const provider *by, const char *file, int line, const char *function, int why, const char *format, ...) {
    va_list arguments;
    if (by->new_error == NULL || by->set_error_debug == NULL || by->vset_error == NULL) return 0;
    va_start(arguments, format);
    by->new_error(by->core);
    by->set_error_debug(by->core, file, line, function);
    by->vset_error(by->core, (uint32_t)why, format, arguments);
    va_end(arguments);
    return 0;
}

#define LINE(text) "deerlapse: this process " text "\n"

/* The line is one system call, which sandboxes such as sshd's allow. That it fails is no error of the caller's. */
void report(const provider *by, event what) {
    static const char *const lines[] = {
        [MAKES_KEY] = LINE("has made a key by deerlapse " VERSION " for " PROCESSOR),
        [TAG_BEFORE_TEXT] = LINE("sets the tag before the text"),
        [TAG_AFTER_TEXT] = LINE("sets the tag after the text, which needs late-tag = yes"),
    };
    static atomic_flag reported[] = {ATOMIC_FLAG_INIT, ATOMIC_FLAG_INIT, ATOMIC_FLAG_INIT};
    ssize_t written;
    if (!by->trace || atomic_flag_test_and_set(&reported[what])) return;
    written = write(STDERR_FILENO, lines[what], strlen(lines[what]));
    (void)written;
}

/* Sees to it that a line beyond the limit of a file's size, which sshd's sandbox sets to 0, fails with EFBIG: SIGXFSZ would end
 * the process. Whether it does: a program's own handler is kept. */
static bool ignores_sigxfsz(void) {
    struct sigaction action;
    if (sigaction(SIGXFSZ, NULL, &action) != 0) return false;
    if (action.sa_handler != SIG_DFL) return action.sa_handler == SIG_IGN;
    action.sa_handler = SIG_IGN;
    return sigaction(SIGXFSZ, &action, NULL) == 0;
}

/* Whether a name in the provider's section of the configuration has the value `yes`. */
static bool is_set(const OSSL_CORE_HANDLE *core, OSSL_FUNC_core_get_params_fn *get, const char *name) {
    char *value = NULL;
    OSSL_PARAM asked[] = {OSSL_PARAM_utf8_ptr(name, &value, 0), OSSL_PARAM_END};
    return get != NULL && get(core, asked) && value != NULL && strcasecmp(value, "yes") == 0;
}

/* OpenSSL calls it once for each kind of algorithm: the provider has ciphers alone. */
static OSSL_FUNC_provider_query_operation_fn query;
static const OSSL_ALGORITHM *query(void *of, int operation, int *no_cache) {
    static const OSSL_ALGORITHM ciphers[] = {
        {"AES-128-GCM:id-aes128-GCM:2.16.840.1.101.3.4.1.6", "provider=deerlapse", aes_128_gcm, "AES-128-GCM by deerlapse"},
        {"AES-256-GCM:id-aes256-GCM:2.16.840.1.101.3.4.1.46", "provider=deerlapse", aes_256_gcm, "AES-256-GCM by deerlapse"},
        {NULL, NULL, NULL, NULL},
    };
    (void)of;
    *no_cache = 0;
    return operation == OSSL_OP_CIPHER ? ciphers : NULL;
}

/* What `openssl list -providers` prints. */
static OSSL_FUNC_provider_gettable_params_fn gettable;
static const OSSL_PARAM *gettable(void *of) {
    static const OSSL_PARAM params[] = {
        OSSL_PARAM_utf8_ptr(OSSL_PROV_PARAM_NAME, NULL, 0),
        OSSL_PARAM_utf8_ptr(OSSL_PROV_PARAM_VERSION, NULL, 0),
        OSSL_PARAM_utf8_ptr(OSSL_PROV_PARAM_BUILDINFO, NULL, 0),
        OSSL_PARAM_int(OSSL_PROV_PARAM_STATUS, NULL),
        OSSL_PARAM_END,
    };
    (void)of;
    return params;
}

static OSSL_FUNC_provider_get_params_fn get_params;
static int get_params(void *of, OSSL_PARAM params[]) {
    static const char *const strings[][2] = {
        {OSSL_PROV_PARAM_NAME, "Deerlapse"}, {OSSL_PROV_PARAM_VERSION, VERSION}, {OSSL_PROV_PARAM_BUILDINFO, VERSION}};
    KEEP_ERRNO;
    OSSL_PARAM *param;
    (void)of;
    for (size_t i = 0; i < sizeof strings / sizeof *strings; i++) {
        param = OSSL_PARAM_locate(params, strings[i][0]);
        if (param != NULL && !OSSL_PARAM_set_utf8_ptr(param, strings[i][1])) return 0;
    }
    param = OSSL_PARAM_locate(params, OSSL_PROV_PARAM_STATUS);
    return param == NULL || OSSL_PARAM_set_int(param, 1);
}

/* OpenSSL calls it after loading, for the texts of the errors. */
static OSSL_FUNC_provider_get_reason_strings_fn get_reason_strings;
static const OSSL_ITEM *get_reason_strings(void *of) {
    (void)of;
    return texts;
}

static OSSL_FUNC_provider_teardown_fn teardown;
static void teardown(void *of) {
    KEEP_ERRNO;
    OPENSSL_free(of);
}

/* OpenSSL calls it when it loads the shared object, whose only exported function it is. The provider isn't loaded where the
 * processor lacks instructions of the library. */
__attribute__((visibility("default"))) OSSL_provider_init_fn OSSL_provider_init;
int OSSL_provider_init(const OSSL_CORE_HANDLE *core, const OSSL_DISPATCH *in, const OSSL_DISPATCH **out, void **context) {
    static const OSSL_DISPATCH functions[] = {
        {OSSL_FUNC_PROVIDER_QUERY_OPERATION, (void (*)(void))query},
        {OSSL_FUNC_PROVIDER_GETTABLE_PARAMS, (void (*)(void))gettable},
        {OSSL_FUNC_PROVIDER_GET_PARAMS, (void (*)(void))get_params},
        {OSSL_FUNC_PROVIDER_GET_REASON_STRINGS, (void (*)(void))get_reason_strings},
        {OSSL_FUNC_PROVIDER_TEARDOWN, (void (*)(void))teardown},
        {0, NULL},
    };
    KEEP_ERRNO;
    OSSL_FUNC_core_get_params_fn *get_configuration = NULL;
    provider *made = OPENSSL_zalloc(sizeof *made);
    if (made == NULL) return 0;
    made->core = core;
    for (; in->function_id != 0; in++) {
        switch (in->function_id) {
        case OSSL_FUNC_CORE_GET_PARAMS: get_configuration = OSSL_FUNC_core_get_params(in); break;
        case OSSL_FUNC_CORE_NEW_ERROR: made->new_error = OSSL_FUNC_core_new_error(in); break;
        case OSSL_FUNC_CORE_SET_ERROR_DEBUG: made->set_error_debug = OSSL_FUNC_core_set_error_debug(in); break;
        case OSSL_FUNC_CORE_VSET_ERROR: made->vset_error = OSSL_FUNC_core_vset_error(in); break;
        default: break;
        }
    }
    if (!deerlapse_cpu_supported()) {
        refuse_at(made, OPENSSL_FILE, OPENSSL_LINE, OPENSSL_FUNC, ERR_PACK(ERR_LIB_PROV, 0, ERR_R_INIT_FAIL),
                  "deerlapse: this processor lacks instructions that the library was built for");
        OPENSSL_free(made);
        return 0;
    }
    made->late_tag = is_set(core, get_configuration, "late-tag");
    made->trace = is_set(core, get_configuration, "trace") && ignores_sigxfsz();
    *out = functions;
    *context = made;
    return 1;
}
