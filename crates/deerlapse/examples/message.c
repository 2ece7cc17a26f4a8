/* Seals a message under a random key and a random nonce, and opens it. For Windows, link bcrypt too. */
#define _DEFAULT_SOURCE /* for getentropy, as glibc and musl declare it */
#include "deerlapse.h"
#include <stdio.h>
#if defined(_WIN32)
#include <windows.h>
#include <bcrypt.h>
#elif defined(__APPLE__)
#include <sys/random.h>
#else
#include <unistd.h>
#endif

/* Draws up to 256 bytes from the system's random generator. */
static bool draw(uint8_t *bytes, size_t len) {
#if defined(_WIN32)
    return BCryptGenRandom(NULL, bytes, (ULONG)len, BCRYPT_USE_SYSTEM_PREFERRED_RNG) == 0;
#else
    return getentropy(bytes, len) == 0;
#endif
}

static int fail(const char *why) {
    fprintf(stderr, "%s\n", why);
    return 1;
}

int main(void) {
    static const uint8_t header[] = {'v', '1'}; /* authenticated, and not encrypted */
    uint8_t buffer[5 + DEERLAPSE_TAG_LEN] = {'h', 'e', 'l', 'l', 'o'};
    size_t len;

    if (!deerlapse_cpu_supported()) return fail("this processor lacks instructions that the library was built for");

    uint8_t bytes[DEERLAPSE_XAES_KEY_LEN]; /* drawn once, and kept secret */
    uint8_t nonce[DEERLAPSE_XAES_NONCE_LEN]; /* drawn for each message, and sent with it */
    if (!draw(bytes, sizeof bytes) || !draw(nonce, sizeof nonce)) return fail("the system gives no random bytes");

    deerlapse_xaes key; /* many threads may use it at once */
    deerlapse_xaes_init(&key, bytes);
    bool sealed = deerlapse_xaes_seal(&key, nonce, header, sizeof header, buffer, 5, buffer + 5);
    bool opened = sealed && deerlapse_xaes_open(&key, nonce, header, sizeof header, buffer, sizeof buffer, 0, &len);
    deerlapse_xaes_wipe(&key);
    if (!opened) return fail(sealed ? "the message is not what was sealed" : "the message is too long");

    printf("opened: %.*s\n", (int)len, (const char *)buffer);
    return 0;
}
