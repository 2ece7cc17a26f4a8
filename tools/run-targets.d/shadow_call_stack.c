/* Whether each call returns to a caller with a shadow call stack, as programs for Android may have: clang compiles this file with
 * -fsanitize=shadow-call-stack, so that its functions push the addresses to which they return where x18 points, and pop them from
 * there. If a call of the library changes x18, its caller returns to another address. */
#define MAX_LEN 1350
#include "../targets.d/calls.h"

#if !__has_feature(shadow_call_stack)
#error "this file is compiled without -fsanitize=shadow-call-stack"
#endif

/* Makes a call with each length of a key and some of a message. */
__attribute__((noinline)) static bool make(const named *it) {
    static const size_t lens[] = {0, 16, 17, 64, 255, MAX_LEN};
    for (at->key_len = 16; at->key_len <= 32; at->key_len += 16) {
        for (size_t i = 0; i < sizeof lens / sizeof lens[0]; i++) {
            at->len = lens[i];
            if (!it->before() || !it->call()) return false;
        }
    }
    return true;
}

/* Prints the name of each call before it is made, since the program may not come back. It sets x18, as Android does for a thread,
 * after each print: the C library here doesn't keep it. */
__attribute__((no_sanitize("shadow-call-stack"))) int main(void) {
    static uintptr_t addresses[64];
    static arguments given;
    at = &given;
    at->aad_len = 40;
    setbuf(stdout, NULL);
    for (int i = 0; i < CALLS; i++) {
        puts(calls[i].name);
        __asm__ volatile("mov x18, %0" : : "r"(addresses));
        if (!make(&calls[i])) {
            fprintf(stderr, "shadow_call_stack: %s was refused\n", calls[i].name);
            return 2;
        }
    }
    printf("%d calls return to a caller with a shadow call stack\n", CALLS);
    return 0;
}
