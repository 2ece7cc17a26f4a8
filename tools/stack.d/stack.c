/* How deep each call goes into the stack: a thread whose 256 KiB are filled with a pattern makes it, and then looks for
 * the lowest byte that changed. On ARM64 glibc starts no thread with less than 128 KiB. Each is made in a process of its
 * own, and what must come before it in another one, since the dynamic linker may bind memcpy, memmove and memset at their
 * first use, on the stack of the call. So this file calls none. */
#define _DEFAULT_SOURCE
#define MAX_LEN 5000
#include "../targets.d/calls.h"
#include <pthread.h>
#include <stdio.h>
#include <stdlib.h>
#include <sys/mman.h>
#include <sys/wait.h>
#include <unistd.h>

enum { SIZE = 256 * 1024, PATTERN = 0xa7 };

/* What the processes share: the arguments, and what a call returned and took. */
static struct {
    arguments arguments;
    bool is_true;
    long used;
} *shared;

static unsigned char stack[SIZE] __attribute__((aligned(4096)));

static void *run(void *given) {
    const named *it = given;
    const unsigned char *lowest = stack;
    shared->is_true = it->call();
    while (*lowest == PATTERN) lowest++;
    shared->used = (const unsigned char *)__builtin_frame_address(0) - lowest;
    return NULL;
}

/* Makes a call in a thread of this process. */
static bool make(const named *it) {
    pthread_attr_t attr;
    pthread_t thread;
    for (volatile unsigned char *byte = stack; byte < stack + SIZE; byte++) *byte = PATTERN;
    return pthread_attr_init(&attr) == 0 && pthread_attr_setstack(&attr, stack, SIZE) == 0 &&
           pthread_create(&thread, &attr, run, (void *)it) == 0 && pthread_join(thread, NULL) == 0 && shared->is_true;
}

static bool prepare(const named *it) { return it->before(); }

/* Whether it returns true, in a process of its own. */
static bool in_a_process(bool (*is)(const named *), const named *it) {
    int status = 0;
    pid_t child = fork();
    if (child == 0) _exit(is(it) ? 0 : 1);
    return child > 0 && waitpid(child, &status, 0) == child && status == 0;
}

/* The most that a call takes, of some lengths. */
static long most_of(const named *it) {
    static const size_t lens[] = {0, 16, 17, 64, 255, 1350, MAX_LEN};
    long most = 0;
    for (at->key_len = 16; at->key_len <= 32; at->key_len += 16) {
        for (size_t i = 0; i < sizeof lens / sizeof lens[0]; i++) {
            at->len = lens[i];
            if (!in_a_process(prepare, it) || !in_a_process(make, it)) {
                fprintf(stderr, "stack: %s wasn't made, or was refused\n", it->name);
                exit(2);
            }
            most = shared->used > most ? shared->used : most;
        }
    }
    return most;
}

/* Prints what each call takes, and last what the header says. */
int main(void) {
    shared = mmap(NULL, sizeof *shared, PROT_READ | PROT_WRITE, MAP_SHARED | MAP_ANONYMOUS, -1, 0);
    if (shared == MAP_FAILED) return 2;
    at = &shared->arguments;
    at->aad_len = 40;
    for (int i = 0; i < CALLS; i++) printf("%s %ld\n", calls[i].name, most_of(&calls[i]));
    printf("DEERLAPSE_MAX_STACK %d\n", DEERLAPSE_MAX_STACK);
    return 0;
}
