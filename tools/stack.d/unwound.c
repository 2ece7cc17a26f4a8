/* Whether the caller of each call can be found from within it, at every instruction: by the tables that a debugger, a profiler and
 * an exception use. On x86-64 the processor stops after each instruction; on ARM64 a timer stops it at some. */
#define _GNU_SOURCE
#define MAX_LEN 300
#define ONE_STATE
#include "../targets.d/calls.h"
#include <signal.h>
#include <stdio.h>
#include <stdlib.h>
#include <string.h>

static volatile sig_atomic_t is_stepping;
static volatile unsigned long places, lost;

/* The function whose frame is looked for. It makes the call, and does nothing else that is stopped. */
static bool make(const named *it);

#if defined(_WIN32)
#include <windows.h>

static bool is_caller(DWORD64 address) {
    DWORD64 base, first;
    const RUNTIME_FUNCTION *found = RtlLookupFunctionEntry(address, &base, NULL);
    const RUNTIME_FUNCTION *caller = RtlLookupFunctionEntry((DWORD64)make, &first, NULL);
    return found && caller && found->BeginAddress == caller->BeginAddress && base == first;
}

/* Goes from frame to frame, by what the system knows of each function; one without an entry has only its return address. */
static bool finds_caller(CONTEXT at_stop) {
    for (int depth = 0; depth < 64; depth++) {
        DWORD64 base, frame;
        void *data;
        RUNTIME_FUNCTION *entry = RtlLookupFunctionEntry(at_stop.Rip, &base, NULL);
        if (is_caller(at_stop.Rip)) return true;
        if (entry) {
            RtlVirtualUnwind(UNW_FLAG_NHANDLER, base, at_stop.Rip, entry, &at_stop, &data, &frame, NULL);
        } else {
            at_stop.Rip = *(const DWORD64 *)at_stop.Rsp;
            at_stop.Rsp += 8;
        }
    }
    return false;
}

/* Whether registers are popped from here on, and then another function is jumped to. That is an epilogue to Windows. Wine 8 follows
 * the jump, and takes what is there for a part of this function. */
static bool ends_by_a_jump(const uint8_t *code) {
    while ((code[0] & 0xf8) == 0x58 || (code[0] == 0x41 && (code[1] & 0xf8) == 0x58)) code += code[0] == 0x41 ? 2 : 1;
    return code[0] == 0xe9 || code[0] == 0xeb;
}

static LONG CALLBACK stopped(EXCEPTION_POINTERS *given) {
    if (given->ExceptionRecord->ExceptionCode != EXCEPTION_SINGLE_STEP) return EXCEPTION_CONTINUE_SEARCH;
    places++;
    if (!finds_caller(*given->ContextRecord) && !ends_by_a_jump((const uint8_t *)given->ContextRecord->Rip)) lost++;
    if (is_stepping) given->ContextRecord->EFlags |= 0x100;
    return EXCEPTION_CONTINUE_EXECUTION;
}

static bool is_ready(void) { return AddVectoredExceptionHandler(1, stopped) != NULL; }
#else
#include <sys/time.h>
#include <unwind.h>

static _Unwind_Reason_Code at_frame(struct _Unwind_Context *context, void *is_found) {
    if (_Unwind_GetRegionStart(context) != (_Unwind_Ptr)make) return _URC_NO_REASON;
    *(bool *)is_found = true;
    return _URC_END_OF_STACK;
}

static void stopped(int signal) {
    bool is_found = false;
    (void)signal;
    if (!is_stepping) return;
    _Unwind_Backtrace(at_frame, &is_found);
    places++;
    if (!is_found) lost++;
}

static bool is_ready(void) {
    struct sigaction action;
    memset(&action, 0, sizeof action);
    action.sa_handler = stopped;
    action.sa_flags = SA_RESTART;
    return sigaction(SIGTRAP, &action, NULL) == 0 && sigaction(SIGALRM, &action, NULL) == 0;
}
#endif

#if defined(__x86_64__)
#include <x86intrin.h>

enum { TRAP_FLAG = 0x100, ENOUGH = 1 };

static void step(bool on) {
    is_stepping = on;
    __writeeflags(on ? __readeflags() | TRAP_FLAG : __readeflags() & ~(unsigned long long)TRAP_FLAG);
}

static bool is_started(void) { return true; }
#else
enum { ENOUGH = 20 };

/* In the place of the C library's, since ARM64's linker has no table for the entries by which those are called. */
void *memset(void *to, int byte, size_t len) {
    for (volatile uint8_t *at_byte = to; len > 0; len--) *at_byte++ = (uint8_t)byte;
    return to;
}
void *memmove(void *to, const void *from, size_t len) {
    volatile uint8_t *out = to;
    const uint8_t *in = from;
    bool backwards = in < out;
    for (size_t i = 0; i < len; i++) out[backwards ? len - 1 - i : i] = in[backwards ? len - 1 - i : i];
    return to;
}
void *memcpy(void *restrict to, const void *restrict from, size_t len) { return memmove(to, from, len); }

static void step(bool on) { is_stepping = on; }

static bool is_started(void) {
    static const struct itimerval often = {{0, 200}, {0, 200}};
    return setitimer(ITIMER_REAL, &often, NULL) == 0;
}
#endif

__attribute__((noinline)) static bool make(const named *it) {
    bool answer;
    step(true);
    answer = it->call();
    step(false);
    return answer;
}

/* Makes a call until it was stopped often enough. */
static bool stops_in(const named *it) {
    unsigned long before = places;
    for (int i = 0; i < 100000 && places - before < ENOUGH; i++) {
        if (!it->before() || !make(it)) return false;
    }
    return true;
}

int main(void) {
    static arguments given;
    at = &given;
    at->len = MAX_LEN;
    at->aad_len = 40;
    if (!is_ready() || !is_started()) return 2;
    for (int i = 0; i < CALLS; i++) {
        for (at->key_len = 16; at->key_len <= 32; at->key_len += 16) {
            if (!stops_in(&calls[i])) {
                fprintf(stderr, "unwound: %s was refused\n", calls[i].name);
                return 2;
            }
        }
    }
    printf("at %lu of %lu places in %d calls the caller was found\n", places - lost, places, CALLS);
    return lost != 0;
}
