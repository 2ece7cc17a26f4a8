// SPDX-License-Identifier: Apache-2.0
/* The part of the program seal_file that is written in C. The rest is the assembly that tools/dist made of crates/seal_file:
 *
 *     cc seal_file.c seal_file-x86_64-v2.s -o seal_file
 *
 * Here are the functions that the toolchain's crates `libc` and `os` take from C, and what Rattle has no calls for: the test of
 * the processor, signals, and a passphrase that is typed. The assembly begins at rattle_main, and calls rattle_open,
 * rattle_rename and rattle_unlink, so that the handler of a signal knows which files to remove. rattle_open also opens what is
 * typed. */
#define _DEFAULT_SOURCE
#include "deerlapse.h"

#include <errno.h>
#include <fcntl.h>
#include <limits.h>
#include <signal.h>
#include <stdio.h>
#include <stdlib.h>
#include <string.h>
#include <sys/prctl.h>
#include <sys/syscall.h>
#include <termios.h>
#include <unistd.h>

typedef struct {
    uint64_t ok;
    uint8_t *p;
} tried;

tried rattle_alloc(size_t n, size_t a);
tried rattle_realloc(uint8_t *p, size_t kept, size_t n, size_t a);
void rattle_dealloc(uint8_t *p);
int32_t rattle_errno(void);
void rattle_set_errno(int32_t error);
size_t rattle_arg_count(void);
ptrdiff_t rattle_arg(size_t i, uint8_t *buf, size_t len);
int rattle_open(const char *path, int flags, mode_t mode);
int rattle_rename(const char *from, const char *to);
int rattle_unlink(const char *path);
int rattle_main(void);

/* The heap. */

static tried of(uint8_t *p) {
    static uint8_t nowhere;
    tried it = {p != NULL, p ? p : &nowhere};
    return it;
}

/* The alignment `a` divides 16, which malloc's is. */
tried rattle_alloc(size_t n, size_t a) { return of(malloc(n ? n : a)); }

tried rattle_realloc(uint8_t *p, size_t kept, size_t n, size_t a) {
    (void)kept;
    return of(realloc(p, n ? n : a));
}

void rattle_dealloc(uint8_t *p) { free(p); }

/* errno and the arguments. */

static size_t count;
static char **arguments;

int32_t rattle_errno(void) { return errno; }

void rattle_set_errno(int32_t error) { errno = error; }

size_t rattle_arg_count(void) { return count; }

ptrdiff_t rattle_arg(size_t i, uint8_t *buf, size_t len) {
    if (i >= count) return -1;
    const size_t needed = strlen(arguments[i]);
    memcpy(buf, arguments[i], needed < len ? needed : len);
    return needed <= len ? (ptrdiff_t)needed : -2;
}

#ifndef __GLIBC__
/* musl lacks it before version 1.2.5. */
int statx(int folder, const char *path, int flags, unsigned mask, void *to);

int statx(int folder, const char *path, int flags, unsigned mask, void *to) {
    return (int)syscall(SYS_statx, folder, path, flags, mask, to);
}
#endif

/* Signals. One that ends the program still does, after unfinished files are removed and the terminal shows what is typed. */

/* The names of the new files: one beside OUT and, in a file system without hard links, OUT itself, which is empty at first.
 * Signals are blocked while a name is put here or taken away. */
static char unfinished[2][PATH_MAX];
/* Each signal that ends a program by default, but SIGKILL, those of a fault such as SIGSEGV, those of real time, and SIGPIPE and
 * SIGXFSZ, which are ignored. */
static const int ending[] = {SIGHUP,  SIGINT,  SIGQUIT,   SIGUSR1, SIGUSR2, SIGALRM,  SIGTERM,
                             SIGPOLL, SIGXCPU, SIGVTALRM, SIGPROF, SIGPWR,  SIGSTKFLT};
static volatile sig_atomic_t terminal = -1;
static struct termios shown;

static sigset_t those_ending(void) {
    sigset_t all;
    sigemptyset(&all);
    for (size_t i = 0; i < sizeof ending / sizeof ending[0]; i++) sigaddset(&all, ending[i]);
    return all;
}

/* The action for the signal is again the default one, which raise leaves for when this function has returned. */
static void end_by(int number) {
    for (size_t i = 0; i < 2; i++)
        if (unfinished[i][0]) unlink(unfinished[i]);
    if (terminal >= 0) tcsetattr(terminal, TCSAFLUSH, &shown);
    raise(number);
}

static void catch_signals(void) {
    struct sigaction by_us = {.sa_handler = end_by, .sa_mask = those_ending(), .sa_flags = (int)SA_RESETHAND}, now;
    for (size_t i = 0; i < sizeof ending / sizeof ending[0]; i++) {
        /* One that is ignored from the start, as SIGHUP under nohup, stays so. */
        if (sigaction(ending[i], NULL, &now) == 0 && now.sa_handler == SIG_DFL) sigaction(ending[i], &by_us, NULL);
    }
    /* A write to a pipe without a reader, or beyond a limit on the size of files, then fails. */
    signal(SIGPIPE, SIG_IGN);
    signal(SIGXFSZ, SIG_IGN);
}

static sigset_t blocked(void) {
    sigset_t all = those_ending(), before;
    sigprocmask(SIG_BLOCK, &all, &before);
    return before;
}

static void unblock(sigset_t before) {
    const int error = errno;
    sigprocmask(SIG_SETMASK, &before, NULL);
    errno = error;
}

static void replace(const char *name, const char *by) {
    for (size_t i = 0; i < 2; i++) {
        if (strcmp(unfinished[i], name) != 0) continue;
        strcpy(unfinished[i], by);
        return;
    }
}

static void finished(const char *path) { replace(path, ""); }

/* A passphrase that is typed. */

/* The program opens these to have one asked, before it creates a file. No file has such a name, since /dev/tty is no folder. */
#define TYPED "/dev/tty/passphrase"
#define NEW_TYPED "/dev/tty/new-passphrase"

enum { ROOM = 1024 };

/* Each writes why the program ends, and ends it with its exit status. */
static void fail(const char *what) { perror(what), exit(3); }
static void refuse(const char *why) { fprintf(stderr, "seal_file: %s\n", why), exit(2); }

/* Hides what is typed. The terminal edits it and passes it on line by line, also where a program left that off. */
static int hide(void) {
    struct termios hidden = shown;
    hidden.c_iflag = (hidden.c_iflag & ~(tcflag_t)(IGNCR | INLCR)) | ICRNL;
    hidden.c_lflag = (hidden.c_lflag & ~(tcflag_t)(ECHO | ECHONL)) | ICANON | ISIG;
    hidden.c_cc[VSUSP] = _POSIX_VDISABLE;
    return tcsetattr(terminal, TCSAFLUSH, &hidden);
}

/* Asks for a line. Returns its length without the newline, 0 if there is no room for it, or -1. */
static ssize_t ask(const char *prompt, char line[ROOM]) {
    size_t len = 0;
    if (write(terminal, prompt, strlen(prompt)) < 0) return -1;
    do {
        const ssize_t more = read(terminal, line + len, ROOM - len);
        if (more < 0) return -1;
        if (more == 0) break;
        len += (size_t)more;
    } while (line[len - 1] != '\n' && len < ROOM);
    if (write(terminal, "\n", 1) < 0) return -1;
    if (len > 0 && line[len - 1] == '\n') return (ssize_t)len - 1;
    return len < ROOM ? (ssize_t)len : 0;
}

/* Asks on the terminal, twice for a new passphrase. Returns a pipe with it, or -1 if there is no terminal. */
static int typed(bool is_new) {
    static const char name[] = "seal_file: /dev/tty";
    char line[ROOM], again[ROOM];
    int ends[2];
    const int tty = open("/dev/tty", O_RDWR | O_CLOEXEC);
    if (tty < 0) return -1;
    if (tcgetattr(tty, &shown) != 0) fail(name);
    terminal = tty;
    if (hide() != 0) fail(name);
    const ssize_t len = ask("Passphrase: ", line);
    const ssize_t len_again = len > 0 && is_new ? ask("The same again: ", again) : len;
    if (tcsetattr(tty, TCSAFLUSH, &shown) != 0 || len < 0 || len_again < 0) fail(name);
    terminal = -1;
    close(tty);
    if (len == 0) refuse("the passphrase is empty, or longer than 1023 bytes");
    if (is_new && (len != len_again || memcmp(line, again, (size_t)len) != 0)) refuse("the passphrases differ");
    if (pipe(ends) != 0 || write(ends[1], line, (size_t)len) != len) fail("seal_file: a pipe");
    close(ends[1]);
    explicit_bzero(line, sizeof line);
    explicit_bzero(again, sizeof again);
    return ends[0];
}

/* The calls by which the program opens, renames and removes files. A path of PATH_MAX bytes or more is refused by the system. */

int rattle_open(const char *path, int flags, mode_t mode) {
    if (strcmp(path, TYPED) == 0) return typed(false);
    if (strcmp(path, NEW_TYPED) == 0) return typed(true);
    if (!(flags & O_EXCL)) return open(path, flags, mode);
    const sigset_t before = blocked();
    const int file = open(path, flags, mode);
    if (file >= 0) replace("", path);
    unblock(before);
    return file;
}

int rattle_rename(const char *from, const char *to) {
    const sigset_t before = blocked();
    const int failed = rename(from, to);
    if (!failed) finished(from), finished(to);
    unblock(before);
    return failed;
}

int rattle_unlink(const char *path) {
    const sigset_t before = blocked();
    const int failed = unlink(path);
    if (!failed) finished(path);
    unblock(before);
    return failed;
}

int main(int argc, char **argv) {
    if (!deerlapse_cpu_supported()) {
        fputs("seal_file: this processor lacks instructions of the level x86-64-v2: SSSE3, SSE4.2 or POPCNT\n", stderr);
        return 3;
    }
    /* No core file has the key or the plaintext. A limit of 0 bytes would not hold where a program takes the core by a pipe. */
    if (prctl(PR_SET_DUMPABLE, 0) != 0) {
        perror("seal_file: prctl");
        return 3;
    }
    catch_signals();
    count = (size_t)argc;
    arguments = argv;
    return rattle_main();
}
