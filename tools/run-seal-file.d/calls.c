/* Says on standard error when the program calls fsync, link or rename, and lets the call named by FAILING fail. If that is
 * `read`, each second read is interrupted, from the first on. If it is `proc`, no file of /proc has metadata. If it is `unlink` or
 * `fchmod`, no file is removed or gets another mode; `fchmod EPERM` is the error of a file system that has no modes. If it is
 * `killed`, the process is killed instead of its first call of fsync. */
#define _GNU_SOURCE
#include <dlfcn.h>
#include <errno.h>
#include <signal.h>
#include <stdio.h>
#include <stdlib.h>
#include <string.h>
#include <sys/stat.h>
#include <unistd.h>

/* The function of this name that would be called without this library. */
#define NEXT(name) ((__typeof__(&name))dlsym(RTLD_NEXT, #name))

static int is_failing(const char *name) {
    const char *failing = getenv("FAILING");
    return failing != NULL && strcmp(failing, name) == 0;
}

static int fails(const char *name) {
    fprintf(stderr, "call %s\n", name);
    errno = EIO;
    return is_failing(name);
}

int fsync(int fd) {
    struct stat of;
    int is_folder = fstat(fd, &of) == 0 && S_ISDIR(of.st_mode);
    if (is_failing("killed")) {
        raise(SIGKILL);
    }
    return fails(is_folder ? "fsync folder" : "fsync") ? -1 : NEXT(fsync)(fd);
}

ssize_t read(int fd, void *to, size_t len) {
    static int reads;
    if (is_failing("read") && reads++ % 2 == 0) {
        errno = EINTR;
        return -1;
    }
    return NEXT(read)(fd, to, len);
}

int link(const char *from, const char *to) { return fails("link") ? -1 : NEXT(link)(from, to); }

int rename(const char *from, const char *to) { return fails("rename") ? -1 : NEXT(rename)(from, to); }

int unlink(const char *path) {
    errno = EIO;
    return is_failing("unlink") ? -1 : NEXT(unlink)(path);
}

int fchmod(int fd, mode_t mode) {
    int is_unsupported = is_failing("fchmod EPERM");
    errno = is_unsupported ? EPERM : EIO;
    return is_unsupported || is_failing("fchmod") ? -1 : NEXT(fchmod)(fd, mode);
}

int statx(int folder, const char *path, int flags, unsigned mask, struct statx *out) {
    if (is_failing("proc") && strncmp(path, "/proc/", 6) == 0) {
        errno = ENOENT;
        return -1;
    }
    return NEXT(statx)(folder, path, flags, mask, out);
}
