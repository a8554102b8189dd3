/* Preloaded into the program by kill_program.py and fault_program.py. It counts the program's calls on files, and at
 * the call of a number it ends the process or lets the call fail. The environment says what is to be done:
 *
 *   CALL_KIND    which calls count: open, stat, mkdir, read, write, seek, truncate, close, remove, or any
 *   CALL_NUMBER  the number of the call that is meant, from 1
 *   CALL_FROM    if set, each later call is meant too
 *   CALL_DOES    kill: the process ends before the call; half: a write leaves its first half, then the process ends;
 *                short: a read or a write moves its first half; else the error that the call answers, as a number
 *   CALL_COUNT   if set, a file to which the number of calls is written at the end
 */
#define _GNU_SOURCE
#include <dlfcn.h>
#include <errno.h>
#include <fcntl.h>
#include <signal.h>
#include <stdarg.h>
#include <stdio.h>
#include <stdlib.h>
#include <string.h>
#include <sys/stat.h>
#include <sys/syscall.h>
#include <unistd.h>

static long made;

static long whole(const char *name) {
    const char *text = getenv(name);
    return text ? atol(text) : 0;
}

/* Whether this call is the one that is meant. */
static int is_meant(const char *kind) {
    const char *counted = getenv("CALL_KIND");
    if (!counted || (strcmp(counted, "any") != 0 && strcmp(counted, kind) != 0)) return 0;
    long here = __atomic_add_fetch(&made, 1, __ATOMIC_SEQ_CST);
    long number = whole("CALL_NUMBER");
    return number > 0 && (here == number || (here > number && getenv("CALL_FROM")));
}

static const char *deed(void) {
    const char *does = getenv("CALL_DOES");
    return does ? does : "kill";
}

static void end(void) { syscall(SYS_kill, getpid(), SIGKILL); }

/* Ends the process, or answers the error. A deed that is none for this call does nothing. */
static int fails(const char *kind) {
    if (!is_meant(kind)) return 0;
    if (strcmp(deed(), "kill") == 0 || strcmp(deed(), "half") == 0) end();
    int error = atoi(deed());
    if (error == 0) return 0;
    errno = error;
    return 1;
}

#define REAL(name, type) ((type)dlsym(RTLD_NEXT, name))

static int open_as(const char *name, const char *path, int flags, mode_t mode) {
    if (fails("open")) return -1;
    return REAL(name, int (*)(const char *, int, ...))(path, flags, mode);
}

#define OPEN(name)                                                          \
    int name(const char *path, int flags, ...) {                            \
        va_list rest;                                                       \
        va_start(rest, flags);                                              \
        mode_t mode = flags & O_CREAT ? va_arg(rest, mode_t) : 0;           \
        va_end(rest);                                                       \
        return open_as(#name, path, flags, mode);                           \
    }
OPEN(open)
OPEN(open64)

int statx(int fd, const char *restrict path, int flags, unsigned mask, struct statx *restrict into) {
    if (fails("stat")) return -1;
    return REAL("statx", int (*)(int, const char *, int, unsigned, struct statx *))(fd, path, flags, mask, into);
}

int mkdir(const char *path, mode_t mode) {
    if (fails("mkdir")) return -1;
    return REAL("mkdir", int (*)(const char *, mode_t))(path, mode);
}

int unlink(const char *path) {
    if (fails("remove")) return -1;
    return REAL("unlink", int (*)(const char *))(path);
}

off_t lseek(int fd, off_t offset, int whence) {
    if (fails("seek")) return -1;
    return REAL("lseek", off_t (*)(int, off_t, int))(fd, offset, whence);
}

int ftruncate(int fd, off_t length) {
    if (fails("truncate")) return -1;
    return REAL("ftruncate", int (*)(int, off_t))(fd, length);
}

/* A close that fails has closed the file, as on Linux. */
int close(int fd) {
    int failed = fails("close");
    int error = errno;
    int answer = REAL("close", int (*)(int))(fd);
    if (!failed) return answer;
    errno = error;
    return -1;
}

ssize_t read(int fd, void *into, size_t len) {
    ssize_t (*real)(int, void *, size_t) = REAL("read", ssize_t (*)(int, void *, size_t));
    if (!is_meant("read")) return real(fd, into, len);
    if (strcmp(deed(), "short") == 0) return real(fd, into, len > 1 ? len / 2 : len);
    if (strcmp(deed(), "kill") == 0 || strcmp(deed(), "half") == 0) end();
    errno = atoi(deed());
    return -1;
}

/* A write that fails has left its first half, as on a disk that fills. A later one at the place goes over it. */
ssize_t write(int fd, const void *from, size_t len) {
    ssize_t (*real)(int, const void *, size_t) = REAL("write", ssize_t (*)(int, const void *, size_t));
    if (!is_meant("write")) return real(fd, from, len);
    if (strcmp(deed(), "short") == 0) return real(fd, from, len > 1 ? len / 2 : len);
    if (strcmp(deed(), "half") == 0) real(fd, from, len / 2);
    if (strcmp(deed(), "kill") == 0 || strcmp(deed(), "half") == 0) end();
    int error = atoi(deed());
    off_t (*seek)(int, off_t, int) = REAL("lseek", off_t (*)(int, off_t, int));
    off_t place = seek(fd, 0, SEEK_CUR);
    if (error != EINTR && place >= 0) {
        real(fd, from, len / 2);
        seek(fd, place, SEEK_SET);
    }
    errno = error;
    return -1;
}

__attribute__((destructor)) static void tell_count(void) {
    const char *path = getenv("CALL_COUNT");
    if (!path) return;
    int fd = syscall(SYS_openat, AT_FDCWD, path, O_WRONLY | O_CREAT | O_TRUNC, 0666);
    char text[32];
    int len = snprintf(text, sizeof text, "%ld\n", made);
    if (fd >= 0) syscall(SYS_write, fd, text, len);
}

/* The program ends by this call, which runs no destructor. */
void _exit(int status) {
    tell_count();
    syscall(SYS_exit_group, status);
    __builtin_unreachable();
}
