/* Ends a program with one thread at one of its calls that change what is outside it, as if it were killed there: the
   Nth call, counted from 1, of write, pwrite, ftruncate, fsync, fdatasync, fchmod, flock, link, rename, unlink, or open
   with O_CREAT, N being the number in the environment variable STOP_AT; none where it is 0 or isn't there. By STOP_HOW it
   ends `before` that call, `after` it, or behind the first `half` of its bytes, where it has bytes, and else after it; by
   `hold` it is stopped before that call by SIGSTOP, and goes on once it gets SIGCONT. Each
   other call is the C library's. Where the program ends by itself it says on standard error how many such calls there
   were. Preloaded by the checks here; no part of the program. */
#define _GNU_SOURCE
#include <dlfcn.h>
#include <fcntl.h>
#include <signal.h>
#include <stdarg.h>
#include <stdio.h>
#include <stdlib.h>
#include <string.h>
#include <sys/types.h>
#include <unistd.h>

static unsigned long calls, stop_at;
static int is_half, is_after, is_held;

__attribute__((constructor)) static void begin(void) {
    const char *at = getenv("STOP_AT"), *how = getenv("STOP_HOW");
    stop_at = at ? strtoul(at, NULL, 10) : 0;
    is_half = how && !strcmp(how, "half");
    is_after = is_half || (how && !strcmp(how, "after"));
    is_held = how && !strcmp(how, "hold");
    calls = 0;
}

__attribute__((destructor)) static void end(void) { fprintf(stderr, "%lu calls\n", calls); }

/* Whether this call is the one, where it isn't to be made. */
static int is_stop(void) {
    if (++calls != stop_at) return 0;
    if (is_held) return raise(SIGSTOP);
    if (!is_after) raise(SIGKILL);
    return 1;
}

#define NEXT(name, type) ((type)dlsym(RTLD_NEXT, name))
#define MADE(type, call)                                                                                               \
    int stops = is_stop();                                                                                             \
    type answer = call;                                                                                                \
    if (stops) raise(SIGKILL);                                                                                         \
    return answer

static size_t part(int stops, size_t count) { return stops && is_half ? count / 2 : count; }

ssize_t write(int fd, const void *from, size_t count) {
    MADE(ssize_t, NEXT("write", ssize_t(*)(int, const void *, size_t))(fd, from, part(stops, count)));
}

ssize_t __write(int fd, const void *from, size_t count) { return write(fd, from, count); }

ssize_t pwrite(int fd, const void *from, size_t count, off_t at) {
    MADE(ssize_t, NEXT("pwrite", ssize_t(*)(int, const void *, size_t, off_t))(fd, from, part(stops, count), at));
}

int ftruncate(int fd, off_t size) { MADE(int, NEXT("ftruncate", int (*)(int, off_t))(fd, size)); }

int fsync(int fd) { MADE(int, NEXT("fsync", int (*)(int))(fd)); }

int fdatasync(int fd) { MADE(int, NEXT("fdatasync", int (*)(int))(fd)); }

int fchmod(int fd, mode_t mode) { MADE(int, NEXT("fchmod", int (*)(int, mode_t))(fd, mode)); }

int flock(int fd, int how) { MADE(int, NEXT("flock", int (*)(int, int))(fd, how)); }

int link(const char *from, const char *to) { MADE(int, NEXT("link", int (*)(const char *, const char *))(from, to)); }

int rename(const char *from, const char *to) { MADE(int, NEXT("rename", int (*)(const char *, const char *))(from, to)); }

int unlink(const char *path) { MADE(int, NEXT("unlink", int (*)(const char *))(path)); }

int open(const char *path, int flags, ...) {
    va_list more;
    va_start(more, flags);
    mode_t mode = flags & O_CREAT ? va_arg(more, mode_t) : 0;
    va_end(more);
    int (*next)(const char *, int, ...) = NEXT("open", int (*)(const char *, int, ...));
    if (!(flags & O_CREAT)) return next(path, flags, mode);
    MADE(int, next(path, flags, mode));
}
