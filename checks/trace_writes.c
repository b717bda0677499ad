/* Notes each call that changes a log (a file whose name ends in -wal) in the file TRACE_TO: a letter, a place and a length,
   each of eight bytes, and the bytes. Preloaded by the checks here; no part of the program. */
#define _GNU_SOURCE
#include <dlfcn.h>
#include <fcntl.h>
#include <stdio.h>
#include <stdlib.h>
#include <string.h>
#include <sys/types.h>
#include <unistd.h>
#include <stdint.h>

static int out = -1;
#define NEXT(name, type) ((type)dlsym(RTLD_NEXT, name))

static int is_log(int fd) {
    char link[64], path[4096];
    snprintf(link, sizeof link, "/proc/self/fd/%d", fd);
    ssize_t n = readlink(link, path, sizeof path);
    return n > 4 && !memcmp(path + n - 4, "-wal", 4);
}

static void note(char what, uint64_t at, uint64_t count, const void *from) {
    ssize_t (*next)(int, const void *, size_t) = NEXT("write", ssize_t(*)(int, const void *, size_t));
    if (out < 0) {
        const char *to = getenv("TRACE_TO");
        if (!to) return;
        out = open(to, O_WRONLY | O_APPEND | O_CREAT, 0600);
    }
    char head[17];
    head[0] = what;
    memcpy(head + 1, &at, 8);
    memcpy(head + 9, &count, 8);
    next(out, head, 17);
    if (count) next(out, from, count);
}

ssize_t pwrite(int fd, const void *from, size_t count, off_t at) {
    ssize_t done = NEXT("pwrite", ssize_t(*)(int, const void *, size_t, off_t))(fd, from, count, at);
    if (done > 0 && is_log(fd)) note('w', at, done, from);
    return done;
}
ssize_t pwrite64(int fd, const void *from, size_t count, off_t at) { return pwrite(fd, from, count, at); }

int ftruncate(int fd, off_t size) {
    int done = NEXT("ftruncate", int (*)(int, off_t))(fd, size);
    if (!done && is_log(fd)) note('c', size, 0, NULL);
    return done;
}

int fdatasync(int fd) {
    int done = NEXT("fdatasync", int (*)(int))(fd);
    if (!done && is_log(fd)) note('s', 0, 0, NULL);
    return done;
}

int fsync(int fd) {
    int done = NEXT("fsync", int (*)(int))(fd);
    if (!done && is_log(fd)) note('s', 0, 0, NULL);
    return done;
}
