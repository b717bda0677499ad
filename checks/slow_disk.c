/* Makes each sync of a file take so many microseconds as the environment variable SYNC_US says, and no sync of the disk
   itself. Says on standard error, as the program ends, how many bytes were written to files, and how many syncs there were.
   Preloaded by `beside-a-peer`, `given-up` and `rounds`; no part of the program. */
#define _GNU_SOURCE
#include <dlfcn.h>
#include <stdio.h>
#include <stdlib.h>
#include <time.h>
#include <unistd.h>

static unsigned long bytes, syncs;

static int nap(void) {
    const char *text = getenv("SYNC_US");
    long us = text ? atol(text) : 0;
    struct timespec time = {us / 1000000, us % 1000000 * 1000};
    syncs++;
    if (us) nanosleep(&time, NULL);
    return 0;
}

int fdatasync(int file) {
    (void)file;
    return nap();
}

int fsync(int file) {
    (void)file;
    return nap();
}

#define WRITES(name, ...)                                                      \
    static ssize_t (*next)(int, const void *, size_t, ##__VA_ARGS__);          \
    if (!next) next = dlsym(RTLD_NEXT, name);

ssize_t pwrite(int file, const void *from, size_t size, off_t place) {
    WRITES("pwrite", off_t)
    ssize_t done = next(file, from, size, place);
    if (done > 0) bytes += (unsigned long)done;
    return done;
}

ssize_t pwrite64(int file, const void *from, size_t size, off64_t place) {
    WRITES("pwrite64", off64_t)
    ssize_t done = next(file, from, size, place);
    if (done > 0) bytes += (unsigned long)done;
    return done;
}

ssize_t write(int file, const void *from, size_t size) {
    WRITES("write")
    ssize_t done = next(file, from, size);
    if (done > 0 && file > 2) bytes += (unsigned long)done;
    return done;
}

__attribute__((destructor)) static void end(void) { fprintf(stderr, "bytes %lu syncs %lu\n", bytes, syncs); }
