/* Refuses one growth of a program with one thread: the Nth call, counted from 1, of malloc, calloc, realloc,
   aligned_alloc or posix_memalign, N being the number in the environment variable REFUSE_GROWTH; none where it
   is 0 or isn't there. The refused call answers NULL with errno ENOMEM (posix_memalign answers ENOMEM), and a
   block that was to be moved stays as it is. Each other call is the C library's. Says on standard error, as the
   program ends, how many calls there were, the refused one among them. Calls before the program's start, and
   memory that is had by another way (memalign, mmap), aren't counted. Preloaded by the checks here; no part of
   the program. */
#define _GNU_SOURCE
#include <dlfcn.h>
#include <errno.h>
#include <stdio.h>
#include <stdlib.h>

static unsigned long calls, refused;

/* Blocks of zeros for a calloc that dlsym itself may ask for, before it has found the C library's. */
static char early[4096];
static size_t early_used;

static void *(*next_malloc)(size_t);
static void *(*next_calloc)(size_t, size_t);
static void *(*next_realloc)(void *, size_t);
static void *(*next_aligned_alloc)(size_t, size_t);
static int (*next_posix_memalign)(void **, size_t, size_t);

static void find_next(void) {
    static int is_finding;
    if (is_finding) return;
    is_finding = 1;
    next_malloc = dlsym(RTLD_NEXT, "malloc");
    next_calloc = dlsym(RTLD_NEXT, "calloc");
    next_realloc = dlsym(RTLD_NEXT, "realloc");
    next_aligned_alloc = dlsym(RTLD_NEXT, "aligned_alloc");
    next_posix_memalign = dlsym(RTLD_NEXT, "posix_memalign");
}

__attribute__((constructor)) static void begin(void) {
    const char *at = getenv("REFUSE_GROWTH");
    refused = at ? strtoul(at, NULL, 10) : 0;
    find_next();
    calls = 0;
}

static int is_refused(void) {
    if (++calls != refused) return 0;
    errno = ENOMEM;
    return 1;
}

static void *early_block(size_t count, size_t size) {
    size_t bytes = (count * size + 15) / 16 * 16;
    if (bytes > sizeof early - early_used) return NULL;
    early_used += bytes;
    return early + early_used - bytes;
}

void *malloc(size_t size) {
    if (!next_malloc) find_next();
    return is_refused() ? NULL : next_malloc(size);
}

void *calloc(size_t count, size_t size) {
    if (!next_calloc) find_next();
    if (!next_calloc) return early_block(count, size);
    return is_refused() ? NULL : next_calloc(count, size);
}

void *realloc(void *old, size_t size) {
    if (!next_realloc) find_next();
    return is_refused() ? NULL : next_realloc(old, size);
}

void *aligned_alloc(size_t align, size_t size) {
    if (!next_aligned_alloc) find_next();
    return is_refused() ? NULL : next_aligned_alloc(align, size);
}

int posix_memalign(void **to, size_t align, size_t size) {
    if (!next_posix_memalign) find_next();
    return is_refused() ? ENOMEM : next_posix_memalign(to, align, size);
}

__attribute__((destructor)) static void end(void) { fprintf(stderr, "growths %lu\n", calls); }
