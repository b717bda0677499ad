/* Makes standard input one that gives one byte at each read, at once, and asks the system for nothing: the text in
   the environment variable TEXT over and over, as many bytes as the number in BYTES, and then the end. Says on
   standard error, as the program ends, how many reads of standard input there were. Preloaded by `program`; no part
   of the program. */
#define _GNU_SOURCE
#include <dlfcn.h>
#include <stdio.h>
#include <stdlib.h>
#include <string.h>
#include <unistd.h>

static const char *text = "";
static unsigned long reads, bytes, length, place;

__attribute__((constructor)) static void begin(void) {
    const char *count = getenv("BYTES");
    bytes = count ? strtoul(count, NULL, 10) : 0;
    if (getenv("TEXT")) text = getenv("TEXT");
    length = strlen(text);
}

ssize_t read(int from, void *to, size_t size) {
    static ssize_t (*next)(int, void *, size_t);
    if (from == STDIN_FILENO && size > 0) {
        if (++reads > bytes || length == 0) return 0;
        *(char *)to = text[place];
        place = place + 1 == length ? 0 : place + 1;
        return 1;
    }
    if (!next) next = dlsym(RTLD_NEXT, "read");
    return next(from, to, size);
}

__attribute__((destructor)) static void end(void) { fprintf(stderr, "reads %lu\n", reads); }
