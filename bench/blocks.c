/* Counts the allocations of a program between its first two readings of the clock.
 *
 * Loaded before the C library (LD_PRELOAD), it writes to the file in BLOCKS the numbers of allocations, reallocations and frees in that time,
 * the growth of live bytes, and the most by which they had grown. Bytes are as malloc rounds them, with its word before each block. */
#define _GNU_SOURCE
#include <dlfcn.h>
#include <malloc.h>
#include <stdio.h>
#include <stdlib.h>
#include <time.h>

static int looks;
static long asked, resized, given_back, bytes, most;
static void *(*next_malloc)(size_t);
static void *(*next_realloc)(void *, size_t);
static void (*next_free)(void *);
static int (*next_clock_gettime)(clockid_t, struct timespec *);

__attribute__((constructor)) static void begin(void) {
    next_malloc = (void *(*)(size_t))dlsym(RTLD_NEXT, "malloc");
    next_realloc = (void *(*)(void *, size_t))dlsym(RTLD_NEXT, "realloc");
    next_free = (void (*)(void *))dlsym(RTLD_NEXT, "free");
    next_clock_gettime = (int (*)(clockid_t, struct timespec *))dlsym(RTLD_NEXT, "clock_gettime");
}

static int counts(void) { return looks == 1; }

static void grow(long more) {
    bytes += more;
    if (bytes > most) most = bytes;
}

static long taken(void *block) { return block ? (long)(malloc_usable_size(block) + sizeof(size_t)) : 0; }

void *malloc(size_t size) {
    if (!next_malloc) begin();
    void *granted = next_malloc(size);
    if (counts() && granted) {
        asked++;
        grow(taken(granted));
    }
    return granted;
}

void *realloc(void *block, size_t size) {
    if (!next_realloc) begin();
    long before = taken(block);
    void *granted = next_realloc(block, size);
    if (counts() && granted) {
        if (block) resized++;
        else asked++;
        grow(taken(granted) - before);
    }
    return granted;
}

void free(void *block) {
    if (!next_free) begin();
    if (counts() && block) {
        given_back++;
        bytes -= taken(block);
    }
    next_free(block);
}

int clock_gettime(clockid_t clock, struct timespec *now) {
    if (!next_clock_gettime) begin();
    looks++;
    return next_clock_gettime(clock, now);
}

__attribute__((destructor)) static void end(void) {
    const char *name = getenv("BLOCKS");
    FILE *file = name ? fopen(name, "w") : NULL;
    if (!file) return;
    fprintf(file, "%ld %ld %ld %ld %ld\n", asked, resized, given_back, bytes, most);
    fclose(file);
}
