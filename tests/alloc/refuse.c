/* Counts the allocations of one run, and fails one of them.
 *
 * So no type needs a parameter for the sake of tests, and without this library the marks of a test do nothing.
 * Loaded before the C library (LD_PRELOAD), it returns null for the allocation with the number in REFUSE_AT, from 1 (none if it is unset
 * or 0). A test counts the allocations of a call between two marks, which are allocations of certain sizes and are not counted themselves:
 * `begin_count` and `end_count` in crates/ijson/src/tests/support.rt. At the end of the run it writes to the file in REFUSE_REPORT the number
 * of allocations, of blocks that are still allocated, of counts between marks, and of those that differ from what the test expects; then,
 * if one differs, what the first of these expects and how many allocations it made. */
#define _GNU_SOURCE
#include <dlfcn.h>
#include <errno.h>
#include <stdatomic.h>
#include <stdio.h>
#include <stdlib.h>

/* The sizes of the marks: the second one plus the number of allocations that is expected, up to 255. */
#define COUNT_BEGINS 1234567
#define COUNT_ENDS 1300000

static atomic_ulong requests;
static atomic_long held;
static unsigned long refuse_at;
static long began, counts, differing, first_expected, first_made;
static void *(*next_malloc)(size_t);
static void *(*next_calloc)(size_t, size_t);
static void *(*next_aligned_alloc)(size_t, size_t);
static void *(*next_realloc)(void *, size_t);
static void (*next_free)(void *);

__attribute__((constructor)) static void begin(void) {
    next_malloc = (void *(*)(size_t))dlsym(RTLD_NEXT, "malloc");
    next_calloc = (void *(*)(size_t, size_t))dlsym(RTLD_NEXT, "calloc");
    next_aligned_alloc = (void *(*)(size_t, size_t))dlsym(RTLD_NEXT, "aligned_alloc");
    next_realloc = (void *(*)(void *, size_t))dlsym(RTLD_NEXT, "realloc");
    next_free = (void (*)(void *))dlsym(RTLD_NEXT, "free");
    const char *at = getenv("REFUSE_AT");
    refuse_at = at ? strtoul(at, NULL, 10) : 0;
    atomic_store(&requests, 0);
    atomic_store(&held, 0);
}

/* Notes a mark. Returns 0 for any other size. */
static int is_mark(size_t size) {
    long before = atomic_load(&requests);
    if (size == COUNT_BEGINS) {
        began = before;
        return 1;
    }
    if (size < COUNT_ENDS || size > COUNT_ENDS + 255) return 0;
    counts++;
    if (before - began != (long)(size - COUNT_ENDS) && differing++ == 0) {
        first_expected = size - COUNT_ENDS;
        first_made = before - began;
    }
    return 1;
}

static int refused(size_t size) {
    if (is_mark(size) || atomic_fetch_add(&requests, 1) + 1 != refuse_at) return 0;
    errno = ENOMEM;
    return 1;
}

void *malloc(size_t size) {
    if (!next_malloc) next_malloc = (void *(*)(size_t))dlsym(RTLD_NEXT, "malloc");
    void *granted = refused(size) ? NULL : next_malloc(size);
    if (granted) atomic_fetch_add(&held, 1);
    return granted;
}

void *calloc(size_t count, size_t size) {
    if (!next_calloc) next_calloc = (void *(*)(size_t, size_t))dlsym(RTLD_NEXT, "calloc");
    void *granted = refused(count * size) ? NULL : next_calloc(count, size);
    if (granted) atomic_fetch_add(&held, 1);
    return granted;
}

void *aligned_alloc(size_t alignment, size_t size) {
    if (!next_aligned_alloc) next_aligned_alloc = (void *(*)(size_t, size_t))dlsym(RTLD_NEXT, "aligned_alloc");
    void *granted = refused(size) ? NULL : next_aligned_alloc(alignment, size);
    if (granted) atomic_fetch_add(&held, 1);
    return granted;
}

void *realloc(void *block, size_t size) {
    if (!next_realloc) next_realloc = (void *(*)(void *, size_t))dlsym(RTLD_NEXT, "realloc");
    void *granted = refused(size) ? NULL : next_realloc(block, size);
    if (granted && !block) atomic_fetch_add(&held, 1);
    return granted;
}

void free(void *block) {
    if (!next_free) next_free = (void (*)(void *))dlsym(RTLD_NEXT, "free");
    if (block) atomic_fetch_sub(&held, 1);
    next_free(block);
}

__attribute__((destructor)) static void end(void) {
    long made = atomic_load(&requests);
    long left = atomic_load(&held);
    refuse_at = 0;
    const char *name = getenv("REFUSE_REPORT");
    FILE *file = name ? fopen(name, "w") : NULL;
    if (!file) return;
    fprintf(file, "%ld %ld %ld %ld %ld %ld\n", made, left, counts, differing, first_expected, first_made);
    fclose(file);
}
