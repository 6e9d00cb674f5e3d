/* Linked with a program by --wrap: of its calls of malloc, realloc, fread, fwrite, fflush and getentropy, the one that fail_at counts from now
 * fails; 0 for none. The environment variable FAIL_AT sets it at the start.
 */
#include <stdio.h>
#include <stdlib.h>

long fail_at;
static int read_failed;

__attribute__((constructor)) static void read_environment(void) {
    const char *at = getenv("FAIL_AT");
    fail_at = at ? atol(at) : 0;
}

static int fails(void) {
    return fail_at > 0 && --fail_at == 0;
}

void *__real_malloc(size_t size);
void *__real_realloc(void *block, size_t size);
size_t __real_fread(void *bytes, size_t size, size_t count, FILE *file);
size_t __real_fwrite(const void *bytes, size_t size, size_t count, FILE *file);
int __real_ferror(FILE *file);
int __real_fflush(FILE *file);
int __real_getentropy(void *bytes, size_t size);

void *__wrap_malloc(size_t size) {
    return fails() ? NULL : __real_malloc(size);
}

void *__wrap_realloc(void *block, size_t size) {
    return fails() ? NULL : __real_realloc(block, size);
}

/* The bytes before the failure are read. */
size_t __wrap_fread(void *bytes, size_t size, size_t count, FILE *file) {
    read_failed = fails();
    return __real_fread(bytes, size, read_failed ? count / 2 : count, file);
}

int __wrap_ferror(FILE *file) {
    return read_failed || __real_ferror(file);
}

size_t __wrap_fwrite(const void *bytes, size_t size, size_t count, FILE *file) {
    return fails() ? 0 : __real_fwrite(bytes, size, count, file);
}

int __wrap_fflush(FILE *file) {
    return fails() ? EOF : __real_fflush(file);
}

int __wrap_getentropy(void *bytes, size_t size) {
    return fails() ? -1 : __real_getentropy(bytes, size);
}
