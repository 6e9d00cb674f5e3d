/* JSON with exact decimals: bytes in, bytes out. See docs/other-languages.md.
 *
 * No function keeps anything between calls, so threads may call them at the same time. Memory comes from malloc and is freed before a
 * function returns.
 *
 * The caller guarantees that
 * - a length is the number of bytes at the pointer before it, which may be null if the length is 0; a result's pointer is not null;
 * - the output and the result are writable, and apart from each other and from the texts;
 * - nothing else, as another thread or a signal handler, changes a text or uses the output or the result during the call;
 * - the stack has 72 KiB left;
 * - malloc, realloc and free are one allocator, which aligns a block to each power of two up to 16 that divides its size;
 * - the call is neither in a signal handler nor in a forked child of a process with threads.
 */
#ifndef IJSON_H
#define IJSON_H

#define IJSON_VERSION_MAJOR 0
#define IJSON_VERSION_MINOR 2
#define IJSON_VERSION_PATCH 0
#define IJSON_VERSION "0.2.0"

#include <stddef.h>
#include <stdint.h>

#ifdef __cplusplus
extern "C" {
#endif

enum {
    IJSON_OK = 0,
    IJSON_NOT_UTF8 = 1,     /* a text is not UTF-8 */
    IJSON_SYNTAX = 2,       /* a text is not JSON; the offset is that of the first byte that no JSON text could have there, in an escape
                               that of its backslash, or the length if the text ends early */
    IJSON_TOO_DEEP = 3,     /* nesting deeper than 127; the offset is that of the opening bracket */
    IJSON_NUMBER_RANGE = 4, /* an exponent outside -2^30 to 2^30, without trailing zeros; the offset is that of the number */
    IJSON_MEMORY = 5,       /* an allocation failed */
    IJSON_TOO_SHORT = 6,    /* the output is too short, and unchanged; the length is the one that is needed */
    IJSON_NOT_POINTER = 7,  /* the pointer is not a JSON Pointer */
    IJSON_NOTHING = 8       /* the pointer refers to no value */
};

typedef struct {
    uint32_t status;
    uint32_t text; /* the text at fault: 0 for the first, 1 for the second */
    size_t offset; /* the byte offset of the fault, from 0 */
} ijson_outcome;

/* The seed is a random number, best chosen once for a process: with a number that an attacker knows, texts can be made whose reading takes
 * quadratic time. No result depends on it.
 *
 * The first four functions write a text to the start of the output and set *length to its length. If it does not fit, the status is
 * IJSON_TOO_SHORT; so a call with an output of length 0 returns the length that is needed. At any other failure *length is 0. At every
 * failure the output is unchanged, and after success its bytes past *length are.
 */

/* The text without white space. Members keep their order, and numbers their value and whether they have a decimal point. */
ijson_outcome ijson_compact(uint64_t seed, const uint8_t *text, size_t text_length, uint8_t *output, size_t output_length, size_t *length);

/* The canonical text: two texts have the same one exactly if their values are equal. */
ijson_outcome ijson_canonical(uint64_t seed, const uint8_t *text, size_t text_length, uint8_t *output, size_t output_length, size_t *length);

/* The compact text of the value at a JSON Pointer (RFC 6901). */
ijson_outcome ijson_get(uint64_t seed, const uint8_t *text, size_t text_length, const uint8_t *pointer, size_t pointer_length,
                        uint8_t *output, size_t output_length, size_t *length);

/* The compact text of the target after a JSON Merge Patch (RFC 7396). */
ijson_outcome ijson_merge_patch(uint64_t seed, const uint8_t *target, size_t target_length, const uint8_t *patch, size_t patch_length,
                                uint8_t *output, size_t output_length, size_t *length);

/* Sets *equal to 1 if the values are equal: numbers by value, objects in any order of members. Otherwise, also at a failure, to 0. */
ijson_outcome ijson_equal(uint64_t seed, const uint8_t *first, size_t first_length, const uint8_t *second, size_t second_length,
                          uint8_t *equal);

/* Sets *hash to a hash of hash_seed and the value, which is the same for equal values; at a failure, to 0. */
ijson_outcome ijson_hash(uint64_t seed, const uint8_t *text, size_t text_length, uint64_t hash_seed, uint64_t *hash);

#ifdef __cplusplus
}
#endif

#endif
