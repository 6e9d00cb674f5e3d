/* Prints how many bytes of stack each function takes at most for texts of the deepest nesting. The status is 1 if one takes more than STATED,
 * which ijson.h and docs/other-languages.md state.
 */
#define _GNU_SOURCE /* for pthread_attr_setstack */
#include <ijson.h>

#include <assert.h>
#include <pthread.h>
#include <stdio.h>
#include <stdlib.h>
#include <string.h>

enum { DEPTH = 127, ROOM = 1 << 20, STATED = 72 << 10, UNUSED = 0xa5, OUTPUT = 1 << 17 };

static const char *const NAMES[] = {"none", "compact", "canonical", "get", "merge_patch", "equal", "hash"};
enum { FUNCTIONS = sizeof NAMES / sizeof *NAMES };

struct call {
    size_t function;
    const uint8_t *text;
    size_t count;
    uint8_t *output;
};

static void *made(void *given) {
    struct call *call = given;
    const uint8_t *text = call->text;
    uint64_t hash;
    uint8_t equal;
    size_t count = call->count, length;
    ijson_outcome outcome = {IJSON_OK, 0, 0};
    switch (call->function) {
    case 1: outcome = ijson_compact(1, text, count, call->output, OUTPUT, &length); break;
    case 2: outcome = ijson_canonical(1, text, count, call->output, OUTPUT, &length); break;
    case 3: outcome = ijson_get(1, text, count, text, 0, call->output, OUTPUT, &length); break;
    case 4: outcome = ijson_merge_patch(1, text, count, text, count, call->output, OUTPUT, &length); break;
    case 5: outcome = ijson_equal(1, text, count, text, count, &equal); break;
    case 6: outcome = ijson_hash(1, text, count, 1, &hash); break;
    }
    return outcome.status == IJSON_OK ? given : NULL;
}

/* Returns how many bytes of its stack a thread with the call has written. */
static size_t used(struct call call) {
    uint8_t *stack = aligned_alloc(4096, ROOM);
    pthread_attr_t attributes;
    pthread_t thread;
    void *result;
    assert(stack && !pthread_attr_init(&attributes) && !pthread_attr_setstack(&attributes, stack, ROOM));
    memset(stack, UNUSED, ROOM);
    assert(!pthread_create(&thread, &attributes, made, &call) && !pthread_join(thread, &result) && result);
    size_t free_bytes = 0;
    while (stack[free_bytes] == UNUSED) {
        free_bytes++;
    }
    free(stack);
    return ROOM - free_bytes;
}

/* Returns a text of containers of the deepest nesting around a value; the caller frees it. */
static char *nested(const char *opening, const char *inner, char closing) {
    size_t opening_count = strlen(opening), inner_count = strlen(inner);
    char *text = malloc((DEPTH - 1) * (opening_count + 1) + inner_count + 1);
    assert(text);
    for (size_t level = 0; level < DEPTH - 1; level++) {
        memcpy(text + level * opening_count, opening, opening_count);
    }
    memcpy(text + (DEPTH - 1) * opening_count, inner, inner_count + 1);
    memset(text + (DEPTH - 1) * opening_count + inner_count, closing, DEPTH - 1);
    text[(DEPTH - 1) * (opening_count + 1) + inner_count] = 0;
    return text;
}

/* Returns an object of more members than ijson_equal looks up by key; the caller frees it. */
static char *large_object(void) {
    char *text = malloc(1000 * 40);
    assert(text);
    size_t count = 0;
    for (int member = 999; member >= 0; member--) {
        count += sprintf(text + count, "%s\"a key, as long as others, %d\":%d", count ? "," : "{", member, member);
    }
    strcpy(text + count, "}");
    return text;
}

/* Returns an object of more members than ijson_merge_patch looks up by key, up to the value of its last; the caller frees it. */
static char *wide_opening(void) {
    char *text = malloc(40 * 10 + 10);
    assert(text);
    size_t count = 0;
    for (int member = 0; member < 40; member++) {
        count += sprintf(text + count, "%s\"%d\":%d", count ? "," : "{", member, member);
    }
    strcpy(text + count, ",\"key\":");
    return text;
}

int main(void) {
    char *large = large_object(), *wide = wide_opening();
    char *texts[] = {
        nested("[", "[1.5e300]", ']'),
        nested("{\"\\u0061\":", "{\"b\":0.0000000000000000000000000000000000000000123456789012345678901234567890}", '}'),
        nested("[", large, ']'),
        nested("{\"key\":", large, '}'),
        nested(wide, large, '}'),
    };
    uint8_t *output = malloc(OUTPUT);
    size_t most[FUNCTIONS] = {0}, status = 0;
    for (size_t text = 0; text < sizeof texts / sizeof *texts; text++) {
        for (size_t function = 0; function < FUNCTIONS; function++) {
            struct call call = {function, (const uint8_t *)texts[text], strlen(texts[text]), output};
            size_t bytes = used(call);
            most[function] = bytes > most[function] ? bytes : most[function];
        }
        free(texts[text]);
    }
    for (size_t function = 1; function < FUNCTIONS; function++) {
        size_t bytes = most[function] - most[0];
        printf("%s %zu\n", NAMES[function], bytes);
        status |= bytes > STATED;
    }
    free(large);
    free(wide);
    free(output);
    return (int)status;
}
