/* Calls each function with outputs of each length in memory of exactly that length, so that a checker of memory sees a write past it, and with
 * each of its allocations failing.
 */
#include <ijson.h>

#include <assert.h>
#include <stdio.h>
#include <stdlib.h>
#include <string.h>

extern long fail_at; /* of failing.c */

struct text {
    uint8_t *bytes;
    size_t count;
};

typedef ijson_outcome writes(struct text first, struct text second, uint8_t *output, size_t room, size_t *length);

/* The bytes of a string in memory of exactly their number. */
static struct text text_of(const char *string) {
    struct text text = {NULL, strlen(string)};
    text.bytes = malloc(text.count ? text.count : 1);
    assert(text.bytes);
    memcpy(text.bytes, string, text.count);
    return text;
}

static ijson_outcome compact(struct text first, struct text second, uint8_t *output, size_t room, size_t *length) {
    (void)second;
    return ijson_compact(1, first.bytes, first.count, output, room, length);
}

static ijson_outcome canonical(struct text first, struct text second, uint8_t *output, size_t room, size_t *length) {
    (void)second;
    return ijson_canonical(1, first.bytes, first.count, output, room, length);
}

static ijson_outcome get(struct text first, struct text second, uint8_t *output, size_t room, size_t *length) {
    return ijson_get(1, first.bytes, first.count, second.bytes, second.count, output, room, length);
}

static ijson_outcome merge_patch(struct text first, struct text second, uint8_t *output, size_t room, size_t *length) {
    return ijson_merge_patch(1, first.bytes, first.count, second.bytes, second.count, output, room, length);
}

static const struct {
    writes *call;
    const char *first, *second, *want;
} WRITTEN[] = {
    {compact, " {\"b\": [1.50, 1e2], \"a\": \"\\u00e9 and a string of more than three times sixteen bytes\"} ", "",
     "{\"b\":[1.5,100.0],\"a\":\"\xc3\xa9 and a string of more than three times sixteen bytes\"}"},
    {canonical, "{\"b\":2.0,\"a\":[10,0.0]}", "", "{\"a\":[1e1,0],\"b\":2e0}"},
    {get, "{\"a\":[{\"b\":[true, 12345678901234567890]}]}", "/a/0/b", "[true,12345678901234567890]"},
    {merge_patch, "{\"a\":1,\"b\":{\"c\":2}}", "{\"a\":null,\"b\":{\"d\":\"e\"}}", "{\"b\":{\"c\":2,\"d\":\"e\"}}"},
};

#define EIGHT "[[[[[[[["
#define NESTED EIGHT EIGHT EIGHT EIGHT EIGHT EIGHT EIGHT EIGHT EIGHT EIGHT EIGHT EIGHT EIGHT EIGHT EIGHT EIGHT

/* A value that owns memory. */
#define OWNER "{\"a\":[\"a string of more than 7 bytes\",1234567890123456789012345678901234567890]}"

static const struct {
    writes *call;
    const char *first, *second;
    ijson_outcome want;
} REFUSED[] = {
    {compact, "[\"\xff\"]", "", {IJSON_NOT_UTF8, 0, 0}},
    {compact, "", "", {IJSON_SYNTAX, 0, 0}},
    {canonical, "[1e2000000000]", "", {IJSON_NUMBER_RANGE, 0, 1}},
    {get, "[]", "/0", {IJSON_NOTHING, 0, 0}},
    {get, "[]", "0", {IJSON_NOT_POINTER, 0, 0}},
    {merge_patch, "{}", "[1,", {IJSON_SYNTAX, 1, 3}},
    {merge_patch, OWNER, "[\"a string of more than 7 bytes\",]", {IJSON_SYNTAX, 1, 33}},
    {get, OWNER, "/b", {IJSON_NOTHING, 0, 0}},
    {get, OWNER, "b", {IJSON_NOT_POINTER, 0, 0}},
    {get, OWNER, "/\xff", {IJSON_NOT_POINTER, 0, 0}},
    {canonical, "[\"a string of more than 7 bytes\",\"another one of more\" 1]", "", {IJSON_SYNTAX, 0, 55}},
    {compact, "[\"a string of more than 7 bytes\"," NESTED, "", {IJSON_TOO_DEEP, 0, 159}},
    {merge_patch, OWNER, "{\"another one of more\":[\"a string of more than 7 bytes\",1e2000000000]}", {IJSON_NUMBER_RANGE, 1, 56}},
};

/* Texts of which ijson_equal reports one, and ijson_hash the first. */
static const struct {
    const char *first, *second;
    ijson_outcome want;
} NOT_COMPARED[] = {
    {OWNER, "[\"a string of more than 7 bytes\"", {IJSON_SYNTAX, 1, 32}},
    {OWNER, "\"\xff\"", {IJSON_NOT_UTF8, 1, 0}},
    {"[\"a string of more than 7 bytes\"," NESTED, OWNER, {IJSON_TOO_DEEP, 0, 159}},
    {"[" OWNER ",1e2000000000]", "", {IJSON_NUMBER_RANGE, 0, 82}},
};

static int is_outcome(ijson_outcome got, ijson_outcome want) {
    return got.status == want.status && got.text == want.text && got.offset == want.offset;
}

static void is_written(writes *call, struct text first, struct text second, const char *want) {
    size_t need = strlen(want);
    for (size_t room = 0; room <= need + 1; room++) {
        size_t length = 1000;
        uint8_t *output = malloc(room ? room : 1);
        assert(output);
        ijson_outcome outcome = call(first, second, output, room, &length);
        assert(length == need && outcome.status == (room < need ? IJSON_TOO_SHORT : IJSON_OK));
        assert(room < need || memcmp(output, want, need) == 0);
        free(output);
    }
}

static void is_refused(writes *call, struct text first, struct text second, ijson_outcome want) {
    uint8_t output[8], before[8];
    size_t length = 1000;
    memset(output, 0xa5, sizeof output);
    memcpy(before, output, sizeof before);
    ijson_outcome got = call(first, second, output, sizeof output, &length);
    assert(is_outcome(got, want) && length == 0);
    assert(memcmp(output, before, sizeof output) == 0);
}

/* Fails each allocation of a call in turn, and returns how many it makes. A list that cannot be shrunk is kept as it is. */
static long is_refused_memory(writes *call, struct text first, struct text second, const char *want) {
    for (long at = 1;; at++) {
        uint8_t output[200];
        size_t length = 1000;
        fail_at = at;
        ijson_outcome outcome = call(first, second, output, sizeof output, &length), memory = {IJSON_MEMORY, 0, 0};
        int is_written = outcome.status == IJSON_OK && length == strlen(want) && memcmp(output, want, length) == 0;
        if (fail_at > 0) {
            fail_at = 0;
            assert(is_written);
            return at - 1;
        }
        assert(is_written || (is_outcome(outcome, memory) && length == 0));
    }
}

static void are_not_compared(struct text first, struct text second, ijson_outcome want) {
    uint8_t equal = 7;
    uint64_t hash = 7;
    assert(is_outcome(ijson_equal(1, first.bytes, first.count, second.bytes, second.count, &equal), want) && equal == 0);
    if (want.text == 0) {
        assert(is_outcome(ijson_hash(1, first.bytes, first.count, 1, &hash), want) && hash == 0);
    }
}

/* Like is_refused_memory, for ijson_equal of a text with itself and ijson_hash. */
static long numbers_are_refused_memory(struct text text) {
    uint64_t want = 0;
    assert(ijson_hash(1, text.bytes, text.count, 1, &want).status == IJSON_OK);
    for (long at = 1;; at++) {
        uint8_t equal = 7;
        uint64_t hash = 7;
        fail_at = at;
        ijson_outcome outcome = ijson_hash(1, text.bytes, text.count, 1, &hash);
        assert(outcome.status == IJSON_OK ? hash == want : outcome.status == IJSON_MEMORY && hash == 0);
        fail_at = at;
        outcome = ijson_equal(1, text.bytes, text.count, text.bytes, text.count, &equal);
        assert(outcome.status == IJSON_OK ? equal == 1 : outcome.status == IJSON_MEMORY && equal == 0);
        if (fail_at > 0) {
            fail_at = 0;
            return at - 1;
        }
    }
}

static void are_compared(const char *a, const char *b, uint8_t want) {
    struct text first = text_of(a), second = text_of(b);
    uint8_t equal = 7;
    assert(ijson_equal(1, first.bytes, first.count, second.bytes, second.count, &equal).status == IJSON_OK && equal == want);
    uint64_t hash = 0, other = 0;
    assert(ijson_hash(1, first.bytes, first.count, 1, &hash).status == IJSON_OK);
    assert(ijson_hash(2, second.bytes, second.count, 1, &other).status == IJSON_OK && (hash == other) == want);
    assert(ijson_hash(1, first.bytes, first.count, 2, &other).status == IJSON_OK && hash != other);
    free(first.bytes);
    free(second.bytes);
}

/* Returns an object of `count` members, in reverse order if it is turned. The caller frees it. */
static struct text large_object(int count, int is_turned) {
    struct text text = {malloc(count * 40 + 2), 0};
    assert(text.bytes);
    for (int at = 0; at < count; at++) {
        int key = is_turned ? count - 1 - at : at;
        text.count += sprintf((char *)text.bytes + text.count, "%c\"a key of more than 7 bytes %d\":%d", at ? ',' : '{', key, key);
    }
    text.bytes[text.count++] = '}';
    return text;
}

static void large_objects_are_compared(void) {
    struct text one = large_object(200, 0), turned = large_object(200, 1), less = large_object(199, 0);
    uint8_t equal = 7;
    assert(ijson_equal(1, one.bytes, one.count, turned.bytes, turned.count, &equal).status == IJSON_OK && equal == 1);
    assert(ijson_equal(1, one.bytes, one.count, less.bytes, less.count, &equal).status == IJSON_OK && equal == 0);
    assert(numbers_are_refused_memory(turned) > 200);
    free(one.bytes);
    free(turned.bytes);
    free(less.bytes);
}

/* A text, a pointer or an output of no bytes may be null. */
static void null_is_empty(void) {
    struct text one = text_of("[1]");
    ijson_outcome early = {IJSON_SYNTAX, 0, 0}, second_early = {IJSON_SYNTAX, 1, 0}, done = {IJSON_OK, 0, 0};
    size_t length = 1000;
    uint8_t equal = 7, output[3];
    uint64_t hash = 7;
    assert(is_outcome(ijson_compact(1, NULL, 0, NULL, 0, &length), early) && length == 0);
    assert(is_outcome(ijson_canonical(1, NULL, 0, NULL, 0, &length), early) && length == 0);
    assert(is_outcome(ijson_get(1, one.bytes, one.count, NULL, 0, output, sizeof output, &length), done) && length == 3);
    assert(ijson_compact(1, one.bytes, one.count, NULL, 0, &length).status == IJSON_TOO_SHORT && length == 3);
    assert(is_outcome(ijson_merge_patch(1, one.bytes, one.count, NULL, 0, NULL, 0, &length), second_early) && length == 0);
    assert(is_outcome(ijson_equal(1, NULL, 0, NULL, 0, &equal), early) && equal == 0);
    assert(is_outcome(ijson_hash(1, NULL, 0, 1, &hash), early) && hash == 0);
    free(one.bytes);
}

int main(void) {
    for (size_t i = 0; i < sizeof WRITTEN / sizeof *WRITTEN; i++) {
        struct text first = text_of(WRITTEN[i].first), second = text_of(WRITTEN[i].second);
        is_written(WRITTEN[i].call, first, second, WRITTEN[i].want);
        assert(is_refused_memory(WRITTEN[i].call, first, second, WRITTEN[i].want) > 3);
        free(first.bytes);
        free(second.bytes);
    }
    for (size_t i = 0; i < sizeof REFUSED / sizeof *REFUSED; i++) {
        struct text first = text_of(REFUSED[i].first), second = text_of(REFUSED[i].second);
        is_refused(REFUSED[i].call, first, second, REFUSED[i].want);
        free(first.bytes);
        free(second.bytes);
    }
    for (size_t i = 0; i < sizeof NOT_COMPARED / sizeof *NOT_COMPARED; i++) {
        struct text first = text_of(NOT_COMPARED[i].first), second = text_of(NOT_COMPARED[i].second);
        are_not_compared(first, second, NOT_COMPARED[i].want);
        free(first.bytes);
        free(second.bytes);
    }
    large_objects_are_compared();
    null_is_empty();
    struct text owner = text_of(OWNER);
    assert(numbers_are_refused_memory(owner) > 6);
    free(owner.bytes);
    are_compared("{\"a\":1,\"b\":[\"a string of more than 7 bytes\"]}", "{\"b\":[\"a string of more than 7 bytes\"],\"a\":1e0}", 1);
    are_compared("[1.0]", "[2]", 0);
    puts("ok");
    return 0;
}
