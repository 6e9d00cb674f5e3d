/* Linked in the place of the library: each text has a compact text of 2^32 + 5 bytes, all zero, whose memory is never touched. */
#include <ijson.h>

ijson_outcome ijson_compact(uint64_t seed, const uint8_t *text, size_t text_length, uint8_t *output, size_t output_length, size_t *length) {
    (void)seed, (void)text, (void)text_length, (void)output;
    *length = ((size_t)1 << 32) + 5;
    return (ijson_outcome){output_length < *length ? IJSON_TOO_SHORT : IJSON_OK, 0, 0};
}
