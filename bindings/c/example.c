/* Prints the compact text of standard input and a line feed, or a line on standard error. The status is 0; 1 if the text is wrong, 2 if it
 * cannot be read or written or there is no seed, 3 if memory runs out.
 *
 * cc example.c $(pkg-config --cflags --libs ijson) -o example
 */
#define _DEFAULT_SOURCE /* for getentropy */
#include <ijson.h>

#include <stdio.h>
#include <stdlib.h>
#include <unistd.h>

enum { DONE, WRONG, BROKEN, MEMORY };

static int failed(int status, const char *line) {
    fprintf(stderr, "example: %s\n", line);
    return status;
}

/* Reads a file to its end. The caller frees the bytes, also if this fails. */
static int read_all(FILE *file, uint8_t **bytes, size_t *length) {
    size_t room = 4096;
    *length = 0;
    *bytes = malloc(room);
    if (!*bytes) {
        return failed(MEMORY, "out of memory");
    }
    for (;;) {
        *length += fread(*bytes + *length, 1, room - *length, file);
        if (*length < room) {
            return ferror(file) ? failed(BROKEN, "cannot read") : DONE;
        }
        uint8_t *more = room > SIZE_MAX / 2 ? NULL : realloc(*bytes, room * 2);
        if (!more) {
            return failed(MEMORY, "out of memory");
        }
        *bytes = more;
        room *= 2;
    }
}

static int print(const uint8_t *line, size_t length) {
    return fwrite(line, 1, length, stdout) < length || fflush(stdout) ? failed(BROKEN, "cannot write") : DONE;
}

/* Prints the compact text. An output as long as the text is enough, unless a number is written with more digits. */
static int print_compact(uint64_t seed, const uint8_t *text, size_t text_length) {
    size_t room = text_length, length;
    for (;;) {
        uint8_t *output = malloc(room + 1); /* with the line feed */
        if (!output) {
            return failed(MEMORY, "out of memory");
        }
        ijson_outcome outcome = ijson_compact(seed, text, text_length, output, room, &length);
        int status = DONE;
        if (outcome.status == IJSON_OK) {
            output[length] = '\n';
            status = print(output, length + 1);
        } else if (outcome.status == IJSON_MEMORY) {
            status = failed(MEMORY, "out of memory");
        } else if (outcome.status != IJSON_TOO_SHORT) {
            fprintf(stderr, "example: status %u at byte %zu\n", (unsigned)outcome.status, outcome.offset);
            status = WRONG;
        }
        free(output);
        if (outcome.status != IJSON_TOO_SHORT) {
            return status;
        }
        room = length;
    }
}

int main(void) {
    uint64_t seed; /* random, so that no text can be made for it */
    if (getentropy(&seed, sizeof seed)) {
        return failed(BROKEN, "no seed");
    }
    uint8_t *text;
    size_t length;
    int status = read_all(stdin, &text, &length);
    if (status == DONE) {
        status = print_compact(seed, text, length);
    }
    free(text);
    return status;
}
