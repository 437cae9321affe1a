/*
 * A host that calls tidy on a file:
 *
 *     tools/build tidy
 *     cc -std=c11 -Wall -Wextra -Werror -Iinclude -o target/host examples/host.c target/staticlib/libtidy.a
 *     target/host examples/aim_check.b3
 *
 * It writes the print to standard output; or to standard error FILE:LINE:COLUMN and what the refusal means, and ends with
 * status 1. Lines and columns count from 1, columns in bytes.
 */
#include <stdio.h>

#include "tidy.h"

/* One byte more than is read, so that a longer text is refused. */
static uint8_t text[TIDY_MOST_TEXT + 1];
static uint8_t out[TIDY_MOST_PRINT];

static void explain(const char *name, size_t text_len, uint64_t answer) {
    size_t place = tidy_place_of(answer);
    size_t line = 1, column = 1;
    for (size_t i = 0; i < place && i < text_len; i++) {
        if (text[i] == '\n') {
            line++;
            column = 1;
        } else {
            column++;
        }
    }
    fprintf(stderr, "%s:%zu:%zu: %s\n", name, line, column, tidy_meaning(tidy_refusal_of(answer)));
}

int main(int argc, char **argv) {
    if (argc != 2) {
        fprintf(stderr, "usage: host FILE\n");
        return 2;
    }
    FILE *file = fopen(argv[1], "rb");
    if (file == NULL) {
        perror(argv[1]);
        return 2;
    }
    size_t text_len = fread(text, 1, sizeof text, file);
    int unread = ferror(file);
    fclose(file);
    if (unread) {
        fprintf(stderr, "%s: cannot be read\n", argv[1]);
        return 2;
    }

    uint64_t answer = tidy(text, text_len, out, sizeof out);
    if (tidy_refusal_of(answer) != TIDY_NO_REFUSAL) {
        explain(argv[1], text_len, answer);
        return 1;
    }
    size_t written = fwrite(out, 1, tidy_bytes_of(answer), stdout);
    return written == tidy_bytes_of(answer) && fflush(stdout) == 0 ? 0 : 2;
}
