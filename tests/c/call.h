/* A call of tidy between unreadable pages and guard bytes, compared with what is expected of it. */
#ifndef CALL_H
#define CALL_H

#include <stdbool.h>
#include <stddef.h>
#include <stdint.h>

struct bytes {
    const uint8_t *at;
    size_t len;
};

/* A refusal with its place, or, where `refusal` is 0, a print. */
struct expected {
    uint32_t refusal;
    size_t place;
    struct bytes print;
};

/* Memory for a text and an output, each between two pages that no access passes. */
struct memory {
    uint8_t *text;
    uint8_t *out;
};

/* Where a slice stands: right after the page before it, or right before the page after it. */
enum side { AT_START, AT_END };

struct memory memory_new(void);

/*
 * Calls tidy with an output of out_len bytes, both slices at the same side. Where the print is longer than the output, refusal 8
 * is expected. Sees that the answer and the print are the expected ones, that later bytes of the output, on a refusal all of
 * them, and all bytes outside it are as they were, and that the text is. Writes what is wrong to standard error, under `name`.
 */
bool call_holds(struct memory memory, const char *name, struct bytes text, size_t out_len, enum side side, struct expected expected);

/* The same at both sides and for each of the output's lengths that matter: roomy, exact, one byte less, and 0. */
bool calls_hold(struct memory memory, const char *name, struct bytes text, struct expected expected);

#endif
