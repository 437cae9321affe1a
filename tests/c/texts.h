/* Texts that are made of repeated parts. */
#ifndef TEXTS_H
#define TEXTS_H

#include "call.h"

struct text {
    uint8_t *at;
    size_t len;
    size_t room;
};

/* The given string n times, after what stands there. */
void put(struct text *text, size_t n, const char *part);
void put_bytes(struct text *text, struct bytes part);
struct bytes bytes_of(struct text text);
struct bytes bytes_of_string(const char *string);

/* The whole file; ends the program where it can't be read. */
struct text file_text(const char *path);

/*
 * A text that nests: `begin`, `open` as often as the levels say, `core`, a name after so many minus signs, `close` as often as
 * `open`, `end`. At least one minus sign separates core and name.
 */
struct nest {
    const char *name;
    const char *begin;
    const char *open;
    const char *core;
    const char *close;
    const char *end;
};

extern const struct nest nests[];
extern const size_t nest_count;

struct text nested(struct nest nest, size_t levels, size_t minus_signs);

#endif
