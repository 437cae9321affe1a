#define _DEFAULT_SOURCE
#include "call.h"

#include <stdio.h>
#include <stdlib.h>
#include <string.h>
#include <sys/mman.h>
#include <unistd.h>

#include "tidy.h"

/* Room for every text and output of the tests, a whole number of pages. */
#define ROOM ((size_t)(256 * 1024))

/* What stands around the slices, and in the output before a call. */
#define GUARD 0xa5
#define UNWRITTEN '~'

static uint8_t *room_new(void) {
    size_t page = (size_t)sysconf(_SC_PAGESIZE);
    uint8_t *start = mmap(NULL, ROOM + 2 * page, PROT_NONE, MAP_PRIVATE | MAP_ANONYMOUS, -1, 0);
    if (start == MAP_FAILED || mprotect(start + page, ROOM, PROT_READ | PROT_WRITE) != 0) {
        perror("mmap");
        exit(2);
    }
    return start + page;
}

struct memory memory_new(void) {
    struct memory memory = {room_new(), room_new()};
    return memory;
}

/* A slice of len bytes in a room that is otherwise filled with guard bytes. */
static uint8_t *slice(uint8_t *room, size_t len, enum side side) {
    if (len > ROOM) {
        fprintf(stderr, "a slice of %zu bytes is too long for the tests\n", len);
        exit(2);
    }
    memset(room, GUARD, ROOM);
    return side == AT_START ? room : room + ROOM - len;
}

static bool filled(const uint8_t *from, const uint8_t *to, uint8_t byte) {
    for (; from < to; from++) {
        if (*from != byte) {
            return false;
        }
    }
    return true;
}

/* Whether the bytes of a room outside a slice are as they were. */
static bool guarded(const uint8_t *room, const uint8_t *at, size_t len) {
    return filled(room, at, GUARD) && filled(at + len, room + ROOM, GUARD);
}

static bool wrong(const char *name, size_t out_len, enum side side, const char *what) {
    fprintf(stderr, "%s, into %zu bytes, slices at the %s: %s\n", name, out_len, side == AT_START ? "start" : "end", what);
    return false;
}

static bool wrong_answer(const char *name, size_t out_len, enum side side, uint64_t answer, struct expected expected) {
    char what[200];
    uint64_t meant = expected.refusal == 0 ? expected.print.len : ((uint64_t)expected.refusal << 32) + expected.place;
    snprintf(what, sizeof what, "answers %u * 2^32 + %u, and not %u * 2^32 + %u", (unsigned)(answer >> 32), (unsigned)answer,
             (unsigned)(meant >> 32), (unsigned)meant);
    return wrong(name, out_len, side, what);
}

bool call_holds(struct memory memory, const char *name, struct bytes text, size_t out_len, enum side side, struct expected expected) {
    if (expected.refusal == 0 && (expected.print.len > out_len || expected.print.len > TIDY_MOST_PRINT)) {
        expected.refusal = TIDY_SHORT_OUTPUT;
        expected.place = 0;
    }
    uint8_t *in = slice(memory.text, text.len, side);
    uint8_t *out = slice(memory.out, out_len, side);
    if (text.len > 0) {
        memcpy(in, text.at, text.len);
    }
    memset(out, UNWRITTEN, out_len);

    uint64_t answer = tidy(in, text.len, out, out_len);

    if (tidy_refusal_of(answer) != expected.refusal || tidy_place_of(answer) != expected.place) {
        return wrong_answer(name, out_len, side, answer, expected);
    }
    size_t written = tidy_bytes_of(answer);
    if (expected.refusal == 0) {
        if (written != expected.print.len) {
            return wrong_answer(name, out_len, side, answer, expected);
        }
        if (memcmp(out, expected.print.at, written) != 0) {
            return wrong(name, out_len, side, "the print is another");
        }
    }
    if (!filled(out + written, out + out_len, UNWRITTEN)) {
        return wrong(name, out_len, side, "later bytes of the output are written");
    }
    if (!guarded(memory.out, out, out_len)) {
        return wrong(name, out_len, side, "bytes outside the output are written");
    }
    if (!guarded(memory.text, in, text.len) || (text.len > 0 && memcmp(in, text.at, text.len) != 0)) {
        return wrong(name, out_len, side, "the text or bytes around it are written");
    }
    return true;
}

bool calls_hold(struct memory memory, const char *name, struct bytes text, struct expected expected) {
    size_t exact = expected.refusal == 0 ? expected.print.len : 14;
    size_t lengths[] = {TIDY_MOST_PRINT + 1000, exact, exact - 1, 0};
    bool all = true;
    for (size_t i = 0; i < sizeof lengths / sizeof lengths[0]; i++) {
        all &= call_holds(memory, name, text, lengths[i], AT_START, expected);
        all &= call_holds(memory, name, text, lengths[i], AT_END, expected);
    }
    return all;
}
