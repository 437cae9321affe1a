/* B3 program text, tidied: read and printed in one call, for C and C++. */
#ifndef TIDY_H
#define TIDY_H

#include <stddef.h>
#include <stdint.h>

#ifdef __cplusplus
extern "C" {
#endif

/* The most bytes of a text that is read, and of a print: an output of TIDY_MOST_PRINT bytes has room for every print. */
#define TIDY_MOST_TEXT 32768
#define TIDY_MOST_PRINT 65536

/*
 * Stack in KB that a call takes at most, measured on the texts that nest deepest and on long ones. A call that has less can
 * overflow it.
 */
#define TIDY_STACK_KB 2560

/*
 * Why a text is refused. Refusals 6 and 7 are for tables of tree words, 9 to 11 for the bytes of print settings; tidy is handed
 * neither, so it never answers them.
 */
enum tidy_refusal {
    /* Nothing is refused: the answer is a byte count. */
    TIDY_NO_REFUSAL = 0,
    /* The text is longer than 32,768 bytes; the place is 32,768. */
    TIDY_LONG_TEXT = 1,
    /* The text is no program: the place is where the first unusable token begins. */
    TIDY_UNUSABLE_TOKEN = 2,
    /* More than 200 rules lie inside one another; the place is that of the first token of the 201st. */
    TIDY_TOO_DEEP = 3,
    /* A natural is larger than 18446744073709551615; the place is that of its first digit. */
    TIDY_LARGE_NATURAL = 4,
    /* The program's tree has more than 16,384 words; the place is 0. */
    TIDY_LARGE_TREE = 5,
    /* The print is longer than the output, or than 65,536 bytes; the place is 0. */
    TIDY_SHORT_OUTPUT = 8,
    /* A long comment is never closed; the place is that of its outermost opening mark. */
    TIDY_UNCLOSED_COMMENT = 12,
    /* The text ends where more of the program must follow; the place is the text's length. */
    TIDY_ENDED_TOO_SOON = 13
};

/*
 * Reads the program text[0 .. text_len) and prints it to out.
 *
 * Below 2^32 the answer is the number of bytes written, from out[0] on: at least 14 and at most 65,536; later bytes of out stay
 * as they were. Otherwise it is a refusal: its number times 2^32, plus its place, in bytes of the text from 0; out is
 * then as it was. What is answered is proved for every text and every output.
 *
 * The caller sees to it that
 * - both parts of memory are there and do not overlap, and no other thread writes them during the call;
 * - a pointer is not null, unless its length is 0: then it may be anything, null too;
 * - TIDY_STACK_KB of stack are left.
 *
 * The text need not end in a 0 byte, nor be UTF-8; bytes above 127 are allowed in comments only. The print has no 0 byte at its
 * end, and none of the text's comments. The library keeps nothing between calls and allocates nothing, so threads may call it at
 * once.
 */
uint64_t tidy(const uint8_t *text, size_t text_len, uint8_t *out, size_t out_len);

/* The refusal's number (enum tidy_refusal), 0 where the text was printed. */
static inline uint32_t tidy_refusal_of(uint64_t answer) {
    return (uint32_t)(answer >> 32);
}

/* The refusal's place; 0 where the text was printed. */
static inline size_t tidy_place_of(uint64_t answer) {
    return tidy_refusal_of(answer) == TIDY_NO_REFUSAL ? 0 : (size_t)(answer & UINT64_C(0xffffffff));
}

/* The bytes written; 0 where the text was refused. */
static inline size_t tidy_bytes_of(uint64_t answer) {
    return tidy_refusal_of(answer) == TIDY_NO_REFUSAL ? (size_t)answer : 0;
}

/* What a refusal means, for people. */
static inline const char *tidy_meaning(uint32_t refusal) {
    switch (refusal) {
    case TIDY_NO_REFUSAL:
        return "the text is printed";
    case TIDY_LONG_TEXT:
        return "the text is longer than 32,768 bytes";
    case TIDY_UNUSABLE_TOKEN:
        return "the program cannot go on here";
    case TIDY_TOO_DEEP:
        return "more than 200 levels of nesting";
    case TIDY_LARGE_NATURAL:
        return "a number larger than 18446744073709551615";
    case TIDY_LARGE_TREE:
        return "the program's tree has more than 16,384 words";
    case TIDY_SHORT_OUTPUT:
        return "the print is longer than the output or than 65,536 bytes";
    case TIDY_UNCLOSED_COMMENT:
        return "this comment is never closed";
    case TIDY_ENDED_TOO_SOON:
        return "the program isn't finished: something must follow";
    default:
        return "no refusal of tidy";
    }
}

#ifdef __cplusplus
}
#endif

#endif
