/*
 * Measures the stack that tidy takes on the texts that nest deepest, and on those whose buffers are the largest, and sees
 * that it is at most TIDY_STACK_KB.
 *
 *     stack_test [all]     prints the most, with `all` that of each text; the last line is `N passed, M failed`
 */
#define _DEFAULT_SOURCE
#include <pthread.h>
#include <stdio.h>
#include <stdlib.h>
#include <string.h>
#include <sys/mman.h>

#include "texts.h"
#include "tidy.h"

#define STACK ((size_t)64 * 1024 * 1024)
#define PAINT 0xa5

/* A tree has at most 4,096 unary operators. */
#define MOST_SIGNS 4096

/* The bytes of a long text: beyond 12,288 the buffers are the largest. */
#define LONG_TEXT 30000

/* Declarations whose tree has so many nodes that the words are written by the largest stack. */
#define MANY 4600

static uint8_t out[TIDY_MOST_PRINT];

struct work {
    struct bytes text;
    uint64_t answer;
};

static void *call(void *given) {
    struct work *work = given;
    work->answer = tidy(work->text.at, work->text.len, out, sizeof out);
    return NULL;
}

static void *rest(void *given) {
    return given;
}

/* The bytes of a painted stack that a thread has written. */
static size_t used(void *(*run)(void *), struct work *work) {
    uint8_t *stack = mmap(NULL, STACK, PROT_READ | PROT_WRITE, MAP_PRIVATE | MAP_ANONYMOUS, -1, 0);
    pthread_attr_t attributes;
    pthread_t thread;
    if (stack == MAP_FAILED) {
        perror("mmap");
        exit(2);
    }
    memset(stack, PAINT, STACK);
    pthread_attr_init(&attributes);
    if (pthread_attr_setstack(&attributes, stack, STACK) != 0 || pthread_create(&thread, &attributes, run, work) != 0) {
        fprintf(stderr, "no thread starts\n");
        exit(2);
    }
    pthread_join(thread, NULL);
    size_t untouched = 0;
    while (untouched < STACK && stack[untouched] == PAINT) {
        untouched++;
    }
    munmap(stack, STACK);
    return STACK - untouched;
}

static uint32_t refusal(struct nest nest, size_t levels, size_t signs) {
    struct text text = nested(nest, levels, signs);
    uint64_t answer = tidy(text.at, text.len, out, sizeof out);
    free(text.at);
    return tidy_refusal_of(answer);
}

/* As many levels as are accepted; then, in the innermost, as many minus signs. Refusal 8 comes after reading and printing. */
static struct text deepest(struct nest nest, size_t signs) {
    size_t levels = 200, fewest = 1;
    while (levels > 0 && refusal(nest, levels, 1) == TIDY_TOO_DEEP) {
        levels--;
    }
    while (fewest < signs) {
        size_t middle = (fewest + signs + 1) / 2;
        if (refusal(nest, levels, middle) == TIDY_LARGE_TREE) {
            signs = middle - 1;
        } else {
            fewest = middle;
        }
    }
    return nested(nest, levels, signs);
}

/* The text with spaces after it, so that it takes the buffers of the longest ones. */
static struct text padded(struct text text) {
    uint8_t *at = realloc(text.at, LONG_TEXT);
    if (at == NULL) {
        perror("realloc");
        exit(2);
    }
    if (text.len < LONG_TEXT) {
        memset(at + text.len, ' ', LONG_TEXT - text.len);
        text.len = LONG_TEXT;
    }
    text.at = at;
    return text;
}

static size_t most;
static unsigned passed, failed;

static void measure(const char *name, struct text text, size_t base, bool all) {
    struct work work = {bytes_of(text), 0};
    size_t bytes = used(call, &work) - base;
    uint32_t refused = tidy_refusal_of(work.answer);
    bool holds = (refused == TIDY_NO_REFUSAL || refused == TIDY_SHORT_OUTPUT) && bytes <= (size_t)TIDY_STACK_KB * 1024;
    if (all || !holds) {
        printf("%6zu KB  %s, %zu bytes, %s\n", (bytes + 1023) / 1024, name, text.len, tidy_meaning(refused));
    }
    most = bytes > most ? bytes : most;
    passed += holds;
    failed += !holds;
    free(text.at);
}

int main(int argc, char **argv) {
    bool all = argc == 2 && strcmp(argv[1], "all") == 0;
    struct work nothing = {{NULL, 0}, 0};
    size_t base = used(rest, &nothing);
    for (size_t i = 0; i < nest_count; i++) {
        measure(nests[i].name, deepest(nests[i], 1), base, all);
        measure(nests[i].name, deepest(nests[i], MOST_SIGNS), base, all);
        measure(nests[i].name, padded(deepest(nests[i], 1)), base, all);
    }
    struct text types = {0};
    put(&types, MANY, "type A ");
    measure("types", types, base, all);
    printf("a call takes at most %zu KB of stack\n", (most + 1023) / 1024);
    printf("%u passed, %u failed\n", passed, failed);
    return failed == 0 ? 0 : 1;
}
