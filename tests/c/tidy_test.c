/*
 * Tests tidy of the static library.
 *
 *     tidy_test REPOSITORY            runs the tests and prints `N passed, M failed`
 *     tidy_test answers FILE FROM     prints a part of tests/c/cuts.txt
 */
#include <pthread.h>
#include <stdio.h>
#include <stdlib.h>
#include <string.h>

#include "call.h"
#include "texts.h"
#include "tidy.h"

/* The most bytes of a cut. */
#define MOST_CUT 300

static unsigned passed, failed;

static void count(bool holds) {
    if (holds) {
        passed++;
    } else {
        failed++;
    }
}

static struct expected refused(uint32_t number, size_t place) {
    struct expected expected = {number, place, {NULL, 0}};
    return expected;
}

static struct expected prints(struct bytes print) {
    struct expected expected = {0, 0, print};
    return expected;
}

static struct expected prints_string(const char *print) {
    return prints(bytes_of_string(print));
}

/* ---- stored cases */

struct stored {
    struct bytes text;
    struct expected expected;
};

static unsigned hex_digit(uint8_t byte) {
    const char *digits = "0123456789abcdef";
    const char *found = byte == 0 ? NULL : strchr(digits, byte);
    if (found == NULL) {
        fprintf(stderr, "a stored case has a wrong escape\n");
        exit(2);
    }
    return (unsigned)(found - digits);
}

/* The bytes that a field stands for, in its own place: `\n \t \r \\ \xHH` are the escapes. */
static struct bytes unescaped(uint8_t *field, size_t len) {
    size_t n = 0;
    for (size_t i = 0; i < len; i++) {
        uint8_t byte = field[i];
        if (byte == '\\' && i + 1 < len) {
            byte = field[++i];
            if (byte == 'x' && i + 2 < len) {
                byte = (uint8_t)(16 * hex_digit(field[i + 1]) + hex_digit(field[i + 2]));
                i += 2;
            } else {
                byte = byte == 'n' ? '\n' : byte == 't' ? '\t' : byte == 'r' ? '\r' : byte;
            }
        }
        field[n++] = byte;
    }
    struct bytes bytes = {field, n};
    return bytes;
}

/* An answer as it is stored: the print in quotes, or `refused N at P`. */
static struct expected stored_answer(uint8_t *field, size_t len) {
    unsigned number, place;
    if (len >= 2 && field[0] == '"' && field[len - 1] == '"') {
        return prints(unescaped(field + 1, len - 2));
    }
    char line[60] = "";
    memcpy(line, field, len < sizeof line ? len : sizeof line - 1);
    if (sscanf(line, "refused %u at %u", &number, &place) != 2) {
        fprintf(stderr, "a stored case has a wrong answer: %s\n", line);
        exit(2);
    }
    return refused(number, place);
}

/* The next line of a text from *at on, without its end; none at the text's end. */
static uint8_t *next_line(struct text text, size_t *at, size_t *len) {
    if (*at >= text.len) {
        return NULL;
    }
    uint8_t *line = text.at + *at;
    uint8_t *end = memchr(line, '\n', text.len - *at);
    *len = end == NULL ? text.len - *at : (size_t)(end - line);
    *at += *len + 1;
    return line;
}

static struct stored *vectors;
static size_t vector_count;

static void read_vectors(const char *path) {
    struct text file = file_text(path);
    size_t at = 0, len;
    uint8_t *line;
    while ((line = next_line(file, &at, &len)) != NULL) {
        uint8_t *tab = memchr(line, '\t', len);
        if (tab == NULL) {
            fprintf(stderr, "%s has a line without an answer\n", path);
            exit(2);
        }
        size_t text_len = (size_t)(tab - line);
        vectors = realloc(vectors, (vector_count + 1) * sizeof *vectors);
        if (vectors == NULL) {
            perror("realloc");
            exit(2);
        }
        struct expected expected = stored_answer(tab + 1, len - text_len - 1);
        struct stored stored = {unescaped(line, text_len), expected};
        vectors[vector_count++] = stored;
    }
}

static void test_vectors(struct memory memory) {
    for (size_t i = 0; i < vector_count; i++) {
        char name[60];
        snprintf(name, sizeof name, "line %zu of tidy.txt", i + 1);
        count(calls_hold(memory, name, vectors[i].text, vectors[i].expected));
    }
}

/* ---- cuts of every length */

/* tests/c/cuts.txt: a file's name and a place in it, divided by a tab, then the answers on the bytes from there on, 0 to 300 of them. */
static void test_cuts(struct memory memory, const char *repository) {
    char path[4096], name[4096];
    snprintf(path, sizeof path, "%s/tests/c/cuts.txt", repository);
    struct text answers = file_text(path);
    size_t at = 0, len;
    uint8_t *line;
    while ((line = next_line(answers, &at, &len)) != NULL) {
        char file[200];
        size_t from;
        line[len] = '\0';
        if (sscanf((const char *)line, "%199s %zu", file, &from) != 2) {
            fprintf(stderr, "cuts.txt has a wrong line\n");
            exit(2);
        }
        snprintf(path, sizeof path, "%s/%s", repository, file);
        struct text program = file_text(path);
        for (size_t n = 0; n <= MOST_CUT; n++) {
            line = next_line(answers, &at, &len);
            if (line == NULL || from + n > program.len) {
                fprintf(stderr, "cuts.txt or %s is too short\n", path);
                exit(2);
            }
            struct bytes cut = {program.at + from, n};
            snprintf(name, sizeof name, "%zu bytes of %s from %zu on", n, file, from);
            count(calls_hold(memory, name, cut, stored_answer(line, len)));
        }
        free(program.at);
    }
    free(answers.at);
}

static void print_escaped(const uint8_t *at, size_t len) {
    for (size_t i = 0; i < len; i++) {
        switch (at[i]) {
        case '\n':
            printf("\\n");
            break;
        case '\t':
            printf("\\t");
            break;
        case '\r':
            printf("\\r");
            break;
        case '\\':
            printf("\\\\");
            break;
        default:
            printf(at[i] < ' ' || at[i] > '~' ? "\\x%02x" : "%c", at[i]);
        }
    }
}

static int print_answers(const char *file, size_t from) {
    static uint8_t out[TIDY_MOST_PRINT];
    struct text program = file_text(file);
    printf("%s\t%zu\n", file, from);
    for (size_t n = 0; n <= MOST_CUT && from + n <= program.len; n++) {
        uint64_t answer = tidy(program.at + from, n, out, sizeof out);
        if (tidy_refusal_of(answer) != TIDY_NO_REFUSAL) {
            printf("refused %u at %zu\n", (unsigned)tidy_refusal_of(answer), tidy_place_of(answer));
        } else {
            printf("\"");
            print_escaped(out, tidy_bytes_of(answer));
            printf("\"\n");
        }
    }
    return 0;
}

/* ---- the examples */

static void test_examples(struct memory memory, const char *repository) {
    const char *examples[] = {"aim_check", "battery_test", "tolerances"};
    for (size_t i = 0; i < sizeof examples / sizeof examples[0]; i++) {
        char path[4096];
        snprintf(path, sizeof path, "%s/examples/%s.b3", repository, examples[i]);
        struct text text = file_text(path);
        snprintf(path, sizeof path, "%s/examples/printed/%s.b3", repository, examples[i]);
        struct text print = file_text(path);
        count(calls_hold(memory, examples[i], bytes_of(text), prints(bytes_of(print))));
        count(calls_hold(memory, path, bytes_of(print), prints(bytes_of(print))));
        free(text.at);
        free(print.at);
    }
}

/* ---- the limits and refusals */

static void test_string(struct memory memory, const char *text, struct expected expected) {
    count(calls_hold(memory, text, bytes_of_string(text), expected));
}

static void test_text(struct memory memory, const char *name, struct text text, struct expected expected) {
    count(calls_hold(memory, name, bytes_of(text), expected));
    free(text.at);
}

static struct text repeated(const char *first, size_t n, const char *part, const char *last) {
    struct text text = {NULL, 0, 0};
    put(&text, 1, first);
    put(&text, n, part);
    put(&text, 1, last);
    return text;
}

static void test_long_texts(struct memory memory) {
    const char *empty = "// B3 program\n";
    test_text(memory, "32,768 spaces", repeated("", 32768, " ", ""), prints_string(empty));
    test_text(memory, "32,769 spaces", repeated("", 32769, " ", ""), refused(TIDY_LONG_TEXT, 32768));
    test_text(memory, "200,000 spaces", repeated("", 200000, " ", ""), refused(TIDY_LONG_TEXT, 32768));
    test_text(memory, "an unusable token and 32,763 spaces", repeated("type 5", 32763, " ", ""), refused(TIDY_LONG_TEXT, 32768));
    test_text(memory, "a comment of 32,768 bytes", repeated("/*", 32764, "\xff", "*/"), prints_string(empty));
    test_text(memory, "a comment of 32,768 bytes that never closes", repeated("/*", 32766, "\xff", ""), refused(TIDY_UNCLOSED_COMMENT, 0));
    test_text(memory, "a comment of 32,769 bytes that never closes", repeated("/*", 32767, "\xff", ""), refused(TIDY_LONG_TEXT, 32768));

    struct text print = repeated("// B3 program\n\ntype ", 32763, "a", "\n");
    test_text(memory, "a name of 32,763 bytes", repeated("type ", 32763, "a", ""), prints(bytes_of(print)));
    free(print.at);
}

static void test_unusable_tokens(struct memory memory) {
    test_string(memory, "type 5", refused(TIDY_UNUSABLE_TOKEN, 5));
    test_string(memory, "  x", refused(TIDY_UNUSABLE_TOKEN, 2));
    test_string(memory, "type A /* x */ \xff", refused(TIDY_UNUSABLE_TOKEN, 15));
    test_string(memory, "axiom a < b < c", refused(TIDY_UNUSABLE_TOKEN, 12));
    test_string(memory, "procedure p() { x", refused(TIDY_UNUSABLE_TOKEN, 16));
    struct bytes zero = {(const uint8_t *)"type A\0", 7};
    count(calls_hold(memory, "a byte 0", zero, refused(TIDY_UNUSABLE_TOKEN, 6)));
}

static void test_ended_too_soon(struct memory memory) {
    test_string(memory, "type", refused(TIDY_ENDED_TOO_SOON, 4));
    test_string(memory, "type \n", refused(TIDY_ENDED_TOO_SOON, 6));
    test_string(memory, "type /* x */ // y", refused(TIDY_ENDED_TOO_SOON, 17));
    test_string(memory, "procedure p() {", refused(TIDY_ENDED_TOO_SOON, 15));
    test_string(memory, "procedure p() { x :", refused(TIDY_ENDED_TOO_SOON, 19));
    test_string(memory, "axiom |//x:int|", refused(TIDY_ENDED_TOO_SOON, 15));
    test_string(memory, "axiom (18446744073709551615", refused(TIDY_ENDED_TOO_SOON, 27));
    test_string(memory, "axiom a + ?", refused(TIDY_UNUSABLE_TOKEN, 10));
    test_string(memory, "axiom a + /* q", refused(TIDY_UNCLOSED_COMMENT, 10));
    test_string(memory, "axiom (18446744073709551616", refused(TIDY_LARGE_NATURAL, 7));
    test_text(memory, "32,768 bytes that end too soon", repeated("type", 32764, " ", ""), refused(TIDY_ENDED_TOO_SOON, 32768));
    test_text(memory, "32,769 bytes that end too soon", repeated("type", 32765, " ", ""), refused(TIDY_LONG_TEXT, 32768));
    test_text(memory, "too many words and no operand", repeated("axiom ", 4094, "-", ""), refused(TIDY_ENDED_TOO_SOON, 4100));
}

static void test_unclosed_comments(struct memory memory) {
    struct bytes lamp = bytes_of_string("// B3 program\n\ntype Lamp\n");
    test_string(memory, "/* q", refused(TIDY_UNCLOSED_COMMENT, 0));
    test_string(memory, "type Lamp /* q", refused(TIDY_UNCLOSED_COMMENT, 10));
    test_string(memory, "type Lamp /* q */", prints(lamp));
    test_string(memory, "type Lamp /**/ /*/", refused(TIDY_UNCLOSED_COMMENT, 15));
    test_string(memory, "type Lamp // /* q", prints(lamp));
    test_string(memory, "x /* q", refused(TIDY_UNUSABLE_TOKEN, 0));
    test_string(memory, "procedure p() { x /* q", refused(TIDY_UNCLOSED_COMMENT, 18));
    test_string(memory, "axiom 18446744073709551616/* q", refused(TIDY_LARGE_NATURAL, 6));
    test_text(memory, "comments in comments", repeated("", 8192, "/*", ""), refused(TIDY_UNCLOSED_COMMENT, 0));
    test_text(memory, "200 brackets and such a comment", repeated("axiom ", 200, "(", "a /* q"), refused(TIDY_TOO_DEEP, 206));
    test_text(memory, "199 brackets and such a comment", repeated("axiom ", 199, "(", "a /* q"), refused(TIDY_UNCLOSED_COMMENT, 207));
    test_text(memory, "too many words and such a comment", repeated("axiom ", 4094, "-", "a /* q"), refused(TIDY_UNCLOSED_COMMENT, 4102));
}

static void test_depth(struct memory memory) {
    test_text(memory, "199 brackets", nested(nests[0], 199, 0), prints_string("// B3 program\n\naxiom\n  a\n"));
    test_text(memory, "200 brackets", nested(nests[0], 200, 0), refused(TIDY_TOO_DEEP, 206));
    test_text(memory, "201 blocks", repeated("procedure p() ", 201, "{", ""), refused(TIDY_TOO_DEEP, 214));
    test_text(memory, "200 blocks never closed", repeated("procedure p() ", 200, "{", ""), refused(TIDY_ENDED_TOO_SOON, 214));
    test_text(memory, "200 brackets and a large natural", repeated("axiom ", 200, "(", "18446744073709551616"), refused(TIDY_TOO_DEEP, 206));
}

static void test_naturals(struct memory memory) {
    test_string(memory, "axiom 18446744073709551615", prints_string("// B3 program\n\naxiom\n  18446744073709551615\n"));
    test_string(memory, "axiom 18446744073709551616", refused(TIDY_LARGE_NATURAL, 6));
    test_string(memory, "axiom 1 + /* */ 99999999999999999999 + ?", refused(TIDY_LARGE_NATURAL, 16));
    test_text(memory, "a natural of many digits", repeated("axiom ", 32000, "7", ""), refused(TIDY_LARGE_NATURAL, 6));
}

/* The tree of an axiom with n minus signs has 4 * n + 11 words. */
static void test_words(struct memory memory) {
    struct text print = repeated("// B3 program\n\naxiom\n  ", 4093, "-", "a\n");
    test_text(memory, "16,383 words", repeated("axiom ", 4093, "-", "a"), prints(bytes_of(print)));
    test_text(memory, "16,387 words", repeated("axiom ", 4094, "-", "a"), refused(TIDY_LARGE_TREE, 0));
    test_text(memory, "too many words and an unusable token", repeated("axiom ", 4094, "-", "a ?"), refused(TIDY_UNUSABLE_TOKEN, 4102));
    free(print.at);
}

/* A procedure with a name of so many bytes and 210 statements in 101 blocks; its print has many indents. */
static struct text indented(size_t name_len) {
    struct text text = {NULL, 0, 0};
    put(&text, 1, "procedure ");
    put(&text, name_len, "p");
    put(&text, 1, "(){");
    put(&text, 100, "{");
    put(&text, 210, "return ");
    put(&text, 101, "}");
    return text;
}

static struct text indented_print(size_t name_len) {
    struct text text = {NULL, 0, 0};
    put(&text, 1, "// B3 program\n\nprocedure ");
    put(&text, name_len, "p");
    put(&text, 1, "()\n{\n");
    for (size_t level = 1; level <= 100; level++) {
        put(&text, level, "  ");
        put(&text, 1, "{\n");
    }
    for (size_t i = 0; i < 210; i++) {
        put(&text, 101, "  ");
        put(&text, 1, "return\n");
    }
    for (size_t level = 100; level >= 1; level--) {
        put(&text, level, "  ");
        put(&text, 1, "}\n");
    }
    put(&text, 1, "}\n");
    return text;
}

static void test_long_prints(struct memory memory) {
    struct text shortest = indented_print(0);
    if (shortest.len + 5000 > TIDY_MOST_PRINT && shortest.len < TIDY_MOST_PRINT) {
        size_t name_len = TIDY_MOST_PRINT - shortest.len;
        struct text print = indented_print(name_len);
        test_text(memory, "a print of 65,536 bytes", indented(name_len), prints(bytes_of(print)));
        test_text(memory, "a print of 65,537 bytes", indented(name_len + 1), refused(TIDY_SHORT_OUTPUT, 0));
        free(print.at);
    } else {
        fprintf(stderr, "the print of test_long_prints has %zu bytes\n", shortest.len);
        count(false);
    }
    free(shortest.at);
}

/* ---- null pointers */

static void test_null(void) {
    uint8_t out[20];
    count(tidy(NULL, 0, NULL, 0) == (uint64_t)TIDY_SHORT_OUTPUT << 32);
    count(tidy(NULL, 0, out, sizeof out) == 14 && memcmp(out, "// B3 program\n", 14) == 0);
    count(tidy((const uint8_t *)"type A", 6, NULL, 0) == (uint64_t)TIDY_SHORT_OUTPUT << 32);
    count(tidy((const uint8_t *)"type 5", 6, NULL, 0) == ((uint64_t)TIDY_UNUSABLE_TOKEN << 32) + 5);
    count(tidy((const uint8_t *)"type A/*", 8, NULL, 0) == ((uint64_t)TIDY_UNCLOSED_COMMENT << 32) + 6);
    count(tidy((const uint8_t *)"type", 4, NULL, 0) == ((uint64_t)TIDY_ENDED_TOO_SOON << 32) + 4);
}

/* ---- two threads */

static pthread_barrier_t barrier;

static void *call_vectors(void *holds) {
    struct memory memory = memory_new();
    bool all = true;
    pthread_barrier_wait(&barrier);
    for (int round = 0; round < 3; round++) {
        for (size_t i = 0; i < vector_count; i++) {
            all &= call_holds(memory, "two threads", vectors[i].text, TIDY_MOST_PRINT, AT_END, vectors[i].expected);
        }
    }
    *(bool *)holds = all;
    return NULL;
}

static void test_threads(void) {
    bool holds[2] = {false, false};
    pthread_t threads[2];
    pthread_attr_t attributes;
    pthread_attr_init(&attributes);
    pthread_attr_setstacksize(&attributes, ((size_t)TIDY_STACK_KB + 256) * 1024);
    pthread_barrier_init(&barrier, NULL, 2);
    for (int i = 0; i < 2; i++) {
        if (pthread_create(&threads[i], &attributes, call_vectors, &holds[i]) != 0) {
            fprintf(stderr, "no thread starts\n");
            exit(2);
        }
    }
    for (int i = 0; i < 2; i++) {
        pthread_join(threads[i], NULL);
        count(holds[i]);
    }
}

int main(int argc, char **argv) {
    if (argc == 4 && strcmp(argv[1], "answers") == 0) {
        return print_answers(argv[2], strtoul(argv[3], NULL, 10));
    }
    if (argc != 2) {
        fprintf(stderr, "usage: tidy_test REPOSITORY\n");
        return 2;
    }
    char path[4096];
    struct memory memory = memory_new();
    snprintf(path, sizeof path, "%s/tests/vectors/tidy.txt", argv[1]);
    read_vectors(path);
    test_vectors(memory);
    test_cuts(memory, argv[1]);
    test_examples(memory, argv[1]);
    test_long_texts(memory);
    test_unusable_tokens(memory);
    test_ended_too_soon(memory);
    test_unclosed_comments(memory);
    test_depth(memory);
    test_naturals(memory);
    test_words(memory);
    test_long_prints(memory);
    test_null();
    test_threads();
    printf("%u passed, %u failed\n", passed, failed);
    return failed == 0 ? 0 : 1;
}
