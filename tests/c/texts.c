#include "texts.h"

#include <stdio.h>
#include <stdlib.h>
#include <string.h>

void put_bytes(struct text *text, struct bytes part) {
    if (text->len + part.len > text->room) {
        text->room = 2 * (text->len + part.len);
        text->at = realloc(text->at, text->room);
        if (text->at == NULL) {
            perror("realloc");
            exit(2);
        }
    }
    if (part.len > 0) {
        memcpy(text->at + text->len, part.at, part.len);
        text->len += part.len;
    }
}

void put(struct text *text, size_t n, const char *part) {
    for (size_t i = 0; i < n; i++) {
        put_bytes(text, bytes_of_string(part));
    }
}

struct bytes bytes_of(struct text text) {
    struct bytes bytes = {text.at, text.len};
    return bytes;
}

struct bytes bytes_of_string(const char *string) {
    struct bytes bytes = {(const uint8_t *)string, strlen(string)};
    return bytes;
}

struct text file_text(const char *path) {
    struct text text = {NULL, 0, 0};
    uint8_t part[4096];
    FILE *file = fopen(path, "rb");
    if (file == NULL) {
        perror(path);
        exit(2);
    }
    size_t n;
    while ((n = fread(part, 1, sizeof part, file)) > 0) {
        struct bytes read = {part, n};
        put_bytes(&text, read);
    }
    if (ferror(file)) {
        perror(path);
        exit(2);
    }
    fclose(file);
    return text;
}

const struct nest nests[] = {
    {"brackets", "axiom ", "(", "", ")", ""},
    {"calls", "axiom ", "f(", "", ")", ""},
    {"second arguments", "axiom ", "f(a, ", "", ")", ""},
    {"products of brackets", "axiom ", "a * -(", "", ")", ""},
    {"implications of brackets", "axiom ", "a ==> (", "", ")", ""},
    {"labels", "axiom ", "l: ", "", "", ""},
    {"conditions", "axiom ", "if ", "", " b else c", ""},
    {"then parts", "axiom ", "if a ", "b", " else c", ""},
    {"else parts", "axiom ", "if a b else ", "", "", ""},
    {"quantifiers", "axiom ", "forall x: T ", "", "", ""},
    {"patterns", "axiom ", "exists x: T pattern ", "", " a", ""},
    {"values", "axiom ", "val x := ", "", " a", ""},
    {"bodies of values", "axiom ", "val x: T := a ", "b", "", ""},
    {"closures", "axiom ", "lift f(x: T) := ", "", " into r: T by { a }", ""},
    {"properties of closures", "axiom ", "lift f := a into r: T by { ", "", " }", ""},
    {"triggers", "axiom ", "lift f := a into r: T by { trigger ", "", " a }", ""},
    {"a function's body", "function f(): T when a { ", "(", "", ")", " }"},
    {"blocks", "procedure p() {", "{", "check ", "}", "}"},
    {"if", "procedure p() {", "if a {", "check ", "}", "}"},
    {"else", "procedure p() {", "if a { } else {", "check ", "}", "}"},
    {"else if", "procedure p() { ", "if a { } else ", "{ check ", "", " } }"},
    {"cases", "procedure p() {", "if case a { } case b {", "check ", "}", "}"},
    {"choices", "procedure p() {", "choose { } or {", "check ", "}", "}"},
    {"forall", "procedure p() {", "forall x: T {", "check ", "}", "}"},
    {"loops", "procedure p() {", "loop {", "check ", "}", "}"},
    {"labelled loops", "procedure p() {", "l: loop invariant a {", "check ", "}", "}"},
    {"labelled blocks", "procedure p() {", "l: {", "check ", "}", "}"},
    {"invariants", "procedure p() {", "loop invariant {", "check ", "} { }", "}"},
    {"variables", "procedure p() {", "var v: T autoinv (a) := b ", "check ", "", "}"},
    {"preconditions", "procedure p() requires {", "loop invariant {", "check ", "} { }", "}"},
};

const size_t nest_count = sizeof nests / sizeof nests[0];

struct text nested(struct nest nest, size_t levels, size_t minus_signs) {
    struct text text = {NULL, 0, 0};
    put(&text, 1, nest.begin);
    put(&text, levels, nest.open);
    put(&text, 1, nest.core);
    put(&text, minus_signs, "-");
    put(&text, 1, "a");
    put(&text, levels, nest.close);
    put(&text, 1, nest.end);
    return text;
}
