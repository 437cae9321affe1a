// tidy.h in C++: the declaration links, and the functions that take an answer apart are usable.
#include <cstdio>
#include <cstring>

#include "tidy.h"

static const uint8_t *bytes(const char *text) {
    return reinterpret_cast<const uint8_t *>(text);
}

int main() {
    int passed = 0, failed = 0;
    uint8_t out[64];
    const char *print = "// B3 program\n\ntype Lamp\n";

    uint64_t accepted = tidy(bytes("type Lamp // head"), 17, out, sizeof out);
    bool printed = tidy_refusal_of(accepted) == TIDY_NO_REFUSAL && tidy_place_of(accepted) == 0 &&
                   tidy_bytes_of(accepted) == std::strlen(print) && std::memcmp(out, print, std::strlen(print)) == 0;
    ++(printed ? passed : failed);

    uint64_t unusable = tidy(bytes("type 5"), 6, out, sizeof out);
    bool refused = tidy_refusal_of(unusable) == TIDY_UNUSABLE_TOKEN && tidy_place_of(unusable) == 5 && tidy_bytes_of(unusable) == 0;
    ++(refused ? passed : failed);

    uint64_t open = tidy(bytes("type A /* q"), 11, out, sizeof out);
    bool unclosed = tidy_refusal_of(open) == TIDY_UNCLOSED_COMMENT && TIDY_UNCLOSED_COMMENT == 12 && tidy_place_of(open) == 7 &&
                    std::strcmp(tidy_meaning(tidy_refusal_of(open)), "this comment is never closed") == 0;
    ++(unclosed ? passed : failed);

    uint64_t ended = tidy(bytes("type A type "), 12, out, sizeof out);
    bool unfinished = tidy_refusal_of(ended) == TIDY_ENDED_TOO_SOON && TIDY_ENDED_TOO_SOON == 13 && tidy_place_of(ended) == 12 &&
                      std::strcmp(tidy_meaning(tidy_refusal_of(ended)), "the program isn't finished: something must follow") == 0;
    ++(unfinished ? passed : failed);

    std::printf("%d passed, %d failed\n", passed, failed);
    return failed == 0 ? 0 : 1;
}
