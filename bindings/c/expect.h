/* What the tests of include/luchtrav.h share: each prints what is not as the header says, and fails. */
#include <stdio.h>
#include <string.h>

#include "luchtrav.h"

enum { RANK = LUCHTRAV_RANKS, L = LUCHTRAV_LETTERS, COUNTS = LUCHTRAV_COUNTS };

static size_t wrong;

static inline void expect(const char *what, size_t came, size_t wanted) {
    if (came == wanted) return;
    printf("%s: %zu, not %zu\n", what, came, wanted);
    wrong++;
}

/* Text, and how many bytes it has. */
#define TEXT(text) (const uint8_t *)(text), sizeof(text) - 1

/* What writes elements or bytes: number, place and how many. */
static inline void wrote(const char *what, luchtrav_count said, size_t number, size_t place, size_t count) {
    expect(what, said.number, number);
    expect(what, said.place, place);
    expect(what, said.count, count);
}

/* Counts, one digit a letter; those of all further letters are 0. */
static inline void counted(const char *what, const uint16_t *counts, const char *digits) {
    for (size_t i = 0; i < COUNTS; i++) expect(what, counts[i], i < strlen(digits) ? (size_t)(digits[i] - '0') : 0);
}

/* A move that was refused: it tells no changed place. */
static inline void undefined_at(const char *what, luchtrav_move said, size_t number, size_t place) {
    expect(what, said.number, number);
    expect(what, said.place, place);
    expect(what, said.changed, 0);
}

static inline void undefined(const char *what, luchtrav_move said, size_t number) {
    undefined_at(what, said, number, 0);
}

/* Two words that may have two ranks: number, place, and whether they are in one class. */
static inline void paired(const char *what, luchtrav_class said, size_t number, size_t place, size_t same) {
    expect(what, said.number, number);
    expect(what, said.place, place);
    expect(what, said.same, same);
}
