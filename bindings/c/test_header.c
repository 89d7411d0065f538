/* Names and texts of the refusal numbers, and NULL.
 *
 * Prints the table of refusals as the names and luchtrav_refusal_text have it, for scripts/packages_c to hold against
 * the table of the header's opening comment.
 */
#include "expect.h"

#define NAMED(name) {name, #name}

static const struct {
    size_t number;
    const char *name;
} named[] = {
    NAMED(LUCHTRAV_OK), NAMED(LUCHTRAV_BAD_RANK), NAMED(LUCHTRAV_BAD_LENGTH), NAMED(LUCHTRAV_BAD_PARTS),
    NAMED(LUCHTRAV_BAD_LETTER), NAMED(LUCHTRAV_FALLS), NAMED(LUCHTRAV_BAD_MARK), NAMED(LUCHTRAV_BAD_ENTRY),
    NAMED(LUCHTRAV_BAD_RECORDING), NAMED(LUCHTRAV_BAD_INDEX), NAMED(LUCHTRAV_INVERSION), NAMED(LUCHTRAV_NO_LETTER),
    NAMED(LUCHTRAV_FULL), NAMED(LUCHTRAV_NO_ROOM), NAMED(LUCHTRAV_BAD_LINE), NAMED(LUCHTRAV_TOO_LARGE),
    NAMED(LUCHTRAV_PAST_LAST), NAMED(LUCHTRAV_BAD_COUNT), NAMED(LUCHTRAV_EMPTY), NAMED(LUCHTRAV_BAD_ITEM),
    NAMED(LUCHTRAV_BAD_SUM),
};

static void texts(void) {
    size_t count = sizeof named / sizeof *named;
    for (size_t i = 0; i < count; i++)
        printf("%zu %s %s\n", named[i].number, named[i].name, luchtrav_refusal_text(named[i].number));
    expect("text of the number after the last", (size_t)strcmp(luchtrav_refusal_text(count), "no such number"), 0);
    expect("text of the largest number", (size_t)strcmp(luchtrav_refusal_text((size_t)-1), "no such number"), 0);
}

/* The factors of a product without memory, their letters and marks as many as told. */
static size_t product_says(size_t first, size_t first_marks, size_t second, size_t second_marks) {
    static const uint16_t none[COUNTS] = {0};
    uint16_t given[COUNTS];
#define FACTORS NULL, first, NULL, first_marks, none, NULL, second, NULL, second_marks, none
    return luchtrav_product(4, FACTORS, NULL, 0, NULL, 0, given).number;
}

/* NULL where the number is 0, and where 1, 2 or 3 refuses by the numbers alone. */
static void null(void) {
    uint16_t given[COUNTS];
    wrote("the empty word", luchtrav_pair_of_word(4, NULL, 0, NULL, 0, NULL, 0, NULL, 0, given), LUCHTRAV_OK, 0, 0);
    counted("the empty word", given, "");
    luchtrav_count long_word = luchtrav_pair_of_word(4, NULL, (size_t)-1, NULL, 1, NULL, 1, NULL, 1, NULL);
    wrote("a word of too many letters", long_word, LUCHTRAV_BAD_LENGTH, 0, 0);
    wrote("no texts", luchtrav_convert_lines(NULL, 0, NULL, 0, NULL, 0), LUCHTRAV_BAD_LINE, 0, 0);
    wrote("no text", luchtrav_runs_to_tableau(NULL, 0, NULL, 0), LUCHTRAV_BAD_LINE, 0, 0);
    wrote("too many letters", luchtrav_run_line_of_word(4, NULL, (size_t)-1, NULL, 1), LUCHTRAV_BAD_LENGTH, 0, 0);
    expect("rank", luchtrav_check_word(0, NULL, 4).number, LUCHTRAV_BAD_RANK);
    expect("length", luchtrav_check_word(4, NULL, (size_t)-1).number, LUCHTRAV_BAD_LENGTH);
    expect("parts", luchtrav_check_tableau(4, NULL, 4, NULL, 3).number, LUCHTRAV_BAD_PARTS);
    undefined("a move without a word", luchtrav_raise_word(4, 1, NULL, 0), LUCHTRAV_NO_LETTER);
    expect("the empty product", product_says(0, 0, 0, 0), LUCHTRAV_OK);
    expect("cells together", product_says(600, 600, 425, 425), LUCHTRAV_BAD_LENGTH);
    expect("cells together, a sum of 2^64", product_says((size_t)1 << 63, 0, (size_t)1 << 63, 0), LUCHTRAV_BAD_LENGTH);
    expect("cells together, a sum above 2^64", product_says((size_t)-1, 2, 2, 2), LUCHTRAV_BAD_LENGTH);
    expect("the largest factors", product_says((size_t)-1, (size_t)-1, (size_t)-1, (size_t)-1), LUCHTRAV_BAD_LENGTH);
    expect("parts of the first factor", product_says(2, (size_t)-1, 3, 3), LUCHTRAV_BAD_PARTS);
    expect("parts of the second factor", product_says(2, 2, 3, 2), LUCHTRAV_BAD_PARTS);
    expect("used", luchtrav_insert_letter(4, 4, 1, NULL, 4, NULL, 3, NULL, 4, NULL).number, LUCHTRAV_BAD_PARTS);
    wrote("an empty window", luchtrav_remove_oldest(4, 0, NULL, 0, NULL, 0, NULL, 0, given), LUCHTRAV_EMPTY, 0, 0);
    expect("used", luchtrav_remove_oldest(4, 1, NULL, 0, NULL, 1, NULL, 1, NULL).number, LUCHTRAV_BAD_PARTS);
    expect("many", luchtrav_remove_oldest(4, L + 1, NULL, 0, NULL, 0, NULL, 0, NULL).number, LUCHTRAV_BAD_LENGTH);
    expect("no counts", luchtrav_check_counted_tableau(4, NULL, 4, NULL, 3, NULL).number, LUCHTRAV_BAD_PARTS);
    undefined("no counts to move", luchtrav_raise_tableau(4, 1, NULL, 1025, NULL, 0, NULL), LUCHTRAV_BAD_LENGTH);
    expect("room", luchtrav_answer(NULL, 4097, NULL, 0).place, sizeof "E,14,4096");
}

int main(void) {
    texts();
    null();
    return wrong != 0;
}
