/* Words: the places that moves change, in a word beside its tableau; words of two ranks; words of a class by number. */
#include "expect.h"

/* A move that was made: its number and place are 0, it tells the changed place, and leaves these letters. */
static void made(const char *what, luchtrav_move said, size_t changed, const uint8_t *letters, const char *digits) {
    expect(what, said.number, LUCHTRAV_OK);
    expect(what, said.place, 0);
    expect(what, said.changed, changed);
    for (size_t i = 0; i < strlen(digits); i++) expect(what, letters[i], (size_t)(digits[i] - '0'));
}

/* The changed places of words and tableaux, 0 among them; and of a word beside its tableau, where the recording entry
 * of the changed cell is the word's changed place plus 1. */
static void moves(void) {
    uint8_t first[] = {3, 1, 1, 3}, second[] = {3, 1, 3, 1}, third[] = {1, 3, 1}, letters[3], marks[3];
    uint8_t cells[] = {2, 3, 3}, level[] = {0, 0, 0};
    uint16_t entries[3], counts[COUNTS], of_cells[COUNTS] = {0, 1, 2};
    made("3113 lowered", luchtrav_lower_word(3, 1, first, 4), 2, first, "3123");
    undefined("3123 raised", luchtrav_raise_word(3, 2, first, 4), LUCHTRAV_INVERSION);
    undefined("3131 lowered", luchtrav_lower_word(3, 2, second, 4), LUCHTRAV_NO_LETTER);
    made("3131 raised", luchtrav_raise_word(3, 2, second, 4), 0, second, "2131");
    made("the tableau 233 raised", luchtrav_raise_tableau(3, 2, cells, 3, level, 3, of_cells), 1, cells, "223");
    counted("its counts", of_cells, "021");
    made("the tableau 223 lowered", luchtrav_lower_tableau(3, 2, cells, 3, level, 3, of_cells), 1, cells, "233");
    counted("its counts", of_cells, "012");
    undefined("233 lowered at 3", luchtrav_lower_tableau(3, 3, cells, 3, level, 3, of_cells), LUCHTRAV_BAD_INDEX);
    counted("its counts", of_cells, "012");
    luchtrav_pair_of_word(3, third, 3, letters, 3, marks, 3, entries, 3, counts);
    made("131 raised", luchtrav_raise_word(3, 2, third, 3), 1, third, "121");
    made("the tableau of 131 raised", luchtrav_raise_tableau(3, 2, letters, 3, marks, 3, counts), 2, letters, "112");
    expect("the entry of the changed cell", entries[2], 2);
}

/* The rank bounds the letters of its word, and is no part of the class. */
static void ranks(void) {
    const uint8_t one[] = {4, 3, 2, 3}, two[] = {3, 2, 4, 3}, rising[] = {2, 3, 3, 4}, five[] = {5};
    paired("4323 at 4, 3243 at 6", luchtrav_same_class(4, one, 4, 6, two, 4), LUCHTRAV_OK, 0, 1);
    paired("4323 at 6, 2334 at 4", luchtrav_same_class(6, one, 4, 4, rising, 4), LUCHTRAV_OK, 0, 0);
    paired("the empty word at 4, 5 at 5", luchtrav_same_class(4, NULL, 0, 5, five, 1), LUCHTRAV_OK, 0, 0);
    paired("5 at 5, the empty word at 4", luchtrav_same_class(5, five, 1, 4, NULL, 0), LUCHTRAV_OK, 0, 0);
    paired("the empty word at 1 and at 64", luchtrav_same_class(1, NULL, 0, RANK, NULL, 0), LUCHTRAV_OK, 0, 1);
    paired("5 at 4 and at 6", luchtrav_same_class(4, five, 1, 6, five, 1), LUCHTRAV_BAD_LETTER, 0, 0);
    paired("5 at 6 and at 4", luchtrav_same_class(6, five, 1, 4, five, 1), LUCHTRAV_BAD_LETTER, 1, 0);
}

/* A size or a number, or the refusal in its stead. */
static void valued(const char *what, luchtrav_value said, size_t number, uint64_t value) {
    expect(what, said.number, number);
    expect(what, said.place, 0);
    expect(what, (size_t)said.value, (size_t)value);
}

/* A word, one digit a letter, and its number, there and back; with the size, and with the largest number, 16 falls. */
static void numbered(const char *digits, uint64_t size, uint64_t number) {
    uint8_t word[LUCHTRAV_COUNTED], letters[LUCHTRAV_COUNTED], marks[LUCHTRAV_COUNTED], back[LUCHTRAV_COUNTED] = {0};
    uint16_t entries[LUCHTRAV_COUNTED], counts[COUNTS];
    size_t l = strlen(digits);
    for (size_t i = 0; i < l; i++) word[i] = (uint8_t)(digits[i] - '0');
    luchtrav_pair_of_word(9, word, l, letters, l, marks, l, entries, l, counts);
#define CLASS 9, letters, l, marks, l, counts
    valued(digits, luchtrav_class_size(CLASS), LUCHTRAV_OK, size);
    valued(digits, luchtrav_class_number(9, word, l), LUCHTRAV_OK, number);
    expect(digits, luchtrav_class_word(CLASS, number, back, l).count, l);
    expect(digits, (size_t)memcmp(back, word, l), 0);
    expect(digits, luchtrav_class_word(CLASS, size, back, l).number, LUCHTRAV_PAST_LAST);
    expect(digits, luchtrav_class_word(CLASS, UINT64_MAX, back, 0).number, LUCHTRAV_PAST_LAST);
    expect(digits, luchtrav_class_word(CLASS, number, back, l - 1).place, l);
}

/* Words of a class, the largest class, and one cell more. */
static void classes(void) {
    uint8_t letters[LUCHTRAV_COUNTED + 1], marks[LUCHTRAV_COUNTED + 1], word[LUCHTRAV_COUNTED];
    uint16_t counts[COUNTS] = {0}, none[COUNTS] = {0};
    const size_t most = LUCHTRAV_COUNTED;
    const uint64_t size = UINT64_C(370371188237525);
    numbered("4323", 5, 3);
    numbered("421323", 61, 45);
    numbered("12446553275", 15399, 260);
    for (size_t i = 0; i <= most; i++) letters[i] = (uint8_t)(i + 1), marks[i] = i % 2, counts[i] = i < most;
    valued("the largest class", luchtrav_class_size(RANK, letters, most, marks, most, counts), LUCHTRAV_OK, size);
    luchtrav_count last = luchtrav_class_word(RANK, letters, most, marks, most, counts, size - 1, word, most);
    expect("its last word", last.count, most);
    valued("its last number", luchtrav_class_number(RANK, word, most), LUCHTRAV_OK, size - 1);
    counts[most] = 1;
    valued("21 cells", luchtrav_class_size(RANK, letters, most + 1, marks, most + 1, counts), LUCHTRAV_TOO_LARGE, 0);
    valued("21 letters", luchtrav_class_number(RANK, letters, most + 1), LUCHTRAV_TOO_LARGE, 0);
    valued("no cells", luchtrav_class_size(RANK, NULL, 0, NULL, 0, none), LUCHTRAV_OK, 1);
    expect("the empty word", luchtrav_class_word(RANK, NULL, 0, NULL, 0, none, 0, NULL, 0).number, LUCHTRAV_OK);
    expect("no second one", luchtrav_class_word(RANK, NULL, 0, NULL, 0, none, 1, NULL, 0).number, LUCHTRAV_PAST_LAST);
}

int main(void) {
    moves();
    ranks();
    classes();
    return wrong != 0;
}
