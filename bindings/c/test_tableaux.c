/* Tableaux and pairs: letter counts, two tableaux, the pair of a word, windows. */
#include "expect.h"

/* What a check says of stored counts: 17 and the place of a wrong one, or number and place 0. */
static void checked(const char *what, luchtrav_done said, size_t number, size_t place) {
    expect(what, said.number, number);
    expect(what, said.place, place);
}

/* The counts of 4323: given by the functions that give its tableau, kept true by insertion and moves, judged by the
 * others at a first, a middle and a last place, 64 more in a second tableau. */
static void counts(void) {
    uint8_t word[] = {4, 3, 2, 3}, letters[5], marks[5], square[8], steps[8];
    uint16_t entries[5], of_word[COUNTS], of_line[COUNTS], of_square[COUNTS], of_pair[COUNTS] = {0};
    static const char line[] = "T,4,4,2,d,3,r,3,d,4\n";
    const size_t places[] = {0, 2, 63};
    memset(of_word, 0xA5, sizeof of_word);
    memset(of_line, 0xA5, sizeof of_line);
    memset(of_square, 0xA5, sizeof of_square);
    for (size_t i = 0; i < 4; i++) luchtrav_insert_letter(4, i, word[i], letters, 5, marks, 5, entries, 5, of_pair);
    counted("4323, letter by letter", of_pair, "0121");
    luchtrav_read_tableau_line((const uint8_t *)line, sizeof line - 1, letters, 4, marks, 4, of_line);
    counted("4323, read", of_line, "0121");
    luchtrav_pair_of_word(4, word, 4, letters, 4, marks, 4, entries, 4, of_word);
    counted("4323", of_word, "0121");
    luchtrav_product(4, letters, 4, marks, 4, of_word, letters, 4, marks, 4, of_word, square, 8, steps, 8, of_square);
    counted("4323 squared", of_square, "0242");

#define STORED(counts) letters, 4, marks, 4, counts
    checked("4323", luchtrav_check_counted_tableau(4, STORED(of_word)), LUCHTRAV_OK, 0);
    checked("4323's pair", luchtrav_check_counted_pair(4, letters, 4, marks, 4, entries, 4, of_pair), LUCHTRAV_OK, 0);
    paired("4323 twice", luchtrav_same_class_of_tableaux(4, STORED(of_word), 6, STORED(of_line)), LUCHTRAV_OK, 0, 1);
    for (size_t i = 0; i < 3; i++) {
        const size_t place = places[i];
        of_line[place]++;
        checked("a wrong count", luchtrav_check_counted_tableau(4, STORED(of_line)), LUCHTRAV_BAD_COUNT, place);
        luchtrav_class first = luchtrav_same_class_of_tableaux(4, STORED(of_line), 4, STORED(of_line));
        luchtrav_class second = luchtrav_same_class_of_tableaux(4, STORED(of_word), 4, STORED(of_line));
        paired("a wrong count in the first", first, LUCHTRAV_BAD_COUNT, place, 0);
        paired("a wrong count in the second", second, LUCHTRAV_BAD_COUNT, COUNTS + place, 0);
        undefined_at("a move", luchtrav_raise_tableau(4, 1, STORED(of_line)), LUCHTRAV_BAD_COUNT, place);
        of_line[place]--;
    }
    counted("after refusals", of_line, "0121");
}

/* 12 and 21 as tableaux: two classes, equal weights. */
static void two_tableaux(void) {
    const uint8_t letters[] = {1, 2}, level[] = {0, 0}, down[] = {0, 1};
    const uint16_t counts[COUNTS] = {1, 1};
#define ROW letters, 2, level, 2, counts
#define COLUMN letters, 2, down, 2, counts
    paired("12 and 21", luchtrav_same_class_of_tableaux(2, ROW, 2, COLUMN), LUCHTRAV_OK, 0, 0);
    paired("21 and 21", luchtrav_same_class_of_tableaux(2, COLUMN, RANK, COLUMN), LUCHTRAV_OK, 0, 1);
    luchtrav_order order = luchtrav_compare_weights_of_tableaux(2, ROW, 2, COLUMN);
    expect("weights of 12 and 21", order.number, LUCHTRAV_OK);
    expect("weights of 12 and 21", order.order, LUCHTRAV_EQUAL);
}

/* The pair of 4323, into memory with one element to spare; of three outputs the first that is too short is told. */
static void pairs(void) {
    const uint8_t word[] = {4, 3, 2, 3}, cells[] = {2, 3, 3, 4, 9}, steps[] = {0, 1, 0, 1, 9}, bad[] = {4, 5, 2, 3};
    const uint16_t numbers[] = {3, 2, 4, 1, 9};
    uint8_t letters[5], marks[5];
    uint16_t entries[5] = {9, 9, 9, 9, 9}, counts[COUNTS];
    memset(letters, 9, sizeof letters);
    memset(marks, 9, sizeof marks);
    memset(counts, 0xA5, sizeof counts);
#define PAIR(word, room_l, room_m, room_r) \
    luchtrav_pair_of_word(4, word, 4, letters, room_l, marks, room_m, entries, room_r, counts)
    wrote("no room for letters", PAIR(word, 3, 2, 1), LUCHTRAV_NO_ROOM, 4, 0);
    wrote("no room for marks", PAIR(word, 4, 3, 4), LUCHTRAV_NO_ROOM, 4, 0);
    wrote("no room for entries", PAIR(word, 4, 5, 3), LUCHTRAV_NO_ROOM, 4, 0);
    wrote("a letter above the rank", PAIR(bad, 3, 3, 3), LUCHTRAV_BAD_LETTER, 1, 0);
    expect("after refusals", (size_t)letters[0] + marks[0] + entries[0] + counts[0], 9 + 9 + 9 + 0xA5A5);
    wrote("4323's pair", PAIR(word, 5, 5, 5), LUCHTRAV_OK, 0, 4);
    expect("its letters", (size_t)memcmp(letters, cells, sizeof cells), 0);
    expect("its marks", (size_t)memcmp(marks, steps, sizeof steps), 0);
    expect("its entries", (size_t)memcmp(entries, numbers, sizeof numbers), 0);
    counted("its counts", counts, "0121");
}

/* A window with room for three letters, through which 4323 passes; the vacated elements keep their values. Then a
 * window that is full at 1,024 letters. */
static void windows(void) {
    const uint8_t word[] = {4, 3, 2, 3}, cells[] = {2, 3, 3, 9}, steps[] = {0, 1, 0, 9};
    const uint16_t numbers[] = {2, 1, 3, 9};
    uint8_t letters[] = {9, 9, 9, 9}, marks[] = {9, 9, 9, 9};
    uint16_t entries[] = {9, 9, 9, 9}, counts[COUNTS] = {0};
#define ARRIVES(used, letter) \
    luchtrav_insert_letter(4, used, letter, letters, 3, marks, 3, entries, 3, counts)
#define LEAVES(rank, used) luchtrav_remove_oldest(rank, used, letters, 3, marks, 3, entries, 3, counts)
    wrote("an empty window", LEAVES(4, 0), LUCHTRAV_EMPTY, 0, 0);
    wrote("an empty window of no rank", LEAVES(65, 0), LUCHTRAV_BAD_RANK, 0, 0);
    for (size_t i = 0; i < 3; i++) wrote("a letter arrives", ARRIVES(i, word[i]), LUCHTRAV_OK, 0, i + 1);
    wrote("no room for another", ARRIVES(3, word[3]), LUCHTRAV_NO_ROOM, 4, 0);
    wrote("more used than there are", LEAVES(4, 4), LUCHTRAV_BAD_PARTS, 0, 0);
    wrote("the oldest leaves", LEAVES(4, 3), LUCHTRAV_OK, 0, 2);
    expect("the vacated elements", (size_t)letters[2] + marks[2] + entries[2], 4 + 1 + 1);
    counted("without 4", counts, "011");
    wrote("another arrives", ARRIVES(2, word[3]), LUCHTRAV_OK, 0, 3);
    expect("letters of 323", (size_t)memcmp(letters, cells, sizeof cells), 0);
    expect("marks of 323", (size_t)memcmp(marks, steps, sizeof steps), 0);
    expect("entries of 323", (size_t)memcmp(entries, numbers, sizeof numbers), 0);
    counted("323", counts, "012");
    counts[5] = 1;
    wrote("a wrong count", LEAVES(4, 3), LUCHTRAV_BAD_COUNT, 5, 0);
    counts[5] = 0;
    for (size_t i = 3; i > 0; i--) wrote("all leave", LEAVES(4, i), LUCHTRAV_OK, 0, i - 1);
    counted("no letter", counts, "");
    counts[5] = 1;
    wrote("a wrong count of an empty window", LEAVES(4, 0), LUCHTRAV_BAD_COUNT, 5, 0);

    static uint8_t ones[L], level[L];
    static uint16_t rising[L], of_ones[COUNTS] = {L};
    for (size_t i = 0; i < L; i++) ones[i] = 1, rising[i] = (uint16_t)(i + 1);
#define FULL ones, L, level, L, rising, L, of_ones
    wrote("a full window", luchtrav_insert_letter(4, L, 2, FULL), LUCHTRAV_FULL, L, 0);
    wrote("one leaves it", luchtrav_remove_oldest(4, L, FULL), LUCHTRAV_OK, 0, L - 1);
    wrote("and one arrives", luchtrav_insert_letter(4, L - 1, 2, FULL), LUCHTRAV_OK, 0, L);
    expect("the last letter", ones[L - 1], 2);
    expect("the first entry", rising[0], 1);
}

int main(void) {
    counts();
    two_tableaux();
    pairs();
    windows();
    return wrong != 0;
}
