/* luchtrav.h: quasi-ribbon words, for C.
 *
 * The kernel takes words over 1..n and answers with quasi-ribbon tableaux and their products, recording ribbons, moves
 * of the quasi-crystal, classes of the hypoplactic monoid with their words by number, and weights; it keeps the pair of
 * the last letters of a stream. Every function of the library is proved: it ends, reads and writes inside the memory
 * that it is lent and nowhere else, and answers as this page says. (The compiler is trusted.)
 *
 * WORDS, TABLEAUX, RIBBONS
 *   rank      1 to 64. It bounds the letters of words and tableaux and the indices of moves, and is no part of a class.
 *   word      0 to 1,024 letters, each a byte from 1 to rank.
 *   tableau   its cells in ribbon order, from the top left to the bottom right: their letters, and for each cell a
 *             mark, the step into it: 0 right, 1 down. The mark at place 0 is 0. Letters never fall along the ribbon,
 *             and a step down joins a smaller letter to a larger one.
 *   counts    how often each letter occurs in a tableau: 64 numbers of 16 bits, that of letter a at place a - 1. They
 *             are stored with the tableau, and stand after its marks, in a pair after the entries. A function that
 *             gives a tableau gives its counts; one that takes a tableau takes and judges them (17), but for the
 *             writers of T, C and P lines, luchtrav_look, luchtrav_cell_at, and the checks without 'counted' in their
 *             names.
 *   recording its entries in ribbon order, 16 bits each: 1 to L, each once, rising at a step right and falling at a
 *             step down. Tableau and recording of one shape are a pair; each pair is that of one word.
 *   window    the last letters of a stream, by their pair and its counts alone: letters arrive at the end, by
 *             luchtrav_insert_letter, and the oldest leaves, by luchtrav_remove_oldest. The pair stands in the first
 *             'used' elements of buffers that may be longer, and after each call it is that of the letters then in the
 *             window. A window is full at 1,024 letters; who follows the last k, in buffers of k elements or more, lets
 *             the oldest leave before a letter arrives, once k are there.
 *   line      a text that ends in one line feed, its fields parted by commas, numbers in decimal:
 *                 W,rank,L,letters                      a word
 *                 T,rank,L,letter,step,letter,..        a tableau, steps r (right) and d (down)
 *                 C,rank,L,letter,count,step,letter,count,..
 *                                                       a tableau in run form: each different letter with its count,
 *                                                       and between two of them the step into the next
 *                 P,rank,L,letter,step,..,letter,entries
 *                                                       a pair: the items of its T line, then its entries
 *                 J,set,rows and E,number,place         a junction set with rows, a refusal: never read
 *             L is the number of letters, in a P line also that of the entries, in a C line the sum of the counts; a C
 *             line has as many items, a letter with its count each, as stand before its line feed. Two words of one
 *             rank have the same T line, byte for byte, exactly when they are in one class of the hypoplactic monoid.
 *             T lines of words of different rank differ in the rank field; the words are in one class exactly when the
 *             lines agree with that field left out. A move at an index that both ranks have is then defined on both
 *             words or on neither, and the lines of the words that it makes agree again with that field left out. All
 *             this holds of C lines as well. Two words of one rank have the same P line only where they are the same
 *             word.
 *             A tableau has one T line and one C line, and luchtrav_tableau_to_runs and luchtrav_runs_to_tableau turn
 *             the one into the other: there and back gives the line itself, byte for byte.
 *             Versions before 0.8 stored a recording ribbon in a line of its own, N,L,entries. It is read only by
 *             luchtrav_convert_lines, which makes a P line of a T line and an N line.
 *   Places count from 0.
 *
 * BUFFERS
 *   A buffer is a pointer followed by the number of its elements (elements, not bytes: entries have 16 bits). The
 *   pointer may be NULL where the number is 0. A buffer without 'const' is lent for writing. Counts are a pointer alone
 *   and always have LUCHTRAV_COUNTS elements.
 *   - Buffers of one call must not overlap, unless both are 'const'.
 *   - With each function stands how many elements its outputs need; shorter ones are refused with 13. A result fills
 *     the first elements of a buffer; those after it keep their values, and are not looked at. Of counts that are given
 *     all 64 are written, whatever they held. Insertion, departure and moves change the counts that they take.
 *   - After a refusal every buffer holds what it held before the call.
 *   - 1, 2 and 3 (below) are judged by the numbers of the call, before memory: where one of them refuses, no buffer
 *     is read or written, whatever its pointer and its number. A number of (size_t)-1 is refused like 1,025, and so are
 *     two factors of a product that have more than 1,024 cells together, also where that sum fits no size_t. A reader
 *     of lines finds its numbers in the text, which it reads. (What is not read is tested, not proved.)
 *   - NULL with a number above 0, and NULL for counts, is memory that is not there. Where 1, 2 or 3 refuses it is not
 *     looked at. Any other call with it is outside of what is promised here, and most likely ends the program by a
 *     fault.
 *   - Nothing is kept after a call, and nothing is allocated: a call needs up to 40,000 bytes of stack.
 *   - Any function may be called from any thread at any time, each call with its own buffers.
 *
 * REPLIES
 *   Every reply begins with a number and a place. Number 0 is success, with place 0, and the values follow. Any other
 *   number refuses the input; the values are 0 then. The checks run in rising number, except that 14 comes first, 19
 *   and 20 directly after 4, and 17, 15 and 16 directly after 6, each over the whole input, and the first that fails is
 *   the reply:
 *
 *    number and name            place       what luchtrav_refusal_text says of it
 *     0 LUCHTRAV_OK             0           success
 *     1 LUCHTRAV_BAD_RANK       0           rank is not 1 to 64
 *     2 LUCHTRAV_BAD_LENGTH     0           more than 1,024 letters, cells or entries
 *     3 LUCHTRAV_BAD_PARTS      0           parts of one tableau or pair differ in length, or end before the used count
 *     4 LUCHTRAV_BAD_LETTER     first such  letter outside 1 to rank
 *     5 LUCHTRAV_FALLS          first such  letter smaller than the one before it in the ribbon
 *     6 LUCHTRAV_BAD_MARK       first such  mark not 0 or 1, first mark not 0, or a step down between equal letters
 *     7 LUCHTRAV_BAD_ENTRY      first such  entry 0, above the number of cells, or met before
 *     8 LUCHTRAV_BAD_RECORDING  first such  entry that rises at a step down or falls at a step right
 *     9 LUCHTRAV_BAD_INDEX      0           move index not 1 to rank - 1
 *    10 LUCHTRAV_INVERSION      0           move undefined by an inversion
 *    11 LUCHTRAV_NO_LETTER      0           no inversion, and no letter to change
 *    12 LUCHTRAV_FULL           1024        insertion into 1,024 cells
 *    13 LUCHTRAV_NO_ROOM        needed      an output is too short
 *    14 LUCHTRAV_BAD_LINE       byte        byte that breaks the grammar of the line, or a line that ends early
 *    15 LUCHTRAV_TOO_LARGE      0           more than 20 cells or letters, where a class is counted
 *    16 LUCHTRAV_PAST_LAST      0           number not below the size of the class
 *    17 LUCHTRAV_BAD_COUNT      first such  count that is not how often its letter occurs
 *    18 LUCHTRAV_EMPTY          0           departure from an empty window
 *    19 LUCHTRAV_BAD_ITEM       first such  item with a letter not above the one before it, or with the count 0
 *    20 LUCHTRAV_BAD_SUM        0           counts that do not add to the number of cells
 *
 *   Of two words or two tableaux each check searches the first, then the second, and places in the second count on from
 *   the first's length. 2 judges each by itself, but the cells of a product's factors together. The letter to be
 *   inserted has the used count as its place. The place of 13 is the number of elements that the output needs; the
 *   first that is too short in the order letters, marks, entries. The place of 14 is that of the first byte that breaks
 *   the grammar, or the text's length, and in a second text it counts on from the first's length; where a line is read,
 *   all other places are those of letters or entries, and where a C line is read those of items. The place of 17 is the
 *   letter minus 1, in a second tableau 64 more; a letter above the rank has the count 0. With each function stand the
 *   numbers that it can refuse with, in order.
 *
 * EXAMPLE
 *   The pair of 4323 at rank 4, the steps of its tableau in words. It prints '2 down 3 right 3 down 4'.
 *
 *     #include <stdio.h>
 *     #include "luchtrav.h"
 *     int main(void) {
 *         uint8_t word[] = {4, 3, 2, 3}, letters[4], marks[4];
 *         uint16_t entries[4], counts[LUCHTRAV_COUNTS];
 *         luchtrav_count p = luchtrav_pair_of_word(4, word, 4, letters, 4, marks, 4, entries, 4, counts);
 *         if (p.number != LUCHTRAV_OK) return printf("place %zu: %s\n", p.place, luchtrav_refusal_text(p.number)), 1;
 *         for (size_t i = 0; i < p.count; i++)
 *             printf("%s%d", i == 0 ? "" : marks[i] ? " down " : " right ", letters[i]);
 *         return printf("\n"), 0;
 *     }
 *
 *   Where Luchtrav is installed: gcc example.c $(pkg-config --cflags --libs luchtrav), with -Wl,-rpath,FOLDER/lib for a
 *   FOLDER where the loader does not look by itself.
 *
 * The functions are for x86-64 Linux (System V calling convention), and for C99 or later and C++.
 */
#ifndef LUCHTRAV_H
#define LUCHTRAV_H

#if !defined(__x86_64__) || !defined(__linux__) || defined(__ILP32__)
#error "luchtrav.h: the library is for x86-64 Linux with 64-bit pointers, and for nothing else."
#endif

#include <stddef.h>
#include <stdint.h>

#ifdef __cplusplus
extern "C" {
#endif

/* The version; and the number at the end of the shared library's name, which goes one up whenever a program must be
 * compiled anew to run with the library. */
#define LUCHTRAV_VERSION "0.10.1"
#define LUCHTRAV_INTERFACE 3

/* The limits; the last is that of letters or cells where a class is counted. */
#define LUCHTRAV_RANKS 64
#define LUCHTRAV_LETTERS 1024
#define LUCHTRAV_COUNTED 20

/* The elements of letter counts. */
#define LUCHTRAV_COUNTS 64

/* Bytes that are always enough for one line, whatever its kind, and for an answer of luchtrav_answer. The longest
 * lines, line feed included: P 9,141 bytes (1,024 letters of two digits and 1,024 entries), T 5,128 and W 3,082 (1,024
 * letters of two digits), C 515 (64 letters, four counts of three digits and 60 of two), J 25 (a set of 19 digits, rows
 * of two), E 44 (number and place of 20 digits each). The longest answer: 12,248. (Counted, and each reached in a
 * test.) */
#define LUCHTRAV_LINE_BYTES 16384
#define LUCHTRAV_ANSWER_BYTES 16384

/* The numbers of the table above, by name. */
enum luchtrav_refusal {
    LUCHTRAV_OK = 0,
    LUCHTRAV_BAD_RANK = 1,
    LUCHTRAV_BAD_LENGTH = 2,
    LUCHTRAV_BAD_PARTS = 3,
    LUCHTRAV_BAD_LETTER = 4,
    LUCHTRAV_FALLS = 5,
    LUCHTRAV_BAD_MARK = 6,
    LUCHTRAV_BAD_ENTRY = 7,
    LUCHTRAV_BAD_RECORDING = 8,
    LUCHTRAV_BAD_INDEX = 9,
    LUCHTRAV_INVERSION = 10,
    LUCHTRAV_NO_LETTER = 11,
    LUCHTRAV_FULL = 12,
    LUCHTRAV_NO_ROOM = 13,
    LUCHTRAV_BAD_LINE = 14,
    LUCHTRAV_TOO_LARGE = 15,
    LUCHTRAV_PAST_LAST = 16,
    LUCHTRAV_BAD_COUNT = 17,
    LUCHTRAV_EMPTY = 18,
    LUCHTRAV_BAD_ITEM = 19,
    LUCHTRAV_BAD_SUM = 20
};

/* What the table says of a number, and "no such number" of one that is not in it; never NULL. It is C of this header
 * and no part of the library: tested, not proved. */
static inline const char *luchtrav_refusal_text(size_t number) {
    switch (number) {
    case LUCHTRAV_OK: return "success";
    case LUCHTRAV_BAD_RANK: return "rank is not 1 to 64";
    case LUCHTRAV_BAD_LENGTH: return "more than 1,024 letters, cells or entries";
    case LUCHTRAV_BAD_PARTS: return "parts of one tableau or pair differ in length, or end before the used count";
    case LUCHTRAV_BAD_LETTER: return "letter outside 1 to rank";
    case LUCHTRAV_FALLS: return "letter smaller than the one before it in the ribbon";
    case LUCHTRAV_BAD_MARK: return "mark not 0 or 1, first mark not 0, or a step down between equal letters";
    case LUCHTRAV_BAD_ENTRY: return "entry 0, above the number of cells, or met before";
    case LUCHTRAV_BAD_RECORDING: return "entry that rises at a step down or falls at a step right";
    case LUCHTRAV_BAD_INDEX: return "move index not 1 to rank - 1";
    case LUCHTRAV_INVERSION: return "move undefined by an inversion";
    case LUCHTRAV_NO_LETTER: return "no inversion, and no letter to change";
    case LUCHTRAV_FULL: return "insertion into 1,024 cells";
    case LUCHTRAV_NO_ROOM: return "an output is too short";
    case LUCHTRAV_BAD_LINE: return "byte that breaks the grammar of the line, or a line that ends early";
    case LUCHTRAV_TOO_LARGE: return "more than 20 cells or letters, where a class is counted";
    case LUCHTRAV_PAST_LAST: return "number not below the size of the class";
    case LUCHTRAV_BAD_COUNT: return "count that is not how often its letter occurs";
    case LUCHTRAV_EMPTY: return "departure from an empty window";
    case LUCHTRAV_BAD_ITEM: return "item with a letter not above the one before it, or with the count 0";
    case LUCHTRAV_BAD_SUM: return "counts that do not add to the number of cells";
    default: return "no such number";
    }
}

/* What luchtrav_compare_weights says of the first word against the second, or luchtrav_compare_weights_of_tableaux of
 * the first tableau. */
enum { LUCHTRAV_EQUAL = 0, LUCHTRAV_LOWER = 1, LUCHTRAV_HIGHER = 2, LUCHTRAV_NEITHER = 3 };

/* A check that passed. */
typedef struct {
    size_t number, place;
} luchtrav_done;

/* A move that was made: changed is the place of the letter that it changed, in a word, or of the cell, in a tableau. A
 * changed place 0 is a place like any other: number 0 tells that the move was made. */
typedef struct {
    size_t number, place;
    size_t changed;
} luchtrav_move;

/* Elements written into each output, letters used, times a move can be repeated: each function says which. */
typedef struct {
    size_t number, place;
    size_t count;
} luchtrav_count;

/* 1 for one class, 0 for two. */
typedef struct {
    size_t number, place;
    size_t same;
} luchtrav_class;

/* One of the four values above. */
typedef struct {
    size_t number, place;
    size_t order;
} luchtrav_order;

/* Bit a - 1 of the set stands for letter a. */
typedef struct {
    size_t number, place;
    uint64_t set;
    size_t rows;
} luchtrav_junction;

/* The size of a class, or the number of a word in it, which counts from 0. */
typedef struct {
    size_t number, place;
    uint64_t value;
} luchtrav_value;

/* What a line says: its rank, and how many letters or cells were written into each output. */
typedef struct {
    size_t number, place;
    size_t rank, count;
} luchtrav_line;

/* found is 1, or 0 for "no such cell", which is no refusal; letter, row and column are 0 then. */
typedef struct {
    size_t number, place;
    size_t found, letter, row, column;
} luchtrav_cell;

/* ---- words --------------------------------------------------------------------------------------------------- */

/* Whether a word is within the limits.
 * Refuses 1 2 4. */
luchtrav_done luchtrav_check_word(size_t rank, const uint8_t *word, size_t word_count);

/* The pair of a word: its quasi-ribbon tableau by Krob-Thibon insertion, with the counts, and its recording ribbon;
 * count is the cells written. luchtrav_word_of_pair is the way back.
 * Needs word_count elements in each of letters, marks and entries. Refuses 1 2 4 13. */
luchtrav_count luchtrav_pair_of_word(size_t rank, const uint8_t *word, size_t word_count,
                                     uint8_t *letters, size_t letters_count,
                                     uint8_t *marks, size_t marks_count,
                                     uint16_t *entries, size_t entries_count, uint16_t *counts);

/* The junction set of a word, and the rows of its tableau. Bit a - 1 is set when a occurs, a larger letter occurs,
 * and the next larger letter that occurs stands left of some a.
 * Refuses 1 2 4. */
luchtrav_junction luchtrav_junctions(size_t rank, const uint8_t *word, size_t word_count);

/* Raising turns the leftmost index + 1 of the lent word into index; changed is that letter's place. It is not defined
 * where some index + 1 stands left of some index (10), or where there is no index + 1 (11).
 * Changes one letter of the word. Refuses 1 2 4 9 10 11. */
luchtrav_move luchtrav_raise_word(size_t rank, size_t index, uint8_t *word, size_t word_count);

/* Lowering turns the rightmost index of the lent word into index + 1; changed is that letter's place. It is not defined
 * where some index + 1 stands left of some index (10), or where there is no index (11).
 * Changes one letter of the word. Refuses 1 2 4 9 10 11. */
luchtrav_move luchtrav_lower_word(size_t rank, size_t index, uint8_t *word, size_t word_count);

/* count is how often raising can be done, one time after the other: 0 where it is not defined.
 * Refuses 1 2 4 9. */
luchtrav_count luchtrav_raise_count_word(size_t rank, size_t index, const uint8_t *word, size_t word_count);

/* count is how often lowering can be done, one time after the other: 0 where it is not defined.
 * Refuses 1 2 4 9. */
luchtrav_count luchtrav_lower_count_word(size_t rank, size_t index, const uint8_t *word, size_t word_count);

/* Whether two words are in one class of the hypoplactic monoid, whatever their ranks: each rank bounds the letters of
 * its own word and decides nothing else. 4323 at rank 4 and 3243 at rank 6 are in one class.
 * Refuses 1 2 4, each over both words. */
luchtrav_class luchtrav_same_class(size_t first_rank, const uint8_t *first, size_t first_count,
                                   size_t second_rank, const uint8_t *second, size_t second_count);

/* The order of two words' weights, whatever their ranks and lengths. LOWER: for no k has the first word more letters 1
 * to k than the second, and for some k it has fewer; HIGHER the other way round; EQUAL: as many for every k.
 * Refuses 1 2 4, each over both words. */
luchtrav_order luchtrav_compare_weights(size_t first_rank, const uint8_t *first, size_t first_count,
                                        size_t second_rank, const uint8_t *second, size_t second_count);

/* ---- tableaux ------------------------------------------------------------------------------------------------ */

/* Whether letters and marks are a tableau of the rank.
 * Refuses 1 2 3 4 5 6. */
luchtrav_done luchtrav_check_tableau(size_t rank, const uint8_t *letters, size_t letters_count,
                                     const uint8_t *marks, size_t marks_count);

/* The same with counts: whether a stored tableau can be given to every function of its rank.
 * Refuses 1 2 3 4 5 6 17. */
luchtrav_done luchtrav_check_counted_tableau(size_t rank, const uint8_t *letters, size_t letters_count,
                                             const uint8_t *marks, size_t marks_count, const uint16_t *counts);

/* The column reading: columns from left to right, each from bottom to top; count is the letters written.
 * Needs letters_count elements in word. Refuses 1 2 3 4 5 6 17 13. */
luchtrav_count luchtrav_column_reading(size_t rank, const uint8_t *letters, size_t letters_count,
                                       const uint8_t *marks, size_t marks_count, const uint16_t *counts,
                                       uint8_t *word, size_t word_count);

/* Raising of a tableau turns the first index + 1 of the lent letters into index; changed is that cell's place, and the
 * marks stay. It is not defined where index + 1 stands directly below index (10), or where there is no index + 1 (11).
 * A move is defined on both a word and its tableau or on neither, and the recording entry of the changed cell is the
 * word's changed place plus 1.
 * Changes one of the letters and two of the counts: that of index + 1 is one less, that of index one more.
 * Refuses 1 2 3 4 5 6 17 9 10 11. */
luchtrav_move luchtrav_raise_tableau(size_t rank, size_t index, uint8_t *letters, size_t letters_count,
                                     const uint8_t *marks, size_t marks_count, uint16_t *counts);

/* Lowering of a tableau turns the last index of the lent letters into index + 1; changed is that cell's place, and the
 * marks stay. It is not defined where index + 1 stands directly below index (10), or where there is no index (11). The
 * changed places of word and tableau belong together as in raising.
 * Changes one of the letters and two of the counts: that of index is one less, that of index + 1 one more.
 * Refuses 1 2 3 4 5 6 17 9 10 11. */
luchtrav_move luchtrav_lower_tableau(size_t rank, size_t index, uint8_t *letters, size_t letters_count,
                                     const uint8_t *marks, size_t marks_count, uint16_t *counts);

/* count is how often raising can be done, one time after the other: 0 where it is not defined.
 * Refuses 1 2 3 4 5 6 17 9. */
luchtrav_count luchtrav_raise_count_tableau(size_t rank, size_t index, const uint8_t *letters, size_t letters_count,
                                            const uint8_t *marks, size_t marks_count, const uint16_t *counts);

/* count is how often lowering can be done, one time after the other: 0 where it is not defined.
 * Refuses 1 2 3 4 5 6 17 9. */
luchtrav_count luchtrav_lower_count_tableau(size_t rank, size_t index, const uint8_t *letters, size_t letters_count,
                                            const uint8_t *marks, size_t marks_count, const uint16_t *counts);

/* Whether two tableaux are of one class of the hypoplactic monoid, whatever their ranks: luchtrav_same_class says the
 * same of their column readings, or of any two words that have them. It is told from their marks and counts.
 * Refuses 1 2 3 4 5 6 17, each over both tableaux. */
luchtrav_class luchtrav_same_class_of_tableaux(size_t first_rank,
                                               const uint8_t *first_letters, size_t first_letters_count,
                                               const uint8_t *first_marks, size_t first_marks_count,
                                               const uint16_t *first_counts, size_t second_rank,
                                               const uint8_t *second_letters, size_t second_letters_count,
                                               const uint8_t *second_marks, size_t second_marks_count,
                                               const uint16_t *second_counts);

/* The order of two tableaux' weights, whatever their ranks and cells: luchtrav_compare_weights says the same of their
 * column readings. It is told from their counts.
 * Refuses 1 2 3 4 5 6 17, each over both tableaux. */
luchtrav_order luchtrav_compare_weights_of_tableaux(size_t first_rank,
                                                    const uint8_t *first_letters, size_t first_letters_count,
                                                    const uint8_t *first_marks, size_t first_marks_count,
                                                    const uint16_t *first_counts, size_t second_rank,
                                                    const uint8_t *second_letters, size_t second_letters_count,
                                                    const uint8_t *second_marks, size_t second_marks_count,
                                                    const uint16_t *second_counts);

/* A cell's letter, row and column, rows and columns from 0; past the last cell found is 0. The whole tableau is checked
 * first.
 * Refuses 1 2 3 4 5 6. */
luchtrav_cell luchtrav_look(size_t rank, const uint8_t *letters, size_t letters_count,
                            const uint8_t *marks, size_t marks_count, size_t place);

/* The same of letters and marks that luchtrav_check_tableau has passed, without checking them again. Of others it
 * gives the letter, and as row and column how many marks 1 and how many marks 0 stand from place 1 to the cell; letters
 * and marks may differ in number.
 * Refuses nothing. */
luchtrav_cell luchtrav_cell_at(const uint8_t *letters, size_t letters_count,
                               const uint8_t *marks, size_t marks_count, size_t place);

/* The product of two tableaux of one rank: the tableau of the first's column reading followed by the second's. Any word
 * of the first's class followed by any word of the second's has this tableau, so that classes are multiplied without a
 * word; count is the cells written, and each of the counts is the sum of the factors'. Each factor begins a ribbon of
 * its own: its first mark is 0, and the first may end in a larger letter than the second begins with. Both factors may
 * be the same buffers, for a square; letters, marks and counts must not overlap them. A factor without cells changes
 * nothing.
 * Needs as many elements in letters, and in marks, as the two factors have cells together.
 * Refuses 1 2 3 4 5 6 17 13; of the factors the first before the second. */
luchtrav_count luchtrav_product(size_t rank, const uint8_t *first_letters, size_t first_letters_count,
                                const uint8_t *first_marks, size_t first_marks_count, const uint16_t *first_counts,
                                const uint8_t *second_letters, size_t second_letters_count,
                                const uint8_t *second_marks, size_t second_marks_count, const uint16_t *second_counts,
                                uint8_t *letters, size_t letters_count,
                                uint8_t *marks, size_t marks_count, uint16_t *counts);

/* ---- classes ------------------------------------------------------------------------------------------------- */

/* How many words have this tableau, of at most 20 cells; value is that size, 1 at least and below 2^63. The tableau
 * without cells has one word, the empty one. The rank bounds the letters, and changes nothing else here.
 * Refuses 1 2 3 4 5 6 17 15. */
luchtrav_value luchtrav_class_size(size_t rank, const uint8_t *letters, size_t letters_count,
                                   const uint8_t *marks, size_t marks_count, const uint16_t *counts);

/* The word with a number, of those that have this tableau: number 0 is the first of them in dictionary order, the size
 * less 1 the last; count is the letters written. A larger number is a later word.
 * Needs letters_count elements in word. Refuses 1 2 3 4 5 6 17 15 16 13. */
luchtrav_count luchtrav_class_word(size_t rank, const uint8_t *letters, size_t letters_count,
                                   const uint8_t *marks, size_t marks_count, const uint16_t *counts, uint64_t number,
                                   uint8_t *word, size_t word_count);

/* The number of a word, of at most 20 letters, among the words that have its tableau; value is that number. It is the
 * one by which luchtrav_class_word gives this word.
 * Refuses 1 2 4 15. */
luchtrav_value luchtrav_class_number(size_t rank, const uint8_t *word, size_t word_count);

/* ---- pairs --------------------------------------------------------------------------------------------------- */

/* Whether letters, marks and entries are a pair of the rank.
 * Refuses 1 2 3 4 5 6 7 8. */
luchtrav_done luchtrav_check_pair(size_t rank, const uint8_t *letters, size_t letters_count,
                                  const uint8_t *marks, size_t marks_count,
                                  const uint16_t *entries, size_t entries_count);

/* The same with counts: whether a stored pair can be given to every function of its rank.
 * Refuses 1 2 3 4 5 6 17 7 8. */
luchtrav_done luchtrav_check_counted_pair(size_t rank, const uint8_t *letters, size_t letters_count,
                                          const uint8_t *marks, size_t marks_count,
                                          const uint16_t *entries, size_t entries_count, const uint16_t *counts);

/* One letter into the pair that stands in the first 'used' elements of the three buffers, which may be longer, each
 * by itself; count is the new used count. The counts are those of the used letters: 64 times 0 before the first
 * insertion. In a window this is the arrival of a letter.
 * Changes one of the counts: that of the letter is one more. Needs used + 1 elements in each of the three buffers.
 * Refuses 1 2 3 4 5 6 17 7 8 12 13. */
luchtrav_count luchtrav_insert_letter(size_t rank, size_t used, size_t letter,
                                      uint8_t *letters, size_t letters_count,
                                      uint8_t *marks, size_t marks_count,
                                      uint16_t *entries, size_t entries_count, uint16_t *counts);

/* The oldest letter, which is the one of the cell with the entry 1, leaves the window in the first 'used' elements of
 * the three buffers, which may be longer, each by itself; count is the new used count. The first elements, so many as
 * count says, then hold the pair of the letters that stay, as luchtrav_pair_of_word gives it for them; but none of them
 * is inserted again: the cell goes, the cells after it move one back, each entry is one less, and the step that joins
 * its neighbours is set anew. The vacated element, the last used one of each buffer, keeps its value, as those after it
 * do. The counts are those of the used letters, before and after. 18 is judged last: a wrong rank (1) or wrong counts
 * (17) of an empty window are told first.
 * Changes one of the counts: that of the letter that leaves is one less. Needs no elements but the used ones.
 * Refuses 1 2 3 4 5 6 17 7 8 18. */
luchtrav_count luchtrav_remove_oldest(size_t rank, size_t used,
                                      uint8_t *letters, size_t letters_count,
                                      uint8_t *marks, size_t marks_count,
                                      uint16_t *entries, size_t entries_count, uint16_t *counts);

/* The one word whose pair this is; count is the letters written.
 * Needs letters_count elements in word. Refuses 1 2 3 4 5 6 17 7 8 13. */
luchtrav_count luchtrav_word_of_pair(size_t rank, const uint8_t *letters, size_t letters_count,
                                     const uint8_t *marks, size_t marks_count,
                                     const uint16_t *entries, size_t entries_count, const uint16_t *counts,
                                     uint8_t *word, size_t word_count);

/* ---- lines --------------------------------------------------------------------------------------------------- */

/* The T line of a word's tableau in one call, which is what to store for the word's whole class; count is the bytes
 * written.
 * Needs the bytes of the line in out, 5,128 at most. Refuses 1 2 4 13. */
luchtrav_count luchtrav_tableau_line_of_word(size_t rank, const uint8_t *word, size_t word_count,
                                             uint8_t *out, size_t out_count);

/* The C line of a word's tableau in one call, which is what to store for the word's whole class in run form; count is
 * the bytes written.
 * Needs the bytes of the line in out, 515 at most. Refuses 1 2 4 13. */
luchtrav_count luchtrav_run_line_of_word(size_t rank, const uint8_t *word, size_t word_count,
                                         uint8_t *out, size_t out_count);

/* The W line of a word; count is the bytes written.
 * Needs the bytes of the line in out, 3,082 at most. Refuses 1 2 4 13. */
luchtrav_count luchtrav_write_word_line(size_t rank, const uint8_t *word, size_t word_count,
                                        uint8_t *out, size_t out_count);

/* The T line of a tableau, which has no counts; count is the bytes written.
 * Needs the bytes of the line in out, 5,128 at most. Refuses 1 2 3 4 5 6 13. */
luchtrav_count luchtrav_write_tableau_line(size_t rank, const uint8_t *letters, size_t letters_count,
                                           const uint8_t *marks, size_t marks_count,
                                           uint8_t *out, size_t out_count);

/* The C line of a tableau, which has the counts of its letters as text, and takes none; count is the bytes written.
 * Needs the bytes of the line in out, 515 at most. Refuses 1 2 3 4 5 6 13. */
luchtrav_count luchtrav_write_run_line(size_t rank, const uint8_t *letters, size_t letters_count,
                                       const uint8_t *marks, size_t marks_count,
                                       uint8_t *out, size_t out_count);

/* The P line of a pair, which has no counts; count is the bytes written.
 * Needs the bytes of the line in out, 9,141 at most. Refuses 1 2 3 4 5 6 7 8 13. */
luchtrav_count luchtrav_write_pair_line(size_t rank, const uint8_t *letters, size_t letters_count,
                                        const uint8_t *marks, size_t marks_count,
                                        const uint16_t *entries, size_t entries_count,
                                        uint8_t *out, size_t out_count);

/* The J line of a word: its junction set and rows; count is the bytes written.
 * Needs the bytes of the line in out, 25 at most. Refuses 1 2 4 13. */
luchtrav_count luchtrav_write_junction_line(size_t rank, const uint8_t *word, size_t word_count,
                                            uint8_t *out, size_t out_count);

/* The E line of a refusal, whatever its number and place; count is the bytes written.
 * Needs the bytes of the line in out, 44 at most. Refuses 13. */
luchtrav_count luchtrav_write_refusal_line(size_t number, size_t place, uint8_t *out, size_t out_count);

/* A whole W line, line feed included and nothing after it, as a word; count is the letters written.
 * Needs as many elements in letters as the line has, LUCHTRAV_LETTERS at most. Refuses 14 1 2 4 13. */
luchtrav_line luchtrav_read_word_line(const uint8_t *text, size_t text_count,
                                      uint8_t *letters, size_t letters_count);

/* A whole T line, line feed included and nothing after it, as a tableau with its counts; count is the cells written.
 * Needs as many elements in letters, and in marks, as the line has cells, LUCHTRAV_LETTERS at most.
 * Refuses 14 1 2 4 5 6 13. */
luchtrav_line luchtrav_read_tableau_line(const uint8_t *text, size_t text_count,
                                         uint8_t *letters, size_t letters_count,
                                         uint8_t *marks, size_t marks_count, uint16_t *counts);

/* A whole C line, line feed included and nothing after it, as a tableau with its counts; count is the cells written.
 * However many items the text has, each check is made on all of them before the next; the place of 4 and of 19 is the
 * item's, from 0. 2 judges L alone, and 20 tells where the counts do not add to it.
 * Needs as many elements in letters, and in marks, as L says, LUCHTRAV_LETTERS at most.
 * Refuses 14 1 2 4 19 20 13. */
luchtrav_line luchtrav_read_run_line(const uint8_t *text, size_t text_count,
                                     uint8_t *letters, size_t letters_count,
                                     uint8_t *marks, size_t marks_count, uint16_t *counts);

/* A whole P line, line feed included and nothing after it, as a pair with its counts; count is the cells written.
 * Needs as many elements in each of letters, marks and entries as the line has cells, LUCHTRAV_LETTERS at most.
 * Refuses 14 1 2 4 5 6 7 8 13. */
luchtrav_line luchtrav_read_pair_line(const uint8_t *text, size_t text_count,
                                      uint8_t *letters, size_t letters_count,
                                      uint8_t *marks, size_t marks_count,
                                      uint16_t *entries, size_t entries_count, uint16_t *counts);

/* The P line of what versions before 0.8 stored in two lines, a T line and the N line of the same pair, each whole,
 * line feed included and nothing after it; count is the bytes written. 14 judges the T text, then the N text, where the
 * place counts on from the T text's length. 2 judges the number of cells, then that of entries, and 3 is the refusal
 * where these differ.
 * Needs the bytes of the line in out, 9,141 at most. Refuses 14 1 2 3 4 5 6 7 8 13. */
luchtrav_count luchtrav_convert_lines(const uint8_t *tableau_text, size_t tableau_text_count,
                                      const uint8_t *recording_text, size_t recording_text_count,
                                      uint8_t *out, size_t out_count);

/* The C line of the tableau in a whole T line, line feed included and nothing after it; count is the bytes written.
 * luchtrav_runs_to_tableau gives the T line back, byte for byte.
 * Needs the bytes of the line in out, 515 at most. Refuses 14 1 2 4 5 6 13. */
luchtrav_count luchtrav_tableau_to_runs(const uint8_t *text, size_t text_count, uint8_t *out, size_t out_count);

/* The T line of the tableau in a whole C line, line feed included and nothing after it; count is the bytes written.
 * luchtrav_tableau_to_runs gives the C line back, byte for byte. It judges as luchtrav_read_run_line does.
 * Needs the bytes of the line in out, 5,128 at most. Refuses 14 1 2 4 19 20 13. */
luchtrav_count luchtrav_runs_to_tableau(const uint8_t *text, size_t text_count, uint8_t *out, size_t out_count);

/* What the program 'ribbon' prints for its whole input: the P line of the pair of the word in a W line, the W line of
 * its column reading and its J line, or one E line; count is the bytes written. For a text of more than 4,096 bytes
 * that is E,14,4096, and the text is not read.
 * Needs the bytes of the answer in out, 12,248 at most. Refuses 13. */
luchtrav_count luchtrav_answer(const uint8_t *text, size_t text_count, uint8_t *out, size_t out_count);

#ifdef __cplusplus
}
#endif

#endif
