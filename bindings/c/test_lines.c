/* Lines: the longest of each kind, P lines, the converter of former lines, C lines. */
#include "expect.h"

/* The line of entries that versions before 0.8 wrote; gives its bytes, line feed included. */
static size_t former_line(const uint16_t *entries, size_t count, uint8_t *out) {
    char *text = (char *)out;
    size_t at = (size_t)sprintf(text, "N,%zu", count);
    for (size_t i = 0; i < count; i++) at += (size_t)sprintf(text + at, ",%u", entries[i]);
    return at + (size_t)sprintf(text + at, "\n");
}

/* A word of 1,024 letters of two digits with as many rows as they allow has the longest line of each kind but C; with
 * one byte less each is refused, and the place is the bytes needed. A tableau of 64 letters, 60 of them ten times and
 * four a hundred times, has the longest C line. */
static void longest(void) {
    static uint8_t word[L], letters[L], marks[L], out[LUCHTRAV_ANSWER_BYTES], w_line[LUCHTRAV_LINE_BYTES];
    static uint8_t t_line[LUCHTRAV_LINE_BYTES], n_line[LUCHTRAV_LINE_BYTES];
    static uint8_t runs[1000], level[1000], c_line[LUCHTRAV_LINE_BYTES];
    static uint16_t entries[L], counts[COUNTS];
    for (size_t i = 0; i < L; i++) word[i] = (uint8_t)(RANK - i % 55);
    for (size_t i = 0; i < 1000; i++) runs[i] = (uint8_t)(i < 600 ? i / 10 + 1 : i / 100 + 55);
    expect("cells", luchtrav_pair_of_word(RANK, word, L, letters, L, marks, L, entries, L, counts).count, L);

#define LONGEST(bytes, function, ...) \
    expect(#function, luchtrav_##function(__VA_ARGS__, out, bytes).count, bytes); \
    expect(#function ", refused", luchtrav_##function(__VA_ARGS__, out, (bytes) - 1).number, LUCHTRAV_NO_ROOM); \
    expect(#function ", needed", luchtrav_##function(__VA_ARGS__, out, (bytes) - 1).place, bytes)

    LONGEST(5128, tableau_line_of_word, RANK, word, L);
    LONGEST(5128, write_tableau_line, RANK, letters, L, marks, L);
    LONGEST(515, run_line_of_word, RANK, runs, 1000);
    LONGEST(515, write_run_line, RANK, runs, 1000, level, 1000);
    LONGEST(3082, write_word_line, RANK, word, L);
    LONGEST(9141, write_pair_line, RANK, letters, L, marks, L, entries, L);
    LONGEST(25, write_junction_line, RANK, word, L);
    LONGEST(44, write_refusal_line, (size_t)-1, (size_t)-1);
    size_t w_count = luchtrav_write_word_line(RANK, word, L, w_line, sizeof w_line).count;
    size_t t_count = luchtrav_write_tableau_line(RANK, letters, L, marks, L, t_line, sizeof t_line).count;
    size_t n_count = former_line(entries, L, n_line);
    LONGEST(9141, convert_lines, t_line, t_count, n_line, n_count);
    size_t c_count = luchtrav_tableau_to_runs(t_line, t_count, c_line, sizeof c_line).count;
    LONGEST(5128, runs_to_tableau, c_line, c_count);
    t_count = luchtrav_write_tableau_line(RANK, runs, 1000, level, 1000, t_line, sizeof t_line).count;
    LONGEST(515, tableau_to_runs, t_line, t_count);
    LONGEST(12248, answer, w_line, w_count);
}

/* The P line of 4323: written, read, and made of the two lines of before. */
static void pair_lines(void) {
    static const char line[] = "P,4,4,2,d,3,r,3,d,4,3,2,4,1\n", tableau[] = "T,4,4,2,d,3,r,3,d,4\n";
    const size_t bytes = sizeof line - 1, front = sizeof tableau - 1;
    uint8_t letters[4], marks[4], out[LUCHTRAV_LINE_BYTES];
    uint16_t entries[4], counts[COUNTS];
#define MEMORY(room) letters, room, marks, room, entries, room, counts
    luchtrav_line read = luchtrav_read_pair_line(TEXT(line), MEMORY(4));
    expect("read", read.number + read.place, 0);
    expect("its rank", read.rank, 4);
    expect("its cells", read.count, 4);
    counted("its counts", counts, "0121");
    wrote("written", luchtrav_write_pair_line(4, letters, 4, marks, 4, entries, 4, out, sizeof out), 0, 0, bytes);
    expect("as it was", (size_t)memcmp(out, line, bytes), 0);
    memset(out, 0, sizeof out);
    wrote("converted", luchtrav_convert_lines(TEXT(tableau), TEXT("N,4,3,2,4,1\n"), out, sizeof out), 0, 0, bytes);
    expect("to the same", (size_t)memcmp(out, line, bytes), 0);
    read = luchtrav_read_pair_line(TEXT(line), MEMORY(3));
    expect("no room to read", read.number, LUCHTRAV_NO_ROOM);
    expect("no room to read", read.place, 4);
    read = luchtrav_read_pair_line(TEXT("N,4,3,2,4,1\n"), MEMORY(4));
    expect("an N line alone", read.number, LUCHTRAV_BAD_LINE);
    read = luchtrav_read_pair_line(TEXT("P,4,3,1,d,2,d,3,1,2,2\n"), MEMORY(4));
    expect("an entry twice", read.number, LUCHTRAV_BAD_ENTRY);
    expect("an entry twice", read.place, 2);
#define FORMER(number, place, first, second) \
    wrote(second, luchtrav_convert_lines(TEXT(first), TEXT(second), out, bytes - 1), number, place, 0)
    FORMER(LUCHTRAV_NO_ROOM, bytes, tableau, "N,4,3,2,4,1\n");
    FORMER(LUCHTRAV_BAD_LINE, front + 9, tableau, "N,4,3,2,4\n");
    FORMER(LUCHTRAV_BAD_LINE, 0, "N,0\n", tableau);
    FORMER(LUCHTRAV_BAD_PARTS, 0, tableau, "N,3,3,2,1\n");
    FORMER(LUCHTRAV_BAD_ENTRY, 2, tableau, "N,4,3,2,2,1\n");
    FORMER(LUCHTRAV_BAD_RECORDING, 2, tableau, "N,4,4,3,2,1\n");
}

/* The C line of 4323: written, read, and turned into its T line and back; then each refusal of a C line. */
static void run_lines(void) {
    static const char line[] = "C,4,4,2,1,d,3,2,d,4,1\n", tableau[] = "T,4,4,2,d,3,r,3,d,4\n";
    const uint8_t word[] = {4, 3, 2, 3}, cells[] = {2, 3, 3, 4, 9}, steps[] = {0, 1, 0, 1, 9};
    const size_t bytes = sizeof line - 1, front = sizeof tableau - 1;
    uint8_t letters[] = {9, 9, 9, 9, 9}, marks[] = {9, 9, 9, 9, 9}, out[LUCHTRAV_LINE_BYTES];
    uint16_t counts[COUNTS];
    memset(counts, 0xA5, sizeof counts);
#define RUNS(text, room_l, room_m) luchtrav_read_run_line(TEXT(text), letters, room_l, marks, room_m, counts)
#define REFUSED(said, told, what) \
    expect(what, RUNS(what, 4, 4).number, said), expect(what, RUNS(what, 4, 4).place, told); \
    wrote(what, luchtrav_runs_to_tableau(TEXT(what), out, sizeof out), said, told, 0)
    REFUSED(LUCHTRAV_BAD_LINE, 0, tableau);
    REFUSED(LUCHTRAV_BAD_LINE, 9, "C,4,1,2,1");
    REFUSED(LUCHTRAV_BAD_RANK, 0, "C,0,2000,2,2\n");
    REFUSED(LUCHTRAV_BAD_LENGTH, 0, "C,4,1025,2,1025\n");
    REFUSED(LUCHTRAV_BAD_LETTER, 1, "C,4,2,2,0,d,5,1\n");
    REFUSED(LUCHTRAV_BAD_ITEM, 1, "C,4,9,2,1,d,2,1\n");
    REFUSED(LUCHTRAV_BAD_ITEM, 0, "C,4,2,2,0,d,3,2\n");
    REFUSED(LUCHTRAV_BAD_SUM, 0, "C,4,3\n");
    expect("no room for letters", RUNS(line, 3, 2).place, 4);
    expect("no room for marks", RUNS(line, 4, 3).number, LUCHTRAV_NO_ROOM);
    expect("after refusals", (size_t)letters[0] + marks[0] + counts[0], 9 + 9 + 0xA5A5);
    luchtrav_line read = RUNS(line, 5, 5);
    expect("read", read.number + read.place, 0);
    expect("its rank", read.rank, 4);
    expect("its cells", read.count, 4);
    expect("its letters", (size_t)memcmp(letters, cells, sizeof cells), 0);
    expect("its marks", (size_t)memcmp(marks, steps, sizeof steps), 0);
    counted("its counts", counts, "0121");
    wrote("written", luchtrav_write_run_line(4, letters, 4, marks, 4, out, sizeof out), 0, 0, bytes);
    expect("as it was", (size_t)memcmp(out, line, bytes), 0);
    wrote("of the word", luchtrav_run_line_of_word(4, word, 4, out, bytes), 0, 0, bytes);
    expect("the same", (size_t)memcmp(out, line, bytes), 0);
    wrote("as a T line", luchtrav_runs_to_tableau(TEXT(line), out, front), 0, 0, front);
    expect("that of 4323", (size_t)memcmp(out, tableau, front), 0);
    wrote("and back", luchtrav_tableau_to_runs(TEXT(tableau), out, bytes), 0, 0, bytes);
    expect("as it was", (size_t)memcmp(out, line, bytes), 0);
    wrote("no room", luchtrav_tableau_to_runs(TEXT(tableau), out, bytes - 1), LUCHTRAV_NO_ROOM, bytes, 0);
    wrote("down to an equal", luchtrav_tableau_to_runs(TEXT("T,4,2,2,d,2\n"), out, 0), LUCHTRAV_BAD_MARK, 1, 0);
}

int main(void) {
    longest();
    pair_lines();
    run_lines();
    return wrong != 0;
}
