/* How much stack each function of the C interface takes, with words of 1,024 letters at rank 64.
 *
 * Each is called on a stack of its own that was painted before; what is no longer painted was used, the start of the
 * call among it. Fails where a call was refused, or took more than include/luchtrav.h says.
 */
#include <stdio.h>
#include <string.h>
#include <ucontext.h>

#include "luchtrav.h"

enum { RANK = LUCHTRAV_RANKS, L = LUCHTRAV_LETTERS, H = L / 2, F = LUCHTRAV_COUNTED, C = LUCHTRAV_COUNTS };
enum { STACK = 1 << 18, PAINT = 0xA5, SAID = 40000 };

/* A word with its pair, its lines, the N line of before among them, a word and a tableau of equal letters for moves, a
 * pair with one cell left for insertion, after which it is a full window, and the tableaux of the word's two halves;
 * the first letters of the word, as many as a class is counted of, with their tableau. The counts of each tableau are
 * named after its letters. */
static uint8_t word[L], letters[L], marks[L], twos[L], same[L], level[L], first[L], steps[L];
static uint8_t front[H], front_marks[H], back[H], back_marks[H], few[F], few_marks[F];
static uint16_t entries[L], places[L];
static uint16_t counts[C], counts_same[C], counts_first[C], counts_front[C], counts_back[C], counts_few[C], counted[C];
static uint8_t w_line[LUCHTRAV_LINE_BYTES], t_line[LUCHTRAV_LINE_BYTES], p_line[LUCHTRAV_LINE_BYTES];
static uint8_t c_line[LUCHTRAV_LINE_BYTES];
static char n_line[LUCHTRAV_LINE_BYTES];
static size_t w_count, t_count, p_count, c_count, n_count;
static uint8_t bytes[LUCHTRAV_ANSWER_BYTES], more[L];
static uint16_t wide[L];
static size_t refused;

static void prepare(void) {
    for (size_t i = 0; i < L; i++) word[i] = (uint8_t)(1 + (i * 37 + i / 5) % RANK);
    memset(twos, 2, L);
    memset(same, 2, L);
    counts_same[1] = L;
    luchtrav_pair_of_word(RANK, word, L, letters, L, marks, L, entries, L, counts);
    luchtrav_pair_of_word(RANK, word, L - 1, first, L, steps, L, places, L, counts_first);
    luchtrav_pair_of_word(RANK, word, H, front, H, front_marks, H, wide, L, counts_front);
    luchtrav_pair_of_word(RANK, word + H, H, back, H, back_marks, H, wide, L, counts_back);
    luchtrav_pair_of_word(RANK, word, F, few, F, few_marks, F, wide, L, counts_few);
    w_count = luchtrav_write_word_line(RANK, word, L, w_line, sizeof w_line).count;
    t_count = luchtrav_write_tableau_line(RANK, letters, L, marks, L, t_line, sizeof t_line).count;
    p_count = luchtrav_write_pair_line(RANK, letters, L, marks, L, entries, L, p_line, sizeof p_line).count;
    c_count = luchtrav_write_run_line(RANK, letters, L, marks, L, c_line, sizeof c_line).count;
    n_count = (size_t)sprintf(n_line, "N,%d", L);
    for (size_t i = 0; i < L; i++) n_count += (size_t)sprintf(n_line + n_count, ",%d", entries[i]);
    n_count += (size_t)sprintf(n_line + n_count, "\n");
}

#define WORD RANK, word, L
#define CELLS letters, L, marks, L
#define TABLEAU RANK, CELLS
#define FACTORS front, H, front_marks, H, counts_front, back, H, back_marks, H, counts_back
#define FEW RANK, few, F, few_marks, F, counts_few
#define MOVED same, L, level, L, counts_same
#define OUT bytes, sizeof bytes
#define CALLS(call) \
    call(check_word, WORD) call(pair_of_word, WORD, bytes, L, more, L, wide, L, counted) \
    call(junctions, WORD) call(raise_word, RANK, 1, twos, L) call(lower_word, RANK, 2, twos, L) \
    call(raise_count_word, RANK, 1, word, L) call(lower_count_word, RANK, 1, word, L) \
    call(same_class, WORD, WORD) call(compare_weights, WORD, WORD) \
    call(check_tableau, TABLEAU) call(check_counted_tableau, TABLEAU, counts) \
    call(column_reading, TABLEAU, counts, OUT) \
    call(raise_tableau, RANK, 1, MOVED) call(lower_tableau, RANK, 2, MOVED) \
    call(raise_count_tableau, RANK, 1, CELLS, counts) call(lower_count_tableau, RANK, 1, CELLS, counts) \
    call(same_class_of_tableaux, TABLEAU, counts, TABLEAU, counts) \
    call(compare_weights_of_tableaux, TABLEAU, counts, TABLEAU, counts) \
    call(look, TABLEAU, L - 1) call(cell_at, CELLS, L - 1) call(product, RANK, FACTORS, bytes, L, more, L, counted) \
    call(class_size, FEW) call(class_word, FEW, 0, bytes, F) call(class_number, RANK, word, F) \
    call(check_pair, TABLEAU, entries, L) call(check_counted_pair, TABLEAU, entries, L, counts) \
    call(insert_letter, RANK, L - 1, 1, first, L, steps, L, places, L, counts_first) \
    call(remove_oldest, RANK, L, first, L, steps, L, places, L, counts_first) \
    call(word_of_pair, TABLEAU, entries, L, counts, OUT) call(tableau_line_of_word, WORD, OUT) \
    call(write_word_line, WORD, OUT) call(write_tableau_line, TABLEAU, OUT) \
    call(write_pair_line, TABLEAU, entries, L, OUT) call(write_junction_line, WORD, OUT) \
    call(write_refusal_line, 14, 4096, OUT) call(read_word_line, w_line, w_count, more, L) \
    call(read_tableau_line, t_line, t_count, bytes, L, more, L, counted) \
    call(read_pair_line, p_line, p_count, bytes, L, more, L, wide, L, counted) \
    call(convert_lines, t_line, t_count, (const uint8_t *)n_line, n_count, OUT) \
    call(run_line_of_word, WORD, OUT) call(write_run_line, TABLEAU, OUT) \
    call(read_run_line, c_line, c_count, bytes, L, more, L, counted) call(tableau_to_runs, t_line, t_count, OUT) \
    call(runs_to_tableau, c_line, c_count, OUT) call(answer, w_line, w_count, OUT)

#define DEFINE(name, ...) \
    static void name(void) { refused = luchtrav_##name(__VA_ARGS__).number; }
#define ENTRY(name, ...) {#name, name},

CALLS(DEFINE)

static const struct {
    const char *name;
    void (*call)(void);
} calls[] = {CALLS(ENTRY)};

/* The bytes of a painted stack that a call no longer leaves painted. */
static size_t used_by(void (*call)(void)) {
    static uint8_t stack[STACK];
    ucontext_t here, there;
    size_t painted = 0;
    memset(stack, PAINT, STACK);
    getcontext(&there);
    there.uc_stack.ss_sp = stack;
    there.uc_stack.ss_size = STACK;
    there.uc_link = &here;
    makecontext(&there, call, 0);
    swapcontext(&here, &there);
    while (painted < STACK && stack[painted] == PAINT) painted++;
    return STACK - painted;
}

int main(void) {
    size_t wrong = 0;
    prepare();
    for (size_t i = 0; i < sizeof calls / sizeof *calls; i++) {
        size_t bytes_used = used_by(calls[i].call);
        printf("%-27s %6zu%s\n", calls[i].name, bytes_used, refused ? " refused" : "");
        wrong += refused != 0 || bytes_used > SAID;
    }
    return wrong != 0;
}
