/* Prints what to store for the whole class of a word, whether another word is in that class, and what a move changes. */
#include <stdio.h>
#include "luchtrav.h"
int main(void) {
    uint8_t word[] = {4, 3, 2, 3}, other[] = {3, 2, 4, 3}, line[LUCHTRAV_LINE_BYTES];
    luchtrav_count t = luchtrav_tableau_line_of_word(4, word, 4, line, sizeof line);
    if (t.number != LUCHTRAV_OK) return printf("place %zu: %s\n", t.place, luchtrav_refusal_text(t.number)), 1;
    fwrite(line, 1, t.count, stdout);
    luchtrav_class c = luchtrav_same_class(4, word, 4, 4, other, 4);
    luchtrav_move m = luchtrav_raise_word(4, 1, word, 4);
    return printf("one class: %zu\nthe letter at place %zu is now %d\n", c.same, m.changed, word[m.changed]), 0;
}
