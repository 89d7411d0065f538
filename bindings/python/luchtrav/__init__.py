"""Quasi-ribbon words: the proved kernel of the hypoplactic monoid, over its C interface (luchtrav.h).

Every function of the header stands here under its name without the prefix.

Words, letters, marks and entries are sequences of integers (lists, tuples, bytes) or buffers of them (array.array, memoryview, numpy arrays); sets,
dicts, iterators and strings are a TypeError. Words and readings come back as lists, a Tableau and a Pair as tuples, which hash; one Tableau stands for
letters and marks wherever these are taken, one Pair for letters, marks and entries. pair_of_word gives a word's Pair: its `tableau`, and the `entries` of
its recording ribbon. With both go letter counts, that of the letter a at place a - 1 of 64, which nobody need write: a Tableau or a Pair that comes back
has them, and those that are made from letters count these. A move gives two things, what it made and the place that it changed:
`word, place = luchtrav.raise_word(..)`. What the caller hands over is never changed. Lines are bytes, in and out. A Window follows the last letters of a
stream, and is the one thing here that changes: its push lets a letter arrive, its pop lets the oldest leave.

A refusal of the kernel is the exception Refusal, a ValueError, with a number and a place. Places count from 0; the checks run in rising number,
except that 14 comes first, 19 and 20 directly after 4, and 17, 15 and 16 directly after 6. MEANINGS has the numbers too:

     1  rank is not 1 to 64
     2  more than 1,024 letters, cells or entries
     3  parts of one tableau or pair differ in length, or end before the used count
     4  letter outside 1 to rank
     5  letter smaller than the one before it in the ribbon
     6  mark not 0 or 1, first mark not 0, or a step down between equal letters
     7  entry 0, above the number of cells, or met before
     8  entry that rises at a step down or falls at a step right
     9  move index not 1 to rank - 1
    10  move undefined by an inversion
    11  no inversion, and no letter to change
    12  insertion into 1,024 cells
    13  an output is too short
    14  byte that breaks the grammar of the line, or a line that ends early
    15  more than 20 cells or letters, where a class is counted
    16  number not below the size of the class
    17  count that is not how often its letter occurs
    18  departure from an empty window
    19  item with a letter not above the one before it, or with the count 0
    20  counts that do not add to the number of cells

4 to 8 and 19 have the first such place, where a C line is read that of an item; 17 the letter minus 1, 12 the place 1024, 14 that of the byte or the
line's length, all others 0. Of two words, tableaux or texts the first is searched first, and places in the second count on from the first's length, those
of counts from 64; 2 judges each by itself, but the cells of a product's factors together. A letter to be inserted has the number of cells as its place.
Memory for outputs is lent by the binding, so that 13 arises only where a letter is pushed into a full Window of a size below 1,024, with that size plus 1
as its place. 17 arises only from counts that were stored and given to a Tableau, a Pair or a counted check.

A letter that fits no byte is handed on as 0, a mark as 255, an entry that does not fit 16 bits as 0, a count as 65,535, a rank, index or inserted letter
that fits no size_t as 0: so the kernel refuses them (4, 6, 7, 17, 1, 9, 4) at their place. A place that fits no size_t is one without a cell, and the
number of a word that does not fit 64 bits is refused with 16. What is no integer is a TypeError.
"""
from .classes import class_number, class_size, class_word
from .lines import (
    answer, convert_lines, read_pair_line, read_tableau_line, read_word_line, tableau_line_of_word, write_junction_line, write_pair_line,
    write_refusal_line, write_tableau_line, write_word_line,
)
from .pairs import check_counted_pair, check_pair, insert_letter, remove_oldest, word_of_pair
from .places import HEADER as _HEADER, version_in as _version_in
from .refusal import MEANINGS, Refusal
from .runs import read_run_line, run_line_of_word, runs_to_tableau, tableau_to_runs, write_run_line
from .tableaux import (
    cell_at, check_counted_tableau, check_tableau, column_reading, look, lower_count_tableau, lower_tableau, raise_count_tableau, raise_tableau,
)
from .two_tableaux import compare_weights_of_tableaux, product, same_class_of_tableaux
from .values import Cell, Junctions, MovedTableau, MovedWord, Pair, Tableau
from .window import Window
from .words import (
    check_word, compare_weights, junctions, lower_count_word, lower_word, pair_of_word, raise_count_word, raise_word, same_class,
)

__version__ = _version_in(_HEADER)

__all__ = [
    "Cell", "Junctions", "MEANINGS", "MovedTableau", "MovedWord", "Pair", "Refusal", "Tableau", "Window", "answer", "cell_at", "check_counted_pair",
    "check_counted_tableau", "check_pair", "check_tableau", "check_word", "class_number", "class_size", "class_word", "column_reading",
    "compare_weights", "compare_weights_of_tableaux", "convert_lines", "insert_letter", "junctions", "look", "lower_count_tableau", "lower_count_word",
    "lower_tableau", "lower_word", "pair_of_word", "product", "raise_count_tableau", "raise_count_word", "raise_tableau", "raise_word", "read_pair_line",
    "read_run_line", "read_tableau_line", "read_word_line", "remove_oldest", "run_line_of_word", "runs_to_tableau", "same_class",
    "same_class_of_tableaux", "tableau_line_of_word", "tableau_to_runs", "word_of_pair", "write_junction_line", "write_pair_line", "write_refusal_line",
    "write_run_line", "write_tableau_line", "write_word_line",
]
