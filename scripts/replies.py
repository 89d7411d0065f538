"""What each function of include/luchtrav.h replies, by the plain Python, whose operations have the header's names and arguments.

Buffers are lists; those that are lent for writing are changed in place.
"""
from functools import partial

from checks import Refused, check_counted_pair, check_counted_tableau, check_pair, check_tableau, check_word
from class_numbers import class_number, class_size, class_word
from comparisons import compare_weights, compare_weights_of_tableaux, junctions, same_class, same_class_of_tableaux
from lines import (
    answer, convert_lines, read_pair_line, read_tableau_line, read_word_line, tableau_line_of_word, write_junction_line, write_pair_line,
    write_refusal_line, write_tableau_line, write_word_line,
)
from moves import count_tableau, count_word, move_tableau, move_word
from ribbons import cell_at, column_reading, insert_letter, look, pair_of_word, product, word_of_pair
from run_lines import read_run_line, run_line_of_word, runs_to_tableau, tableau_to_runs, write_run_line
from windows import remove_oldest

# By function: the operation on lists that gives the values of its reply.
ALIKE = (
    check_word, pair_of_word, junctions, same_class, compare_weights, check_tableau, check_counted_tableau, column_reading, same_class_of_tableaux,
    compare_weights_of_tableaux, look, cell_at, product, class_size, class_word, class_number, check_pair, check_counted_pair, insert_letter, remove_oldest,
    word_of_pair, tableau_line_of_word, run_line_of_word, write_word_line, write_tableau_line, write_run_line, write_pair_line, write_junction_line,
    write_refusal_line, read_word_line, read_tableau_line, read_run_line, read_pair_line, convert_lines, tableau_to_runs, runs_to_tableau, answer,
)
BY_SIDE = {"_word": move_word, "_count_word": count_word, "_tableau": move_tableau, "_count_tableau": count_tableau}
OPERATIONS = {operation.__name__: operation for operation in ALIKE}
OPERATIONS.update((side + name, partial(operation, side == "raise")) for side in ("raise", "lower") for name, operation in BY_SIDE.items())

# By function: the values that it can answer with, where they are few, and the same of two words or tableaux whose ranks differ; those of `answer` are the
# refusals in its E lines, 0 for three lines.
TWO_RANKS = " of two ranks"
SAME, ORDER = ("same", [0, 1]), ("order", [0, 1, 2, 3])
FEW = {
    "same_class": SAME, "same_class" + TWO_RANKS: SAME, "compare_weights": ORDER, "compare_weights" + TWO_RANKS: ORDER,
    "same_class_of_tableaux": SAME, "same_class_of_tableaux" + TWO_RANKS: SAME,
    "compare_weights_of_tableaux": ORDER, "compare_weights_of_tableaux" + TWO_RANKS: ORDER,
    "look": ("found", [0, 1]), "cell_at": ("found", [0, 1]), "answer": ("refusal", [0, 1, 2, 4, 14]),
}


def plain_reply(function, arguments):
    """Every field of the reply: number, place, values; the values are 0 after a refusal."""
    try:
        return [0, 0] + (OPERATIONS[function.name](*arguments) or [])
    except Refused as refusal:
        return [refusal.number, refusal.place] + [0] * (len(function.fields) - 2)


def few_value(function, expected, arguments):
    """Which of its few values a function answered, in a call that was not refused."""
    if function.name != "answer":
        return expected[2]
    written = bytes(arguments[1][: expected[2]])
    return int(written.split(b",")[1]) if written.startswith(b"E") else 0


def few_names(function, arguments):
    """Under which names of FEW a call is counted."""
    ranks = {argument for parameter, argument in zip(function.parameters, arguments) if parameter.name in ("first_rank", "second_rank")}
    return [function.name] + [function.name + TWO_RANKS] * (len(ranks) == 2)
