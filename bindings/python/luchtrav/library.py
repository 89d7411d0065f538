"""The shared library: its functions as include/luchtrav.h declares them, and the one way to call them."""
from array import array
from ctypes import CDLL, c_size_t, c_uint64, c_void_p
from operator import index
from typing import Any, Dict, List, Optional, Tuple, Union

from .buffers import Integers
from .lending import Counts, elements
from .places import LIBRARY
from .refusal import Refusal
from .replies import Cell, Class, Count, Done, Junction, Line, Move, Order, Value

LETTERS = 1024
LINE_BYTES = 16384
ANSWER_BYTES = 16384

# A number, one of 64 bits whatever the machine, a buffer: its address and the number of its elements, and letter counts: their address.
N: List[Any] = [c_size_t]
U: List[Any] = [c_uint64]
B: List[Any] = [c_void_p, c_size_t]
C: List[Any] = [c_void_p]

FUNCTIONS: Dict[str, Tuple[Any, List[Any]]] = {
    "check_word": (Done, N + B),
    "pair_of_word": (Count, N + B + B + B + B + C),
    "junctions": (Junction, N + B),
    "raise_word": (Move, N + N + B),
    "lower_word": (Move, N + N + B),
    "raise_count_word": (Count, N + N + B),
    "lower_count_word": (Count, N + N + B),
    "same_class": (Class, N + B + N + B),
    "compare_weights": (Order, N + B + N + B),
    "check_tableau": (Done, N + B + B),
    "check_counted_tableau": (Done, N + B + B + C),
    "column_reading": (Count, N + B + B + C + B),
    "raise_tableau": (Move, N + N + B + B + C),
    "lower_tableau": (Move, N + N + B + B + C),
    "raise_count_tableau": (Count, N + N + B + B + C),
    "lower_count_tableau": (Count, N + N + B + B + C),
    "same_class_of_tableaux": (Class, N + B + B + C + N + B + B + C),
    "compare_weights_of_tableaux": (Order, N + B + B + C + N + B + B + C),
    "look": (Cell, N + B + B + N),
    "cell_at": (Cell, B + B + N),
    "product": (Count, N + B + B + C + B + B + C + B + B + C),
    "class_size": (Value, N + B + B + C),
    "class_word": (Count, N + B + B + C + U + B),
    "class_number": (Value, N + B),
    "check_pair": (Done, N + B + B + B),
    "check_counted_pair": (Done, N + B + B + B + C),
    "insert_letter": (Count, N + N + N + B + B + B + C),
    "remove_oldest": (Count, N + N + B + B + B + C),
    "word_of_pair": (Count, N + B + B + B + C + B),
    "tableau_line_of_word": (Count, N + B + B),
    "run_line_of_word": (Count, N + B + B),
    "write_word_line": (Count, N + B + B),
    "write_tableau_line": (Count, N + B + B + B),
    "write_run_line": (Count, N + B + B + B),
    "write_pair_line": (Count, N + B + B + B + B),
    "write_junction_line": (Count, N + B + B),
    "write_refusal_line": (Count, N + N + B),
    "read_word_line": (Line, B + B),
    "read_tableau_line": (Line, B + B + B + C),
    "read_run_line": (Line, B + B + B + C),
    "read_pair_line": (Line, B + B + B + B + C),
    "convert_lines": (Count, B + B + B),
    "tableau_to_runs": (Count, B + B),
    "runs_to_tableau": (Count, B + B),
    "answer": (Count, B + B),
}

HOW = "Make it with scripts/library in the repository, or name another in the environment variable LUCHTRAV_LIBRARY."


def opened(path: str) -> Dict[str, Any]:
    """The library's functions by name, each with its types."""
    functions = {}
    try:
        library = CDLL(path)
    except OSError as error:
        raise ImportError("luchtrav: no library at %s (%s). %s" % (path, error, HOW)) from error
    for name, (result, parameters) in FUNCTIONS.items():
        try:
            function = getattr(library, "luchtrav_" + name)
        except AttributeError as error:
            raise ImportError("luchtrav: the library at %s has no function luchtrav_%s. %s" % (path, name, HOW)) from error
        function.restype, function.argtypes = result, parameters
        functions[name] = function
    return functions


CALLS = opened(LIBRARY)

# What a caller gave as letters, as marks, as entries or as counts, in the order in which places count; None for counts that were not given.
Given = Tuple[Integers, ...]
GivenCounts = Tuple[Optional[Tuple[int, ...]], ...]


def value_at(place: int, given: Given) -> Optional[int]:
    """The number that was refused, as the caller gave it; places in a second word or tableau count on from the first's length."""
    for values in given:
        numbers = elements(values)
        if place < len(numbers):
            return index(numbers[place])
        place -= len(numbers)
    return None


def count_at(place: int, given: GivenCounts) -> Optional[int]:
    """The count that was refused, likewise; those of a second tableau have 64 more as their places."""
    counts = given[place // 64] if place < 64 * len(given) else None
    return None if counts is None else counts[place % 64]


def ask(
    name: str, *arguments: Union[int, "array[int]"], caller: str = "", letters: Given = (), marks: Given = (), entries: Given = (),
    counts: GivenCounts = (),
) -> Any:
    """The reply of a function, or its refusal as an exception, which names the caller where that has another name. An array is lent as address and
    number of elements, counts as an address; `arguments` keeps it alive. What was given as letters, marks, entries and counts serves the exception's
    text."""
    passed: List[int] = []
    for argument in arguments:
        if isinstance(argument, Counts):
            passed.append(argument.buffer_info()[0])
        elif isinstance(argument, array):
            passed.extend(argument.buffer_info())
        else:
            passed.append(argument)
    said = CALLS[name](*passed)
    if said.number:
        judged = {4: letters, 5: letters, 6: marks, 7: entries, 8: entries}.get(said.number, ())
        value = count_at(said.place, counts) if said.number == 17 else value_at(said.place, judged)
        raise Refusal(said.number, said.place, caller or name, value)
    return said
