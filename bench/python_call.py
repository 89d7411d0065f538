#!/usr/bin/env python3
"""What a call from Python costs, in microseconds, as Markdown: the binding, plain Python, the bare call through ctypes, the call from Rust; and what it costs
that a letter passes through a window.

    bench/python_call.py

It needs what bench/run.py needs, and target/library/libluchtrav.so or the path of another in LUCHTRAV_LIBRARY.
"""

import os
import random
import subprocess
import sys
from array import array
from bisect import bisect_right
from ctypes import CDLL, Structure, c_size_t, c_void_p, create_string_buffer
from time import perf_counter_ns

sys.dont_write_bytecode = True
from run import ROOT, build, table

sys.path.insert(0, str(ROOT / "bindings" / "python"))
import luchtrav

RANK = 16
LETTERS = (8, 20, 256, 1024)
ROUNDS = 1500
CALLS_A_ROUND = 10

SHARED = os.environ.get("LUCHTRAV_LIBRARY") or ROOT / "target/library/libluchtrav.so"
LIBRARY = CDLL(str(SHARED))


class Reply(Structure):
    """luchtrav_count and luchtrav_class, which are alike."""

    _fields_ = [("number", c_size_t), ("place", c_size_t), ("value", c_size_t)]


def bare(name, types):
    """A function of the library without the binding."""
    function = getattr(LIBRARY, "luchtrav_" + name)
    function.restype = Reply
    function.argtypes = types
    return function


def buffers(*values):
    return [create_string_buffer(value, len(value)) for value in values]


def plain_pair(word):
    """The pair by insertion letter by letter (Algorithm 4.2). Nothing is checked."""
    letters, marks, entries = [], [], []
    for place, letter in enumerate(word, 1):
        at = bisect_right(letters, letter)
        letters.insert(at, letter)
        marks.insert(at, 0)
        entries.insert(at, place)
        if at + 1 < len(marks):
            marks[at + 1] = 1
    return letters, marks, entries


def plain_tableau(word):
    """The tableau alone, likewise."""
    letters, marks = [], []
    for letter in word:
        at = bisect_right(letters, letter)
        letters.insert(at, letter)
        marks.insert(at, 0)
        if at + 1 < len(marks):
            marks[at + 1] = 1
    return letters, marks


def plain_class(word, other):
    """Whether two words have the same tableau."""
    return plain_tableau(word) == plain_tableau(other)


def ways(operation, words, call, plain, bare_call):
    """The operation on words of equal length: the binding from lists, bytes and 64-bit integers, plain Python from lists, and the bare call."""
    lists = [list(word) for word in words]
    wide = [array("q", letters) for letters in lists]
    expected = plain(*lists)
    for given in (lists, words, wide):
        came = call(*given)
        assert came == (expected if isinstance(expected, bool) else luchtrav.Pair(*expected))
    assert bare_call().number == 0
    calls = [
        lambda: call(*lists),
        lambda: call(*words),
        lambda: call(*wide),
        lambda: plain(*lists),
        bare_call,
    ]
    return operation, len(words[0]), calls


def pair_ways(word):
    n = len(word)
    first, letters, marks, entries, counts = buffers(word, word, word, word + word, bytes(128))
    buffer = [c_void_p, c_size_t]
    function = bare("pair_of_word", [c_size_t, *buffer, *buffer, *buffer, *buffer, c_void_p])
    return ways(
        "pair_of_word",
        [word],
        lambda given: luchtrav.pair_of_word(RANK, given),
        plain_pair,
        lambda: function(RANK, first, n, letters, n, marks, n, entries, n, counts),
    )


def class_ways(word, other):
    letters = len(word)
    first, second = buffers(word, other)
    function = bare("same_class", 2 * [c_size_t, c_void_p, c_size_t])
    return ways(
        "same_class",
        [word, other],
        lambda given, beside: luchtrav.same_class(RANK, given, RANK, beside),
        plain_class,
        lambda: function(RANK, first, letters, RANK, second, letters),
    )


def passing_ways(word):
    """A letter passes through a full window: the oldest leaves and arrives again; and the pair of the last letters made anew each time."""
    window, letters = luchtrav.Window(RANK, len(word)), list(word)
    for letter in letters:
        window.push(letter)
    calls = [
        lambda: window.push(window.pop()),
        lambda: luchtrav.pair_of_word(RANK, word),
        lambda: plain_pair(letters),
    ]
    calls[0]()
    assert window.pair == luchtrav.pair_of_word(RANK, word[1:] + word[:1])
    return len(word), calls


def drawn_word(draws, letters):
    return bytes(draws.randint(1, RANK) for _ in range(letters))


def operations():
    """What is measured: a drawn word, and beside it another of its class."""
    draws = random.Random(1)
    for letters in LETTERS:
        word = drawn_word(draws, letters)
        tableau = luchtrav.pair_of_word(RANK, word).tableau
        other = bytes(luchtrav.column_reading(RANK, tableau))
        yield pair_ways(word)
        yield class_ways(word, other)


def microseconds(calls):
    """The best of many short rounds for each call, in turns, so that a busy spell of the machine meets all alike."""
    best = [None] * len(calls)
    for _ in range(ROUNDS):
        for i, call in enumerate(calls):
            start = perf_counter_ns()
            for _ in range(CALLS_A_ROUND):
                call()
            spent = perf_counter_ns() - start
            if best[i] is None or spent < best[i]:
                best[i] = spent
    return [spent / CALLS_A_ROUND / 1000 for spent in best]


def from_rust(program, operation, letters):
    """The same operation on a word of the same rank and length."""
    command = [program, operation, str(RANK), str(letters)]
    told = [subprocess.check_output(command, text=True) for _ in range(20)]
    return min(int(nanoseconds) for nanoseconds in told) / 1000


def print_calls(program):
    measured = list(operations())
    spent = iter(microseconds([call for *_, calls in measured for call in calls]))
    rows = []
    for operation, letters, calls in measured:
        costs = [next(spent) for _ in calls]
        costs.append(from_rust(program, operation, letters))
        cells = [f"{cost:.2f}" for cost in costs]
        rows.append([f"`{operation}`", f"{letters:,}", *cells])
    ways_by_name = ["lists", "bytes", "64-bit integers", "plain Python", "bare ctypes call", "Rust"]
    table(["operation", "letters", *ways_by_name], rows)


def print_passing():
    measured = [passing_ways(drawn_word(random.Random(2), letters)) for letters in LETTERS]
    spent = iter(microseconds([call for _, calls in measured for call in calls]))
    rows = [[f"{letters:,}", *[f"{next(spent):.2f}" for _ in calls]] for letters, calls in measured]
    table(["letters", "pop and push", "`pair_of_word`", "plain Python"], rows)


def main():
    program = build()
    print_calls(program)
    print_passing()


if __name__ == "__main__":
    main()
