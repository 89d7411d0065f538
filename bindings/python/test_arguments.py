"""Tests of what callers hand over: sequences, numbers that do not fit, what is refused as a type. Tableau and Pair are in test_values.py.

    python3 bindings/python/test_arguments.py
"""
import unittest
from array import array
from collections import UserList, deque
from typing import Any, Callable, List, Tuple

from support import ENTRIES, LETTERS, MARKS, PAIR, TABLEAU, Case, lu


class Sequences(Case):
    def test_alike(self) -> None:
        word = [4, 3, 2, 3]
        kinds: List[Callable[[List[int]], Any]] = [bytes, bytearray, tuple, list, UserList, deque]
        for kind in kinds:
            given = kind(word)
            self.assertEqual(lu.pair_of_word(4, given), PAIR)
            self.assertEqual(lu.raise_word(4, 1, given), ([4, 3, 1, 3], 2))
            self.assertEqual(lu.tableau_line_of_word(4, given), lu.tableau_line_of_word(4, word))
            self.assertTrue(lu.same_class(4, given, 4, word))
            parts = kind(LETTERS), kind(MARKS), kind(ENTRIES)
            self.assertEqual(lu.raise_tableau(4, 1, *parts[:2]), (lu.Tableau([1, 3, 3, 4], MARKS), 0))
            self.assertEqual(lu.word_of_pair(4, *parts), word)
            self.assertEqual(lu.write_pair_line(4, *parts), b"P,4,4,2,d,3,r,3,d,4,3,2,4,1\n")
            self.assertEqual(lu.insert_letter(4, 1, *parts), lu.Pair([1, 2, 3, 3, 4], [0, 1, 1, 0, 1], [5, 3, 2, 4, 1]))
            self.assertEqual(lu.remove_oldest(4, *parts), lu.Pair([2, 3, 3], [0, 1, 0], [2, 1, 3]))
            self.assertEqual(lu.product(4, parts[:2], parts[:2]), lu.product(4, TABLEAU, TABLEAU))
            self.assertEqual(lu.product(4, *parts[:2], *parts[:2]), lu.product(4, TABLEAU, TABLEAU))
        self.assertEqual(lu.write_pair_line(4, range(1, 4), [0] * 3, range(1, 4)), b"P,4,3,1,r,2,r,3,1,2,3\n")
        self.assertEqual(lu.write_word_line(1, [True, True]), b"W,1,2,1,1\n")
        for text in (b"W,4,1,3\n", bytearray(b"W,4,1,3\n"), memoryview(b"W,4,1,3\n")):
            self.assertEqual(lu.read_word_line(text), (4, [3]))

    def test_subclasses(self) -> None:
        """A list, a tuple or bytes are taken by what they hold, whatever else they say of themselves."""
        def other(kind: Any, values: List[int]) -> Any:
            return type("Other", (kind,), {"__bytes__": lambda self: b"\1", "__index__": lambda self: 0})(values)

        for kind in (list, tuple, bytes, bytearray):
            self.assertEqual(lu.pair_of_word(4, other(kind, [4, 3, 2, 3])), PAIR)
            self.assertEqual(lu.word_of_pair(4, other(kind, LETTERS), other(kind, MARKS), other(kind, ENTRIES)), [4, 3, 2, 3])
        for kind in (bytes, bytearray):
            self.assertEqual(lu.read_word_line(other(kind, list(b"W,4,1,3\n"))), (4, [3]))

    def test_endless(self) -> None:
        """Of a sequence that is far too long only as much is taken as 2 needs; cell_at, which refuses nothing, takes all."""
        for length in (1025, 10**30):
            long = range(1, length + 1)
            self.refuses(2, 0, lu.check_word, 4, long)
            self.refuses(1, 0, lu.check_word, 0, long)
            self.refuses(2, 0, lu.check_tableau, 4, long, [])
            self.refuses(3, 0, lu.check_tableau, 4, [1], long)
            self.refuses(2, 0, lu.product, 4, ([1], [0]), (long, [0]))
            self.refuses(3, 0, lu.product, 4, ([1], [0]), ([1], long))
            self.refuses(3, 0, lu.check_pair, 4, [1], [0], long)
            self.refuses(3, 0, lu.write_pair_line, 4, [1], [0], long)
        self.assertEqual(lu.cell_at(range(3000), range(3000), 200), lu.Cell(200, 1, 0))
        self.assertEqual(lu.cell_at(UserList([7] * 3000), UserList([1] * 3000), 2500), lu.Cell(7, 2500, 0))

    def test_callers_own_stay(self) -> None:
        word, letters, marks, entries = [3, 1, 3, 1], [2, 3], [0, 1], [2, 1]
        lu.raise_word(3, 2, word)
        lu.raise_tableau(4, 1, letters, marks)
        lu.insert_letter(4, 1, letters, marks, entries)
        lu.remove_oldest(4, letters, marks, entries)
        lu.product(4, letters, marks, letters, marks)
        lent = bytearray(b"\3\1\3\1")
        lu.raise_word(3, 2, lent)
        self.assertEqual((word, letters, marks, entries, lent), ([3, 1, 3, 1], [2, 3], [0, 1], [2, 1], b"\3\1\3\1"))

    def test_no_sequence(self) -> None:
        table = {1: 2, 2: 1}
        others: Tuple[Any, ...] = (
            {1, 2}, frozenset((1, 2)), table, table.keys(), table.values(), table.items(), iter([1, 2]), (letter for letter in (1, 2)),
            map(int, "12"), "12", 12, 1.0, None,
        )
        for other in others:
            calls: List[Tuple[Any, ...]] = [
                (lu.check_word, 4, other), (lu.same_class, 4, [1], 4, other), (lu.column_reading, 4, other, [0, 0]), (lu.pair_of_word, 4, other),
                (lu.class_number, 4, other), (lu.class_size, 4, other, [0, 0]), (lu.class_word, 4, other, [0, 0], 0),
                (lu.check_pair, 4, other, [0, 0], [1, 2]), (lu.write_pair_line, 4, other, [0, 0], [1, 2]), (lu.Tableau, other, [0, 0]),
                (lu.insert_letter, 4, 1, other, [0, 0], [1, 2]), (lu.remove_oldest, 4, other, [0, 0], [1, 2]),
                (lu.Pair, [1, 2], [0, 0], other), (lu.product, 4, ([1], [0]), (other, [0])), (lu.product, 4, ([1], [0]), ([1], other)),
            ]
            for call, *arguments in calls:
                with self.assertRaisesRegex(TypeError, "^a sequence or a buffer of integers is needed, not %s$" % type(other).__name__):
                    call(*arguments)
        for other in ("W,4,0\n", [87], None, memoryview(array("H", b"W,4,1,3\n"))):
            self.assertRaises(TypeError, lu.read_word_line, other)
            self.assertRaises(TypeError, lu.read_pair_line, other)
            self.assertRaises(TypeError, lu.convert_lines, b"T,4,0\n", other)
            self.assertRaises(TypeError, lu.answer, other)


class Numbers(Case):
    def test_that_do_not_fit(self) -> None:
        for much in (256, 257, 2**16, 2**64 + 1, 10**40, -1, -255, -(2**63), -(10**40)):
            self.refuses(4, 1, lu.check_word, 4, [1, much])
            self.refuses(6, 1, lu.check_tableau, 4, [1, 2], [0, much])
        for much in (2**16, 2**16 + 1, 2**32 + 1, 2**64 + 1, 10**40, -1, -65535, -(10**40)):
            self.refuses(7, 1, lu.check_pair, 4, [1, 2], [0, 0], [1, much])
            self.refuses(7, 1, lu.remove_oldest, 4, [1, 2], [0, 0], [1, much])
        for much in (2**64, 2**64 + 1, 10**40, -1, -(2**64) + 1):
            self.refuses(1, 0, lu.check_word, much, [1])
            self.refuses(9, 0, lu.raise_word, 4, much, [1])
            self.refuses(4, 2, lu.insert_letter, 4, much, [1, 2], [0, 0], [1, 2])
            self.assertIsNone(lu.look(4, [1], [0], much))
            self.assertIsNone(lu.cell_at([1], [0], much))
            for numbers in ((much, 0), (0, much)):
                self.assertRaises(ValueError, lu.write_refusal_line, *numbers)

    def test_no_integers(self) -> None:
        for other in (1.0, "1", None, b"1"):
            self.assertRaises(TypeError, lu.check_word, other, [1])
            self.assertRaises(TypeError, lu.check_word, 4, [1, other])
            self.assertRaises(TypeError, lu.check_word, 4, [300, other])
            self.assertRaises(TypeError, lu.check_tableau, 4, [1], [other])
            self.assertRaises(TypeError, lu.write_pair_line, 4, [1], [0], [other])
            self.assertRaises(TypeError, lu.raise_word, 4, other, [1])
            self.assertRaises(TypeError, lu.look, 4, [1], [0], other)
            self.assertRaises(TypeError, lu.insert_letter, 4, other, [], [], [])
            self.assertRaises(TypeError, lu.write_refusal_line, other, 0)

    def test_places(self) -> None:
        """Which of many is no integer."""
        calls: List[Tuple[Any, ...]] = [(lu.check_word, 4), (lu.check_tableau, 4, [1, 2, 3]), (lu.check_pair, 4, [1] * 3, [0] * 3), (lu.Tableau, [])]
        for numbers in ([1, 2, None], [1, 300, None], (1, 2, "1")):
            for call, *before in calls:
                with self.assertRaisesRegex(TypeError, "^integers are needed; at place 2: "):
                    call(*before, numbers)


if __name__ == "__main__":
    unittest.main()
