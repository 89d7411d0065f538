"""Tests of Tableau and Pair as values, and in the stead of their parts.

    python3 bindings/python/test_values.py
"""
import copy
import pickle
import unittest
from array import array
from typing import Any, Callable, List, Tuple

from support import ENTRIES, LETTERS, MARKS, PAIR, TABLEAU, Case, lu


class Values(Case):
    def test_tuples(self) -> None:
        """A Tableau and a Pair hold tuples, however they were made, and so they hash."""
        self.assertEqual(TABLEAU, ((2, 3, 3, 4), (0, 1, 0, 1)))
        self.assertEqual(repr(PAIR), "Pair(letters=(2, 3, 3, 4), marks=(0, 1, 0, 1), entries=(3, 2, 4, 1))")
        made = lu.Tableau(bytes(LETTERS), memoryview(bytes(MARKS))), lu.pair_of_word(4, [4, 3, 2, 3]).tableau, lu.Tableau._make((LETTERS, MARKS))
        for tableau in (*made, TABLEAU._replace(letters=tuple(LETTERS)), pickle.loads(pickle.dumps(TABLEAU)), copy.deepcopy(TABLEAU)):
            self.assertEqual(tableau, TABLEAU)
            self.assertEqual(hash(tableau), hash(TABLEAU))
            self.assertIs(type(tableau), lu.Tableau)
        inserted = lu.insert_letter(4, 3, lu.insert_letter(4, 2, lu.insert_letter(4, 3, lu.insert_letter(4, 4, [], [], []))))
        again = lu.Pair._make((LETTERS, MARKS, ENTRIES)), PAIR._replace(entries=tuple(ENTRIES)), pickle.loads(pickle.dumps(PAIR))
        for pair in (inserted, lu.pair_of_word(4, [4, 3, 2, 3]), *again):
            self.assertEqual(pair, PAIR)
            self.assertEqual(hash(pair), hash(PAIR))
            self.assertIs(type(pair), lu.Pair)

    def test_integers(self) -> None:
        """They hold integers and nothing else."""
        self.assertEqual(repr(lu.Tableau([True, 2], [False, True])), "Tableau(letters=(1, 2), marks=(0, 1))")
        self.assertEqual(lu.Tableau([-1, 10**40], [7]).letters, (-1, 10**40))
        for other in (1.5, "a", None, [1]):
            self.assertRaises(TypeError, lu.Tableau, [other], [0])
            self.assertRaises(TypeError, lu.Pair, [1], [0], [other])
        self.assertEqual(PAIR.tableau, TABLEAU)
        self.assertIs(type(PAIR.tableau), lu.Tableau)

    def test_moved(self) -> None:
        """What a move gives is taken apart, and told by name; only a tableau with its place is a key."""
        word, place = lu.raise_word(3, 2, [1, 3, 1])
        self.assertEqual((type(word), type(place)), (list, int))
        tableau, cell = lu.raise_tableau(3, 2, lu.pair_of_word(3, [1, 3, 1]).tableau)
        self.assertEqual((type(tableau), type(cell)), (lu.Tableau, int))
        moved_word, moved_tableau = lu.MovedWord([1, 2, 1], 1), lu.MovedTableau(lu.Tableau([1, 1, 2], [0, 0, 1]), 2)
        self.assertEqual((moved_word.word, moved_word.place, moved_tableau.tableau, moved_tableau.place), (word, place, tableau, cell))
        self.assertEqual(repr(moved_word), "MovedWord(word=[1, 2, 1], place=1)")
        for moved in (moved_word, moved_tableau):
            self.assertIs(type(pickle.loads(pickle.dumps(moved))), type(moved))
            self.assertRaises(AttributeError, setattr, moved, "place", 0)
        self.assertEqual({moved_tableau: 1}[lu.raise_tableau(3, 2, lu.pair_of_word(3, [3, 1, 1]).tableau)], 1)
        self.assertRaises(TypeError, hash, moved_word)
        calls: List[Tuple[Any, ...]] = [
            (lu.check_word, 3, moved_word), (lu.raise_word, 3, 1, moved_word), (lu.check_tableau, 3, moved_tableau),
            (lu.check_tableau, 3, *moved_tableau), (lu.raise_tableau, 3, 1, moved_tableau), (lu.product, 3, moved_tableau, tableau),
            (lu.Tableau, *moved_tableau),
        ]
        for call, *arguments in calls:  # What a move gives is not taken for the word or the tableau in it.
            self.assertRaises(TypeError, call, *arguments)

    def test_keys(self) -> None:
        classes = {lu.pair_of_word(4, word).tableau: word for word in ([4, 3, 2, 3], [3, 2, 4, 3], [2, 3, 3, 4])}
        self.assertEqual(len(classes), 2)

    def test_tableau_for_its_parts(self) -> None:
        calls: List[Tuple[Any, ...]] = [
            (lu.check_tableau, (4,), ()), (lu.column_reading, (4,), ()), (lu.raise_tableau, (4, 1), ()), (lu.lower_tableau, (4, 2), ()),
            (lu.raise_count_tableau, (4, 1), ()), (lu.lower_count_tableau, (4, 1), ()), (lu.write_tableau_line, (4,), ()), (lu.look, (4,), (2,)),
            (lu.cell_at, (), (2,)), (lu.class_size, (4,), ()), (lu.class_word, (4,), (3,)), (lu.class_word, (4,), (5,)),
        ]
        for call, before, after in calls:
            try:
                expected = call(*before, LETTERS, MARKS, *after)
            except lu.Refusal as refusal:
                self.refuses(refusal.number, refusal.place, call, *before, TABLEAU, *after)
            else:
                self.assertEqual(call(*before, TABLEAU, *after), expected)
            for other in ((TABLEAU, MARKS), (LETTERS,), (TABLEAU, TABLEAU), (PAIR,), ((LETTERS, MARKS),)):
                self.assertRaises(TypeError, call, *before, *other, *after)
        self.assertEqual(lu.look(4, TABLEAU, place=3), lu.Cell(4, 2, 1))
        self.assertEqual(lu.class_word(4, TABLEAU, number=3), [4, 3, 2, 3])
        self.assertEqual(lu.cell_at(TABLEAU, place=3), lu.Cell(4, 2, 1))
        self.assertEqual(lu.look(4, letters=LETTERS, marks=MARKS, place=3), lu.Cell(4, 2, 1))
        self.assertIsNone(lu.look(4, TABLEAU, 4))
        self.refuses(4, 3, lu.look, 3, TABLEAU, 0)

    def test_two_tableaux(self) -> None:
        """Each a Tableau or another pair of letters and marks; or all four lists, where a Tableau can stand for two."""
        letters, marks = [1, 2], [0, 1]
        expected = lu.Tableau([1, 2, 2, 3, 3, 4], [0, 1, 0, 1, 0, 1])
        second = lu.Tableau(letters, marks)
        self.assertEqual(lu.product(4, TABLEAU, second), expected)
        self.assertEqual(lu.product(4, first=TABLEAU, second=second), expected)
        self.assertEqual(lu.product(4, (LETTERS, MARKS), (letters, marks)), expected)
        self.assertEqual(lu.product(4, TABLEAU, (letters, marks)), expected)
        self.assertEqual(lu.product(4, (tuple(LETTERS), tuple(MARKS)), second), expected)
        self.assertEqual(lu.product(4, LETTERS, MARKS, letters, marks), expected)
        self.assertEqual(lu.product(4, TABLEAU, letters, marks), expected)
        self.assertEqual(lu.product(4, LETTERS, MARKS, second), expected)
        self.assertEqual(lu.product(4, tuple(LETTERS), tuple(MARKS), tuple(letters), tuple(marks)), expected)
        call: Callable[..., Any] = lu.product
        others: List[Tuple[Any, ...]] = [
            (TABLEAU,), (LETTERS, MARKS), (TABLEAU, letters), (LETTERS, MARKS, letters), (TABLEAU, second, second), (TABLEAU, letters, marks, marks),
            (LETTERS, MARKS, letters, marks, marks), (LETTERS, MARKS, second, marks), (TABLEAU, PAIR), (PAIR, TABLEAU), (TABLEAU, None), (TABLEAU, ()),
            (TABLEAU, [letters, marks]), ((1, 2), (0, 1)), (TABLEAU, b"12"), (TABLEAU, second, None),
        ]
        for other in others:
            self.assertRaises(TypeError, call, 4, *other)

    def test_pair_for_its_parts(self) -> None:
        lu.check_pair(4, PAIR)
        self.assertEqual(lu.word_of_pair(4, PAIR), [4, 3, 2, 3])
        self.assertEqual(lu.insert_letter(4, 1, PAIR), lu.insert_letter(4, 1, LETTERS, MARKS, ENTRIES))
        self.assertEqual(lu.remove_oldest(4, PAIR), lu.remove_oldest(4, LETTERS, MARKS, ENTRIES))
        line = b"P,4,4,2,d,3,r,3,d,4,3,2,4,1\n"
        self.assertEqual(lu.write_pair_line(4, PAIR), line)
        self.refuses(4, 3, lu.check_pair, 3, PAIR)
        for entries in (ENTRIES, tuple(ENTRIES), array("H", ENTRIES)):
            lu.check_pair(4, TABLEAU, entries)
            lu.check_pair(4, TABLEAU, entries=entries)
            self.assertEqual(lu.word_of_pair(4, TABLEAU, entries), [4, 3, 2, 3])
            self.assertEqual(lu.word_of_pair(4, TABLEAU, entries=entries), [4, 3, 2, 3])
            self.assertEqual(lu.write_pair_line(4, TABLEAU, entries), line)
            self.assertEqual(lu.write_pair_line(4, TABLEAU, entries=entries), line)
            self.assertEqual(lu.insert_letter(4, 1, TABLEAU, entries), lu.insert_letter(4, 1, PAIR))
            self.assertEqual(lu.insert_letter(4, 1, TABLEAU, entries=entries), lu.insert_letter(4, 1, PAIR))
            self.assertEqual(lu.remove_oldest(4, TABLEAU, entries), lu.remove_oldest(4, PAIR))
            self.assertEqual(lu.remove_oldest(4, TABLEAU, entries=entries), lu.remove_oldest(4, PAIR))
        self.refuses(8, 1, lu.check_pair, 4, TABLEAU, [1, 2, 3, 4])
        for other in ((PAIR, MARKS), (PAIR, MARKS, ENTRIES), (LETTERS, MARKS), (LETTERS,), (TABLEAU,), (TABLEAU, MARKS, ENTRIES), (TABLEAU, TABLEAU)):
            self.assertRaises(TypeError, lu.check_pair, 4, *other)
            self.assertRaises(TypeError, lu.word_of_pair, 4, *other)
            self.assertRaises(TypeError, lu.write_pair_line, 4, *other)
            self.assertRaises(TypeError, lu.insert_letter, 4, 1, *other)
            self.assertRaises(TypeError, lu.remove_oldest, 4, *other)
        self.assertRaises(TypeError, lu.insert_letter, 4, LETTERS, MARKS, ENTRIES, 1)


if __name__ == "__main__":
    unittest.main()
