"""Tests of letter counts: what every tableau brings along (document 02, N6), how it is made, kept true and judged.

    python3 bindings/python/test_counts.py
"""
import copy
import pickle
import unittest
from array import array
from itertools import product
from typing import Any, Callable, List, Sequence, Tuple

from support import ENTRIES, LETTERS, MARKS, PAIR, TABLEAU, Case, lu, word_of


def counts_of(letters: Sequence[int]) -> Tuple[int, ...]:
    """How often each of the letters 1 to 64 occurs."""
    return tuple(list(letters).count(letter) for letter in range(1, 65))


def wrong(place: int, count: int) -> lu.Tableau:
    """4323's tableau with another count at a place."""
    counts = list(TABLEAU.counts)
    counts[place] = count
    return lu.Tableau(LETTERS, MARKS, counts)


class Values(Case):
    def test_of_letters(self) -> None:
        """They count the letters, whatever these are made from; what is no letter does not count."""
        for letters in (LETTERS, tuple(LETTERS), bytes(LETTERS), array("q", LETTERS)):
            self.assertEqual(lu.Tableau(letters, MARKS).counts, (0, 1, 2, 1) + (0,) * 60)
            self.assertEqual(lu.Pair(letters, MARKS, ENTRIES).counts, TABLEAU.counts)
        self.assertEqual(lu.Tableau([], []).counts, (0,) * 64)
        self.assertEqual(lu.Tableau([1, 64, 64, 65, 0, -1, 10**40, True], []).counts, (2,) + (0,) * 62 + (2,))
        self.assertEqual(lu.Tableau([7] * 70000, []).counts[6], 70000)

    def test_stored(self) -> None:
        """Up to 64 numbers as they were given; zeros at the end may be left out."""
        self.assertEqual(lu.Tableau(LETTERS, MARKS, [0, 1, 2, 1]).counts, TABLEAU.counts)
        self.assertEqual(lu.Tableau(LETTERS, MARKS, counts=TABLEAU.counts).counts, TABLEAU.counts)
        self.assertEqual(lu.Pair(LETTERS, MARKS, ENTRIES, array("H", [9])).counts, (9,) + (0,) * 63)
        self.assertEqual(lu.Tableau(LETTERS, MARKS, range(64)).counts, tuple(range(64)))
        self.assertEqual(lu.Tableau(LETTERS, MARKS, [-1, 10**40]).counts[:3], (-1, 10**40, 0))
        self.assertEqual(lu.Tableau(LETTERS, MARKS, []).counts, (0,) * 64)
        made: List[Callable[[Any], Any]] = [lambda counts: lu.Tableau(LETTERS, MARKS, counts), lambda counts: lu.Pair(LETTERS, MARKS, ENTRIES, counts)]
        for make in made:
            self.assertRaises(ValueError, make, [0] * 65)
            for other in (1, "1", {1}, [1.0], [None]):
                self.assertRaises(TypeError, make, other)
        self.assertRaises(AttributeError, setattr, TABLEAU, "counts", ())

    def test_keys(self) -> None:
        """Letters and marks tell two of them apart, and nothing else does."""
        alike: List[Tuple[Any, Any]] = [(TABLEAU, wrong(3, 7)), (PAIR, lu.Pair(LETTERS, MARKS, ENTRIES, [5]))]
        for one, other in alike:
            self.assertEqual(one, other)
            self.assertEqual(hash(one), hash(other))
            self.assertNotEqual(one.counts, other.counts)
        self.assertEqual(len({TABLEAU, lu.pair_of_word(4, [4, 3, 2, 3]).tableau, lu.pair_of_word(6, [3, 2, 4, 3]).tableau, wrong(0, 1)}), 1)
        letters, marks = wrong(0, 1)
        self.assertEqual((letters, marks), TABLEAU)

    def test_text(self) -> None:
        """Counts are shown where they are not those of the letters, and what is shown can be read."""
        self.assertEqual(repr(lu.pair_of_word(4, [4, 3, 2, 3]).tableau), "Tableau(letters=(2, 3, 3, 4), marks=(0, 1, 0, 1))")
        self.assertEqual(repr(lu.Tableau([2], [0], [0, 1])), "Tableau(letters=(2,), marks=(0,))")
        self.assertEqual(repr(wrong(0, 1)), "Tableau(letters=(2, 3, 3, 4), marks=(0, 1, 0, 1), counts=(1, 1, 2, 1))")
        self.assertEqual(repr(lu.Pair([2], [0], [1], [])), "Pair(letters=(2,), marks=(0,), entries=(1,), counts=())")
        values: List[Any] = [wrong(0, 1), wrong(63, 5), lu.Tableau([2], [0], []), lu.Pair(LETTERS, MARKS, ENTRIES, [0, 0, 3])]
        for value in values:
            again = eval(repr(value), {"Tableau": lu.Tableau, "Pair": lu.Pair})
            self.assertEqual((again, again.counts), (value, value.counts))

    def test_copies(self) -> None:
        values: List[Any] = [TABLEAU, wrong(63, 5), PAIR, lu.Pair(LETTERS, MARKS, ENTRIES, [0, 0, 3])]
        for value in values:
            for again in (pickle.loads(pickle.dumps(value)), copy.copy(value), copy.deepcopy(value)):
                self.assertEqual((type(again), again, again.counts), (type(value), value, value.counts))
        self.assertEqual(lu.Pair(LETTERS, MARKS, ENTRIES, [0, 0, 3]).tableau.counts[:4], (0, 0, 3, 0))
        replaced = wrong(63, 5)._replace(letters=(2, 3, 3, 3))
        self.assertEqual(replaced.counts, counts_of([2, 3, 3, 3]))


class KeptTrue(Case):
    """What is given has true counts, those that the kernel gave."""

    def test_given(self) -> None:
        for rank, digits in ((4, "4323"), (7, "12446553275"), (4, ""), (9, "999")):
            word = word_of(digits)
            pair = lu.pair_of_word(rank, word)
            tableau = pair.tableau
            self.assertEqual((pair._counts, tableau._counts), (counts_of(word),) * 2)
            self.assertEqual(lu.read_tableau_line(lu.write_tableau_line(rank, tableau))[1]._counts, counts_of(word))
            self.assertEqual(lu.read_pair_line(lu.write_pair_line(rank, pair))[1]._counts, counts_of(word))
            self.assertEqual(lu.read_run_line(lu.write_run_line(rank, tableau))[1]._counts, counts_of(word))
            self.assertEqual(lu.product(rank, tableau, tableau)._counts, counts_of(word + word))
        self.assertEqual(lu.pair_of_word(64, list(range(1, 65)) * 16)._counts, (16,) * 64)

    def test_insertion(self) -> None:
        pair, word = lu.Pair([], [], []), word_of("12446553275")
        for place, letter in enumerate(word):
            pair = lu.insert_letter(7, letter, pair)
            self.assertEqual((pair._counts, pair.tableau._counts), (counts_of(word[: place + 1]),) * 2)
        self.assertEqual(lu.insert_letter(4, 1, LETTERS, MARKS, ENTRIES)._counts, (1, 1, 2, 1) + (0,) * 60)
        self.assertEqual(lu.insert_letter(64, 64, TABLEAU, ENTRIES)._counts, (0, 1, 2, 1) + (0,) * 59 + (1,))

    def test_moves(self) -> None:
        """Two counts change: one less of the letter that was, one more of the letter that is."""
        made = 0
        for length in range(5):
            for word in product((1, 2, 3), repeat=length):
                tableau = lu.pair_of_word(3, word).tableau
                for move, index in product((lu.raise_tableau, lu.lower_tableau), (1, 2)):
                    try:
                        moved, _ = move(3, index, tableau)
                    except lu.Refusal:
                        continue
                    made += 1
                    self.assertEqual(moved._counts, counts_of(moved.letters))
                    self.assertEqual(sorted(b - a for a, b in zip(tableau.counts, moved.counts) if a != b), [-1, 1])
        self.assertEqual(made, 196)
        self.assertEqual(lu.raise_tableau(64, 63, [64, 64], [0, 0]).tableau._counts, (0,) * 62 + (1, 1))
        self.assertEqual(lu.lower_tableau(64, 63, [63, 63], [0, 0]).tableau._counts, (0,) * 62 + (1, 1))


class Judged(Case):
    def calls(self, tableau: lu.Tableau) -> List[Tuple[Any, ...]]:
        """Every function that judges counts, on a tableau of 4323's letters and marks."""
        pair = lu.Pair(*tableau, ENTRIES, tableau.counts)
        return [
            (lu.check_counted_tableau, 4, tableau), (lu.check_counted_tableau, 4, *tableau, tableau.counts), (lu.column_reading, 4, tableau),
            (lu.raise_tableau, 4, 1, tableau), (lu.lower_tableau, 4, 2, tableau), (lu.raise_count_tableau, 4, 1, tableau),
            (lu.lower_count_tableau, 4, 1, tableau), (lu.class_size, 4, tableau), (lu.class_word, 4, tableau, 0), (lu.check_counted_pair, 4, pair),
            (lu.check_counted_pair, 4, tableau, ENTRIES), (lu.check_counted_pair, 4, *tableau, ENTRIES, tableau.counts), (lu.word_of_pair, 4, pair),
            (lu.word_of_pair, 4, tableau, ENTRIES), (lu.insert_letter, 4, 1, pair), (lu.insert_letter, 4, 1, tableau, ENTRIES),
            (lu.remove_oldest, 4, pair), (lu.remove_oldest, 4, tableau, ENTRIES),
            (lu.product, 4, tableau, TABLEAU), (lu.product, 4, tableau, LETTERS, MARKS), (lu.same_class_of_tableaux, 4, tableau, 4, TABLEAU),
            (lu.compare_weights_of_tableaux, 4, tableau, 4, TABLEAU),
        ]

    def test_places(self) -> None:
        """17 at the first wrong count, in every function, with the count as it was given; one that does not fit 16 bits is wrong too."""
        for place, count in ((0, 1), (0, 65535), (1, 0), (2, 1), (2, 3), (2, 258), (3, 2**16 + 1), (4, 1), (62, 1), (63, 1), (2, -1), (2, 10**40), (0, 2**16)):
            for call, *arguments in self.calls(wrong(place, count)):
                refusal = self.refusal(call, *arguments)
                self.assertEqual((refusal, refusal.value), (lu.Refusal(17, place), count))
        first = lu.Tableau(LETTERS, MARKS, [0, 0, 3, 0])
        self.refuses(17, 1, lu.column_reading, 4, first)
        for call, *arguments in self.calls(TABLEAU):
            try:
                call(*arguments)
            except lu.Refusal as refusal:
                self.assertEqual((call, refusal.number), (lu.lower_tableau, 10))
        self.assertEqual(
            str(self.refusal(lu.column_reading, 4, wrong(2, 7))),
            "column_reading: refusal 17 at place 2: count that is not how often its letter occurs (7)",
        )

    def test_seconds(self) -> None:
        """In a second tableau 64 more, and the first is searched first."""
        for place in (0, 2, 63):
            bad = wrong(place, 9)
            calls: List[Tuple[Any, ...]] = [
                (lu.product, 4, TABLEAU, bad), (lu.product, 4, LETTERS, MARKS, bad), (lu.same_class_of_tableaux, 4, TABLEAU, 4, bad),
                (lu.compare_weights_of_tableaux, 4, (LETTERS, MARKS), 6, bad),
            ]
            for call, *arguments in calls:
                refusal = self.refusal(call, *arguments)
                self.assertEqual((refusal, refusal.value), (lu.Refusal(17, 64 + place), 9))
            self.refuses(17, 63, lu.product, 4, wrong(63, 1), bad)
            self.refuses(17, 63, lu.same_class_of_tableaux, 4, wrong(63, 1), 4, bad)

    def test_order(self) -> None:
        """Directly after 6, before 7, 8, 9, 12 and 15."""
        bad = wrong(63, 1)
        self.refuses(6, 2, lu.column_reading, 4, lu.Tableau(LETTERS, [0, 1, 1, 1], [9]))
        self.refuses(5, 1, lu.check_counted_tableau, 4, [2, 1], [0, 0], [])
        self.refuses(4, 3, lu.raise_tableau, 3, 1, bad)
        self.refuses(3, 0, lu.check_counted_tableau, 4, LETTERS, MARKS[1:], [])
        self.refuses(2, 0, lu.check_counted_tableau, 4, [1] * 1025, [0] * 1025, [1025])
        self.refuses(2, 0, lu.column_reading, 4, [1] * 70000, [0] * 70000)
        self.refuses(1, 0, lu.class_size, 65, bad)
        self.refuses(4, 4, lu.insert_letter, 4, 5, bad, ENTRIES)
        self.refuses(17, 63, lu.word_of_pair, 4, bad, [3, 2, 2, 1])
        self.refuses(17, 63, lu.word_of_pair, 4, bad, [3, 4, 2, 1])
        self.refuses(7, 2, lu.word_of_pair, 4, TABLEAU, [3, 2, 2, 1])
        self.refuses(17, 63, lu.raise_tableau, 4, 9, bad)
        self.refuses(17, 63, lu.raise_count_tableau, 4, 9, bad)
        full = lu.Pair([1] * 1024, [0] * 1024, list(range(1, 1025)), [1023])
        self.refuses(17, 0, lu.insert_letter, 4, 1, full)
        self.refuses(12, 1024, lu.insert_letter, 4, 1, lu.Pair(*full))
        self.refuses(17, 0, lu.class_size, 4, lu.Tableau([1] * 21, [0] * 21, [20]))
        self.refuses(17, 63, lu.class_word, 4, bad, 5)
        self.refuses(6, 6, lu.product, 4, bad, lu.Tableau([2, 2, 2], [0, 0, 1], [9]))
        self.refuses(6, 5, lu.same_class_of_tableaux, 4, bad, 4, ([3, 3], [0, 1]))

    def test_unjudged(self) -> None:
        """Lines, cells and the checks of letters, marks and entries alone do not look at counts."""
        bad = wrong(0, 1)
        self.assertEqual(lu.write_tableau_line(4, bad), b"T,4,4,2,d,3,r,3,d,4\n")
        self.assertEqual(lu.write_run_line(4, bad), b"C,4,4,2,1,d,3,2,d,4,1\n")
        self.assertEqual(lu.write_pair_line(4, bad, ENTRIES), b"P,4,4,2,d,3,r,3,d,4,3,2,4,1\n")
        self.assertEqual(lu.look(4, bad, 3), lu.Cell(4, 2, 1))
        self.assertEqual(lu.cell_at(bad, 3), lu.Cell(4, 2, 1))
        lu.check_tableau(4, bad)
        lu.check_pair(4, lu.Pair(LETTERS, MARKS, ENTRIES, [9]))

    def test_callers_own_stay(self) -> None:
        counts = array("H", TABLEAU.counts)
        tableau = lu.Tableau(LETTERS, MARKS, counts)
        lu.raise_tableau(4, 1, tableau)
        lu.insert_letter(4, 1, tableau, ENTRIES)
        lu.remove_oldest(4, tableau, ENTRIES)
        self.assertEqual((tableau.counts, tuple(counts)), (TABLEAU.counts,) * 2)

    def test_no_counts(self) -> None:
        """The counted checks want counts beside lists, and none beside a Tableau or a Pair."""
        calls: List[Tuple[Any, ...]] = [
            (lu.check_counted_tableau, 4, LETTERS, MARKS), (lu.check_counted_tableau, 4, TABLEAU, MARKS), (lu.check_counted_tableau, 4, PAIR),
            (lu.check_counted_tableau, 4, TABLEAU, None, [1]), (lu.check_counted_pair, 4, LETTERS, MARKS, ENTRIES), (lu.check_counted_pair, 4, TABLEAU),
            (lu.check_counted_pair, 4, PAIR, None, None, [1]), (lu.check_counted_pair, 4, PAIR, ENTRIES), (lu.same_class_of_tableaux, 4, PAIR, 4, TABLEAU),
            (lu.same_class_of_tableaux, 4, TABLEAU, 4, LETTERS), (lu.compare_weights_of_tableaux, 4, TABLEAU, 4, None),
        ]
        for call, *arguments in calls:
            self.assertRaises(TypeError, call, *arguments)
        self.assertRaises(ValueError, lu.check_counted_tableau, 4, LETTERS, MARKS, [0] * 65)


if __name__ == "__main__":
    unittest.main()
