"""Tests of the operations: document 01's checked words, the places that moves change, what they do not call, and products.

    python3 bindings/python/test_luchtrav.py
"""
import unittest
from itertools import product
from typing import List

from support import Case, lu, word_of


class CheckedWords(Case):
    """Document 01, "Checked words"."""

    def test_4323(self) -> None:
        word = word_of("4323")
        self.assertEqual(lu.answer(b"W,4,4,4,3,2,3\n"), b"P,4,4,2,d,3,r,3,d,4,3,2,4,1\nW,4,4,3,2,4,3\nJ,6,3\n")
        self.assertEqual(lu.pair_of_word(4, word), lu.Pair([2, 3, 3, 4], [0, 1, 0, 1], [3, 2, 4, 1]))
        self.assertEqual(lu.column_reading(4, [2, 3, 3, 4], [0, 1, 0, 1]), word_of("3243"))
        self.assertEqual(lu.junctions(4, word), (6, 3))
        self.assertEqual(lu.tableau_line_of_word(4, word), b"T,4,4,2,d,3,r,3,d,4\n")

    def test_12446553275(self) -> None:
        word = word_of("12446553275")
        letters, marks, entries = lu.pair_of_word(7, word)
        self.assertEqual(letters, (1, 2, 2, 3, 4, 4, 5, 5, 5, 6, 7))
        self.assertEqual(marks, (0, 0, 0, 1, 1, 0, 0, 0, 0, 1, 0))
        self.assertEqual(entries, (1, 2, 9, 8, 3, 4, 6, 7, 11, 5, 10))
        lu.check_pair(7, letters, marks, entries)
        self.assertEqual(lu.word_of_pair(7, letters, marks, entries), word)
        pair = lu.Pair([], [], [])
        for letter in word:
            pair = lu.insert_letter(7, letter, pair)
        self.assertEqual(pair, lu.Pair(letters, marks, entries))

    def test_empty_word(self) -> None:
        self.assertEqual(lu.answer(b"W,4,0\n"), b"P,4,0\nW,4,0\nJ,0,0\n")
        for word in ([], b""):
            self.assertEqual(lu.pair_of_word(4, word), ((), (), ()))
        self.assertEqual(lu.column_reading(4, [], []), [])
        self.assertEqual(lu.word_of_pair(4, [], [], []), [])
        self.assertEqual(lu.junctions(4, []), (0, 0))
        self.assertEqual(lu.write_pair_line(4, [], [], []), b"P,4,0\n")

    def test_433(self) -> None:
        self.assertEqual(lu.tableau_line_of_word(4, word_of("433")), b"T,4,3,3,r,3,d,4\n")
        pair = lu.pair_of_word(4, word_of("433"))
        self.assertEqual(pair.entries, (2, 3, 1))
        self.assertEqual(lu.column_reading(4, pair.tableau), word_of("343"))

    def test_243245565(self) -> None:
        self.assertEqual(lu.pair_of_word(6, word_of("243245565")).entries, (1, 4, 3, 2, 5, 6, 7, 9, 8))

    def test_moves(self) -> None:
        self.assertEqual(lu.lower_word(3, 1, word_of("3113")), lu.MovedWord(word_of("3123"), 2))
        self.refuses(10, 0, lu.raise_word, 3, 2, word_of("3123"))
        self.refuses(11, 0, lu.lower_word, 3, 2, word_of("3131"))
        self.assertEqual(lu.raise_word(3, 2, word_of("3131")), lu.MovedWord(word_of("2131"), 0))
        self.assertEqual(lu.raise_word(3, 2, word_of("31")), lu.MovedWord(word_of("21"), 0))

    def test_classes_and_weights(self) -> None:
        self.assertIs(lu.same_class(4, word_of("3243"), 4, word_of("4323")), True)
        self.assertIs(lu.same_class(4, word_of("2334"), 4, word_of("4323")), False)
        self.assertEqual(lu.compare_weights(6, word_of("542164325224"), 6, word_of("432143212111")), "lower")
        self.assertEqual(lu.compare_weights(6, word_of("432143212111"), 6, word_of("542164325224")), "higher")
        self.assertEqual(lu.compare_weights(6, word_of("21"), 6, word_of("12")), "equal")
        self.assertEqual(lu.compare_weights(6, word_of("22"), 6, word_of("13")), "neither")

    def test_limits(self) -> None:
        for rank in (1, 64):
            lu.check_word(rank, [1])
        for rank in (0, 65):
            self.refuses(1, 0, lu.check_word, rank, [1])
        self.assertEqual(lu.pair_of_word(1, [1] * 1024).entries, tuple(range(1, 1025)))
        self.refuses(2, 0, lu.pair_of_word, 1, [1] * 1025)
        self.refuses(9, 0, lu.raise_word, 1, 1, [1])

    def test_lines(self) -> None:
        self.refuses(14, 7, lu.read_word_line, b"W,4,2,3\n")
        self.refuses(4, 0, lu.read_word_line, b"W,4,1,5\n")
        self.assertEqual(lu.answer(b"W,4,2,3\n"), b"E,14,7\n")
        self.assertEqual(lu.answer(b"W,4,1,5\n"), b"E,4,0\n")
        self.assertEqual(lu.answer(b"x" * 4097), b"E,14,4096\n")


class ChangedPlaces(Case):
    """Which letter a move changes, in a word and in its tableau."""

    def test_word_and_cell(self) -> None:
        """First, middle and last places; two words of one class whose places differ, while the cell is one."""
        for rank, raising, index, digits, place, cell in (
            (3, False, 1, "3113", 2, 1), (3, True, 2, "3131", 0, 2), (3, True, 2, "31", 0, 1), (3, True, 2, "131", 1, 2), (3, True, 2, "311", 0, 2),
            (7, False, 6, "12446553275", 4, 9), (7, False, 1, "12446553275", 0, 0), (7, True, 6, "12446553275", 9, 10), (3, False, 2, "2123", 2, 2),
            (2, True, 1, "122", 1, 1), (2, True, 1, "22", 0, 0), (2, False, 1, "11", 1, 1), (4, False, 2, "2114", 0, 2),
        ):
            word = word_of(digits)
            pair = lu.pair_of_word(rank, word)
            tableau, entries = pair.tableau, pair.entries
            move_word, move_tableau = (lu.raise_word, lu.raise_tableau) if raising else (lu.lower_word, lu.lower_tableau)
            new = index if raising else index + 1
            moved = [new if at == place else letter for at, letter in enumerate(word)]
            self.assertEqual(move_word(rank, index, word), lu.MovedWord(moved, place))
            letters = [new if at == cell else letter for at, letter in enumerate(tableau.letters)]
            self.assertEqual(move_tableau(rank, index, tableau), lu.MovedTableau(lu.Tableau(letters, tableau.marks), cell))
            self.assertEqual(entries[cell], place + 1)

    def test_tableau_alone(self) -> None:
        self.assertEqual(lu.raise_tableau(4, 2, [2, 3, 3], [0, 0, 0]), lu.MovedTableau(lu.Tableau([2, 2, 3], [0, 0, 0]), 1))
        self.refuses(10, 0, lu.raise_tableau, 4, 2, [2, 3, 3], [0, 1, 0])
        self.assertEqual(lu.lower_tableau(4, 2, [1, 2, 2, 4], [0, 1, 0, 1]), lu.MovedTableau(lu.Tableau([1, 2, 3, 4], [0, 1, 0, 1]), 2))

    def test_last_of_1024(self) -> None:
        self.assertEqual(lu.raise_word(2, 1, [1] * 1023 + [2]), lu.MovedWord([1] * 1024, 1023))
        self.assertEqual(lu.lower_word(2, 1, [1] * 1024), lu.MovedWord([1] * 1023 + [2], 1023))
        level = [0] * 1024
        self.assertEqual(lu.raise_tableau(2, 1, [1] * 1023 + [2], level), lu.MovedTableau(lu.Tableau([1] * 1024, level), 1023))
        self.assertEqual(lu.lower_tableau(2, 1, [1] * 1024, level), lu.MovedTableau(lu.Tableau([1] * 1023 + [2], level), 1023))

    def test_all_short_words(self) -> None:
        """All words of up to five letters over 1 to 3: the letter that the rule names and no other, in word and tableau, joined by the recording; both
        are refused alike."""
        made = 0
        for length in range(6):
            for word in product((1, 2, 3), repeat=length):
                made += sum(self.moves_alike(index, list(word)) for index in (1, 2))
        self.assertEqual(made, 516)

    def moves_alike(self, index: int, word: List[int]) -> int:
        """Both moves at an index, on a word over 1 to 3 and on its tableau: how many were made."""
        pair = lu.pair_of_word(3, word)
        tableau, entries = pair.tableau, pair.entries
        made = 0
        for raising, move_word, move_tableau in ((True, lu.raise_word, lu.raise_tableau), (False, lu.lower_word, lu.lower_tableau)):
            try:
                moved, place = move_word(3, index, word)
            except lu.Refusal as refusal:
                self.refuses(refusal.number, 0, move_tableau, 3, index, tableau)
                continue
            made += 1
            (letters, marks), cell = move_tableau(3, index, tableau)
            self.changed_alone(raising, index, place, word, moved)
            self.changed_alone(raising, index, cell, list(tableau.letters), list(letters))
            self.assertEqual((marks, entries[cell]), (tableau.marks, place + 1))
        return made

    def changed_alone(self, raising: bool, index: int, place: int, before: List[int], after: List[int]) -> None:
        """The letter at the place was changed as the move does, no other was, and none before it (raising) or after it (lowering) was to be."""
        old, new = (index + 1, index) if raising else (index, index + 1)
        self.assertEqual((before[place], after[place]), (old, new))
        self.assertEqual(before[:place] + before[place + 1 :], after[:place] + after[place + 1 :])
        self.assertNotIn(old, before[:place] if raising else before[place + 1 :])


class Operations(Case):
    """What the checked words do not call."""

    def test_tableau_moves(self) -> None:
        letters, marks = lu.pair_of_word(3, word_of("3113")).tableau
        self.assertEqual(lu.lower_tableau(3, 1, letters, marks), lu.MovedTableau(lu.Tableau([1, 2, 3, 3], marks), 1))
        self.assertEqual(lu.raise_tableau(3, 2, letters, marks), lu.MovedTableau(lu.Tableau([1, 1, 2, 3], marks), 2))
        self.assertEqual(lu.lower_count_tableau(3, 1, letters, marks), 2)
        self.assertEqual(lu.raise_count_tableau(3, 2, letters, marks), 2)
        self.refuses(10, 0, lu.raise_tableau, 4, 2, [2, 3], [0, 1])
        self.refuses(11, 0, lu.lower_tableau, 4, 3, [2, 4], [0, 1])
        self.refuses(9, 0, lu.raise_count_tableau, 4, 4, [2, 4], [0, 1])

    def test_repeat_counts(self) -> None:
        self.assertEqual(lu.raise_count_word(3, 2, word_of("3131")), 2)
        self.assertEqual(lu.lower_count_word(3, 1, word_of("3113")), 2)
        self.assertEqual(lu.raise_count_word(3, 2, word_of("3123")), 0)

    def test_cells(self) -> None:
        letters, marks = [2, 3, 3, 4], [0, 1, 0, 1]
        cells = [(2, 0, 0), (3, 1, 0), (3, 1, 1), (4, 2, 1), None]
        self.assertEqual([lu.look(4, letters, marks, place) for place in range(5)], cells)
        self.assertEqual([lu.cell_at(letters, marks, place) for place in range(5)], cells)
        self.assertEqual(lu.cell_at([9, 1], [7], 1), (1, 0, 0))
        self.refuses(4, 3, lu.look, 3, letters, marks, 99)

    def test_products(self) -> None:
        for rank, first, second, letters, marks in (
            (3, "31", "2", "123", "001"), (3, "2", "31", "123", "010"), (3, "13", "2", "123", "001"), (2, "2", "1", "12", "01"), (2, "1", "2", "12", "00"),
            (2, "21", "21", "1122", "0010"), (4, "4323", "21", "122334", "010101"), (4, "", "433", "334", "001"), (4, "433", "", "334", "001"),
            (4, "", "", "", ""), (7, "12446553275", "4323", "122233344455567", "000010010010010"),
        ):
            product = lu.product(rank, lu.pair_of_word(rank, word_of(first)).tableau, lu.pair_of_word(rank, word_of(second)).tableau)
            self.assertEqual(product, lu.Tableau(word_of(letters), word_of(marks)))
            self.assertIs(type(product), lu.Tableau)

    def test_laws_of_products(self) -> None:
        """Words one after the other, three factors either way, and the empty tableau, on all words of up to two letters over 1 to 3."""
        words = [word_of(digits) for digits in ("", "1", "2", "3", "11", "12", "13", "21", "22", "23", "31", "32", "33")]
        tableaux = {tuple(word): lu.pair_of_word(3, word).tableau for word in words}
        empty = lu.Tableau([], [])
        for u, first in tableaux.items():
            self.assertEqual(lu.product(3, empty, first), first)
            self.assertEqual(lu.product(3, first, empty), first)
            for v, second in tableaux.items():
                self.assertEqual(lu.product(3, first, second), lu.pair_of_word(3, u + v).tableau)
                for third in tableaux.values():
                    self.assertEqual(lu.product(3, lu.product(3, first, second), third), lu.product(3, first, lu.product(3, second, third)))

    def test_longest_product(self) -> None:
        word = [64 - place % 64 for place in range(1024)]
        for cut in (0, 1, 512, 1024):
            first, second = (lu.pair_of_word(64, part).tableau for part in (word[:cut], word[cut:]))
            self.assertEqual(lu.product(64, first, second), lu.pair_of_word(64, word).tableau)
        self.refuses(2, 0, lu.product, 64, lu.pair_of_word(64, word).tableau, lu.Tableau([1], [0]))

    def test_lines_there_and_back(self) -> None:
        word = word_of("12446553275")
        pair = lu.pair_of_word(7, word)
        tableau = pair.tableau
        self.assertEqual(lu.read_word_line(lu.write_word_line(7, word)), (7, word))
        self.assertEqual(lu.read_tableau_line(lu.write_tableau_line(7, tableau)), (7, tableau))
        self.assertEqual(lu.read_pair_line(lu.write_pair_line(7, pair)), (7, pair))
        self.assertEqual(lu.write_tableau_line(7, tableau), lu.tableau_line_of_word(7, word))
        self.assertEqual(lu.write_junction_line(4, word_of("4323")), b"J,6,3\n")
        self.assertEqual(lu.write_refusal_line(14, 7), b"E,14,7\n")
        self.assertEqual(lu.write_refusal_line(2**64 - 1, 2**64 - 1), b"E,18446744073709551615,18446744073709551615\n")

    def test_longest(self) -> None:
        word = [64 - place % 64 for place in range(1024)]
        pair = lu.pair_of_word(64, word)
        self.assertEqual((list(pair.letters), sum(pair.marks)), (sorted(word), 63))
        self.assertEqual(lu.word_of_pair(64, pair), word)
        for line, length in ((lu.write_tableau_line(64, [10] * 1024, [0] * 1024), 5128), (lu.write_word_line(64, [64] * 1024), 3082),
                             (lu.write_pair_line(64, [10] * 1024, [0] * 1024, range(1, 1025)), 9141)):
            self.assertEqual(len(line), length)
        self.assertEqual(lu.answer(lu.write_word_line(64, word)), b"".join((
            lu.write_pair_line(64, pair), lu.write_word_line(64, lu.column_reading(64, pair.tableau)), lu.write_junction_line(64, word),
        )))
        self.assertEqual(lu.junctions(64, word), (2**63 - 1, 64))


if __name__ == "__main__":
    unittest.main()
