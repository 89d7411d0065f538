"""Tests of the words of a class by number: document 02's classes, all short words, the largest classes, and refusals in their order.

    python3 bindings/python/test_classes.py
"""
import unittest
from itertools import product
from typing import Dict, List

from support import Case, lu, word_of

# The ribbon of 20 cells that goes down at every other step: the largest class there is.
LARGEST = lu.Tableau(list(range(1, 21)), [0, 1] * 10)
LARGEST_SIZE = 370371188237525


class Classes(Case):
    def test_4323(self) -> None:
        tableau = lu.pair_of_word(4, word_of("4323")).tableau
        words = [word_of(digits) for digits in ("3243", "3423", "3432", "4323", "4332")]
        self.assertEqual(lu.class_size(4, tableau), 5)
        self.assertEqual([lu.class_word(4, tableau, number) for number in range(5)], words)
        self.assertEqual([lu.class_number(4, word) for word in words], [0, 1, 2, 3, 4])
        self.refuses(16, 0, lu.class_word, 4, tableau, 5)

    def test_examples(self) -> None:
        for rank, digits, size, number, first, last in (
            (4, "421323", 61, 45, "213243", "433221"), (4, "143214", 19, 0, "143214", "443211"), (3, "3113", 5, 2, "1313", "3311"),
            (7, "12446553275", 15399, 260, "12432455657", "67445553122"), (2, "1", 1, 0, "1", "1"), (2, "", 1, 0, "", ""), (9, "987", 1, 0, "987", "987"),
        ):
            word = word_of(digits)
            tableau = lu.pair_of_word(rank, word).tableau
            self.assertEqual((lu.class_size(rank, tableau), lu.class_number(rank, word)), (size, number))
            self.assertEqual([lu.class_word(rank, tableau, k) for k in (0, number, size - 1)], [word_of(first), word, word_of(last)])
            self.refuses(16, 0, lu.class_word, rank, tableau, size)

    def test_largest(self) -> None:
        self.assertEqual(lu.class_size(20, LARGEST), LARGEST_SIZE)
        for number in (0, 1, 247997108057619, LARGEST_SIZE // 2, LARGEST_SIZE - 2, LARGEST_SIZE - 1):
            word = lu.class_word(64, LARGEST, number)
            self.assertEqual(lu.class_number(20, word), number)
            self.assertEqual(lu.pair_of_word(20, word).tableau, LARGEST)
        self.assertEqual(lu.class_word(20, LARGEST, LARGEST_SIZE - 1), [20, 18, 19, 16, 17, 14, 15, 12, 13, 10, 11, 8, 9, 6, 7, 4, 5, 2, 3, 1])
        self.refuses(16, 0, lu.class_word, 20, LARGEST, LARGEST_SIZE)

    def test_one_word(self) -> None:
        for word in ([7] * 20, list(range(1, 21)), list(range(20, 0, -1)), []):
            self.assertEqual((lu.class_size(20, lu.pair_of_word(20, word).tableau), lu.class_number(20, word)), (1, 0))
            self.assertEqual(lu.class_word(20, lu.pair_of_word(20, word).tableau, 0), word)

    def test_all_short_words(self) -> None:
        """All words of up to six letters over 1 to 3, put into their classes in dictionary order: sizes, words and numbers are those of the lists."""
        for length in range(7):
            classes: Dict[lu.Tableau, List[List[int]]] = {}
            for letters in product((1, 2, 3), repeat=length):
                classes.setdefault(lu.pair_of_word(3, letters).tableau, []).append(list(letters))
            for tableau, words in classes.items():
                self.assertEqual(lu.class_size(3, tableau), len(words))
                self.assertEqual([lu.class_word(3, tableau, number) for number in range(len(words))], words)
                self.assertEqual([lu.class_number(3, word) for word in words], list(range(len(words))))

    def test_rank(self) -> None:
        """The rank bounds the letters and changes nothing else."""
        for rank in (4, 5, 64):
            self.assertEqual((lu.class_size(rank, [2, 3, 3, 4], [0, 1, 0, 1]), lu.class_number(rank, [4, 3, 2, 3])), (5, 3))
            self.assertEqual(lu.class_word(rank, [2, 3, 3, 4], [0, 1, 0, 1], 3), [4, 3, 2, 3])


class Refusals(Case):
    def test_tableaux(self) -> None:
        """1 to 6, each at a first, a middle and a last place, then 15, then 16."""
        level = [0] * 21
        for number, place, rank, letters, marks in (
            (1, 0, 0, [1], [0]), (1, 0, 65, [1] * 1025, level), (2, 0, 4, [1] * 1025, []), (3, 0, 4, [1, 2], [0]), (3, 0, 4, [5] * 21, level[1:]),
            (4, 0, 4, [5, 1, 1], [0, 0, 0]), (4, 1, 4, [1, 0, 2], [0, 0, 0]), (4, 20, 4, [1] * 20 + [5], level),
            (5, 1, 4, [2, 1, 3], [0, 0, 0]), (5, 2, 4, [1, 3, 2, 4], [0] * 4), (5, 20, 4, [2] * 20 + [1], level),
            (6, 0, 4, [1, 2, 3], [1, 0, 0]), (6, 1, 4, [1, 2, 3], [0, 2, 0]), (6, 20, 4, [1] * 21, level[1:] + [1]),
            (15, 0, 4, [1] * 21, level), (15, 0, 4, [1] * 1024, [0] * 1024),
        ):
            self.refuses(number, place, lu.class_size, rank, letters, marks)
            for asked in (0, 2**64 - 1):
                self.refuses(number, place, lu.class_word, rank, letters, marks, asked)

    def test_words(self) -> None:
        for number, place, rank, word in (
            (1, 0, 65, [1]), (1, 0, 0, [1] * 1025), (2, 0, 4, [5] * 1025), (4, 0, 4, [5, 1, 1]), (4, 1, 4, [1, 0, 1]), (4, 20, 4, [1] * 20 + [5]),
            (15, 0, 4, [1] * 21), (15, 0, 4, [4] * 1024),
        ):
            self.refuses(number, place, lu.class_number, rank, word)

    def test_numbers(self) -> None:
        """The size and all above it, also what does not fit 64 bits, and what is negative."""
        for number in (5, 6, 2**32, 2**32 + 4, 2**63, 2**64 - 1, 2**64, 2**64 + 4, 10**40, -1, -5, -(2**64), -(10**40)):
            self.refuses(16, 0, lu.class_word, 4, [2, 3, 3, 4], [0, 1, 0, 1], number)
            self.refuses(16, 0, lu.class_word, 4, [], [], number)
        self.refuses(16, 0, lu.class_word, 4, [], [], 1)
        self.assertEqual(lu.class_word(4, [1], [0], False), [1])
        for other in (1.0, "1", None, [1]):
            self.assertRaises(TypeError, lu.class_word, 4, [1], [0], other)


if __name__ == "__main__":
    unittest.main()
