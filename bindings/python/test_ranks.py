"""Tests of words of two ranks: the rank bounds letters and the indices of moves, and is no part of the class (document 02, N5).

    python3 bindings/python/test_ranks.py
"""
import unittest
from itertools import product
from typing import Callable, List, Optional, Tuple

from support import Case, lu, word_of

Move = Callable[[int, int, List[int]], lu.MovedWord]

# All words of at most three letters over 1 to 3.
WORDS = [list(letters) for length in range(4) for letters in product((1, 2, 3), repeat=length)]


def unranked(rank: int, word: List[int]) -> bytes:
    """The T line of a word without its rank field."""
    kind, _, rest = lu.tableau_line_of_word(rank, word).split(b",", 2)
    return kind + b"," + rest


def made(move: Move, rank: int, index: int, word: List[int]) -> Tuple[int, Optional[List[int]]]:
    """0 and the word that a move made, or the number that it was refused with."""
    try:
        return 0, move(rank, index, word).word
    except lu.Refusal as refusal:
        return refusal.number, None


class Ranks(Case):
    def test_examples(self) -> None:
        for same, first_rank, first, second_rank, second in (
            (True, 4, "4323", 6, "4323"), (True, 4, "3243", 6, "4323"), (False, 4, "2334", 6, "4323"), (True, 1, "", 64, ""), (False, 4, "", 5, "5"),
            (False, 4, "4323", 6, "5323"), (False, 2, "12", 5, "125"), (True, 4, "3243", 4, "4323"), (False, 4, "2334", 4, "4323"),
        ):
            self.assertIs(lu.same_class(first_rank, word_of(first), second_rank, word_of(second)), same)
            self.assertIs(lu.same_class(second_rank, word_of(second), first_rank, word_of(first)), same)

    def test_longest(self) -> None:
        ones = [1] * 1023
        self.assertIs(lu.same_class(2, [2] + ones, 64, ones[1:] + [2, 1]), True)
        self.assertIs(lu.same_class(64, ones + [2], 2, [2] + ones), False)
        self.assertIs(lu.same_class(2, ones, 64, ones + [64]), False)
        self.assertIs(lu.same_class(64, ones + [64], 2, ones), False)

    def test_refusals(self) -> None:
        """Each word by its own rank."""
        for number, place, first_rank, first, second_rank, second in (
            (1, 0, 0, [1], 4, [1]), (1, 0, 4, [1], 65, [1]), (2, 0, 6, [5], 4, [5] * 1025), (4, 0, 4, [5], 6, [5]), (4, 1, 6, [5], 4, [5]),
            (4, 4, 4, [4, 3, 2], 2, [1, 3]), (4, 2, 6, [6, 5], 4, [5, 4]),
        ):
            self.refuses(number, place, lu.same_class, first_rank, first, second_rank, second)

    def test_lines(self) -> None:
        """One class exactly where the T lines agree without the rank field."""
        for first_rank, second_rank in ((3, 5), (5, 3)):
            same = 0
            for u, v in product(WORDS, repeat=2):
                agree = unranked(first_rank, u) == unranked(second_rank, v)
                self.assertIs(lu.same_class(first_rank, u, second_rank, v), agree)
                same += agree
            self.assertEqual(same, 56)

    def test_moves(self) -> None:
        """Of two words of one class each move at 1 and 2, which both ranks have, is made on both, and the lines of what it makes agree without the rank
        field; or it is refused on both with one number. 3 and 4 are indices of rank 5 alone."""
        numbers: List[int] = []
        for u, v in product(WORDS, repeat=2):
            if not lu.same_class(3, u, 5, v):
                continue
            for move, index in product((lu.raise_word, lu.lower_word), (1, 2)):
                (number, left), (other, right) = made(move, 3, index, u), made(move, 5, index, v)
                self.assertEqual(number, other)
                numbers.append(number)
                if left is not None and right is not None:
                    self.assertEqual(unranked(3, left), unranked(5, right))
                    self.assertIs(lu.same_class(3, left, 5, right), True)
            for move, index in product((lu.raise_word, lu.lower_word), (3, 4)):
                self.assertEqual(made(move, 3, index, u), (9, None))
                self.assertNotEqual(made(move, 5, index, v)[0], 9)
        self.assertEqual({number: numbers.count(number) for number in numbers}, {0: 92, 10: 56, 11: 76})


if __name__ == "__main__":
    unittest.main()
