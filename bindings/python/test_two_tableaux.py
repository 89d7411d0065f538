"""Tests of class and weights of two tableaux (document 02, N6).

    python3 bindings/python/test_two_tableaux.py
"""
import unittest
from itertools import combinations_with_replacement, product
from typing import Iterator

from support import Case, lu


def tableaux_of(rank: int, cells: int) -> Iterator[lu.Tableau]:
    """All tableaux of a rank with so many cells."""
    for letters in combinations_with_replacement(range(1, rank + 1), cells):
        steps = [(0,) if place == 0 or letter == letters[place - 1] else (0, 1) for place, letter in enumerate(letters)]
        yield from (lu.Tableau(letters, marks) for marks in product(*steps))


class TwoTableaux(Case):
    def test_12_and_21(self) -> None:
        row, column = lu.pair_of_word(2, [1, 2]).tableau, lu.pair_of_word(2, [2, 1]).tableau
        self.assertIs(lu.same_class_of_tableaux(2, row, 2, column), False)
        self.assertIs(lu.same_class_of_tableaux(2, column, 5, ([1, 2], [0, 1])), True)
        self.assertEqual(lu.compare_weights_of_tableaux(2, row, 2, column), "equal")

    def test_as_words(self) -> None:
        """On all pairs of tableaux of up to three cells over 1 to 3, at two ranks: as the column readings."""
        tableaux = [tableau for cells in range(4) for tableau in tableaux_of(3, cells)]
        readings = [lu.column_reading(3, tableau) for tableau in tableaux]
        same = 0
        for (u, v), (first, second) in zip(product(readings, repeat=2), product(tableaux, repeat=2)):
            for first_rank, second_rank in ((3, 3), (3, 64)):
                one = lu.same_class_of_tableaux(first_rank, first, second_rank, second)
                self.assertIs(one, lu.same_class(first_rank, u, second_rank, v))
                self.assertIs(one, first == second)
                order = lu.compare_weights_of_tableaux(first_rank, first, second_rank, second)
                self.assertEqual(order, lu.compare_weights(first_rank, u, second_rank, v))
                same += one
        self.assertEqual(same, 2 * len(tableaux))

    def test_refusals(self) -> None:
        """Each check over the first, then over the second, before the next; places in the second count on."""
        good = [1, 2], [0, 0]
        for call in (lu.same_class_of_tableaux, lu.compare_weights_of_tableaux):
            self.refuses(1, 0, call, 0, good, 4, good)
            self.refuses(1, 0, call, 4, ([1] * 1025, []), 65, good)
            self.refuses(2, 0, call, 4, good, 4, ([1] * 1025, []))
            self.refuses(2, 0, call, 4, ([5], []), 4, ([1] * 1025, []))
            self.refuses(3, 0, call, 4, ([5], [0]), 4, ([1], []))
            faults = (4, 0, ([5, 2], [0, 0])), (4, 1, ([1, 0], [0, 0])), (5, 1, ([2, 1], [0, 0])), (6, 0, ([3], [1])), (6, 1, ([2, 2], [0, 1]))
            for number, place, parts in faults:
                self.refuses(number, place, call, 4, parts, 4, good)
                self.refuses(number, 2 + place, call, 4, good, 4, parts)
                self.refuses(number, place, call, 4, parts, 4, parts)
            self.refuses(4, 3, call, 4, ([2, 1], [0, 0]), 2, ([1, 3], [2, 2]))
            self.refuses(5, 3, call, 4, ([2, 2], [0, 1]), 4, ([2, 1], [0, 0]))
        level = [0] * 1024
        self.assertIs(lu.same_class_of_tableaux(2, ([1] * 1024, level), 64, ([1] * 1024, level)), True)


if __name__ == "__main__":
    unittest.main()
