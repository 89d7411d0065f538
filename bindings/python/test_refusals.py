"""Tests of refusals: each number but 13, which the binding's own memory rules out; what the exception tells; one table of texts in Python and in C.

    python3 bindings/python/test_refusals.py
"""
import copy
import pickle
import re
import unittest
from array import array
from typing import Any, Dict, List, Tuple

from support import Case, lu

from luchtrav.places import HEADER


class Numbers(Case):
    def test_every_number(self) -> None:
        self.refuses(1, 0, lu.junctions, 65, [])
        self.refuses(2, 0, lu.check_tableau, 4, [1] * 1025, [])
        self.refuses(3, 0, lu.column_reading, 4, [1, 2], [0])
        self.refuses(4, 2, lu.pair_of_word, 4, [4, 1, 5])
        self.refuses(4, 5, lu.same_class, 4, [1, 1, 1], 2, [1, 2, 3])
        self.refuses(5, 2, lu.write_tableau_line, 4, [1, 3, 2], [0, 0, 0])
        self.refuses(6, 1, lu.check_tableau, 4, [2, 2], [0, 1])
        self.refuses(7, 1, lu.write_pair_line, 4, [1, 2], [0, 0], [1, 1])
        self.refuses(8, 1, lu.word_of_pair, 4, [1, 2], [0, 1], [1, 2])
        self.refuses(9, 0, lu.lower_count_word, 4, 4, [1])
        self.refuses(10, 0, lu.lower_word, 4, 1, [2, 1])
        self.refuses(11, 0, lu.raise_word, 4, 1, [1, 3])
        self.refuses(12, 1024, lu.insert_letter, 4, 1, [1] * 1024, [0] * 1024, list(range(1, 1025)))
        self.refuses(14, 0, lu.read_pair_line, b"")
        self.refuses(14, 3, lu.read_tableau_line, b"T,04")
        self.refuses(15, 0, lu.class_number, 4, [1] * 21)
        self.refuses(16, 0, lu.class_word, 4, [2, 3, 3, 4], [0, 1, 0, 1], 5)
        self.refuses(18, 0, lu.remove_oldest, 4, [], [], [])
        self.refuses(19, 1, lu.read_run_line, b"C,4,2,3,1,d,2,1\n")
        self.refuses(20, 0, lu.runs_to_tableau, b"C,4,2,2,1\n")

    def test_insertion(self) -> None:
        self.refuses(4, 2, lu.insert_letter, 4, 5, [1, 2], [0, 0], [1, 2])
        self.refuses(8, 1, lu.insert_letter, 4, 4, [1, 2], [0, 0], [2, 1])
        for parts in (([1], [0, 0], [1]), ([1], [0], []), ([1, 1], [0], [1, 2]), ([1], [0], [1, 2]), ([1, 1], [0, 0], [1]), ([], [0, 0], [1])):
            self.refuses(3, 0, lu.insert_letter, 4, 1, *parts)
            self.refuses(3, 0, lu.check_pair, 4, *parts)
            self.refuses(1, 0, lu.insert_letter, 0, 1, *parts)
        for number, parts in ((2, ([1] * 1025, [0], [1])), (3, ([1], [0] * 1025, [1])), (2, ([1] * 1025, [0] * 1025, [1] * 1025))):
            self.refuses(number, 0, lu.insert_letter, 4, 1, *parts)
            self.refuses(number, 0, lu.check_pair, 4, *parts)


    def test_product(self) -> None:
        """1 to 6, each over the first factor, then over the second, before the next."""
        good = [1, 2], [0, 0]
        self.refuses(1, 0, lu.product, 65, good, good)
        self.refuses(2, 0, lu.product, 4, ([1] * 600, [0] * 600), ([1] * 425, [0] * 425))
        self.refuses(2, 0, lu.product, 4, ([1] * 1024, []), ([1], []))
        for parts in (([1, 2], [0]), ([1], [0, 0]), ([], [0]), ([1], [])):
            self.refuses(3, 0, lu.product, 4, parts, good)
            self.refuses(3, 0, lu.product, 4, good, parts)
        self.refuses(3, 0, lu.product, 4, ([1, 2], [0]), ([1], [0, 0]))
        faults = (4, 0, ([5, 2], [0, 0])), (4, 1, ([1, 0], [0, 0])), (5, 1, ([2, 1], [0, 0])), (6, 0, ([3], [1])), (6, 1, ([2, 2], [0, 1]))
        for number, place, parts in faults:
            self.refuses(number, place, lu.product, 4, parts, good)
            self.refuses(number, 2 + place, lu.product, 4, good, parts)
            self.refuses(number, place, lu.product, 4, parts, parts)
        self.refuses(4, 3, lu.product, 4, ([2, 1], [0, 0]), ([1, 5], [2, 2]))
        self.refuses(5, 3, lu.product, 4, ([2, 2], [0, 1]), ([2, 1], [0, 0]))


class Exceptions(Case):
    def test_value(self) -> None:
        """What stands at the place, as the caller gave it, and nothing where nothing stands there."""
        shape = [1, 2], [0, 0]
        calls: List[Tuple[Any, ...]] = [
            (9, lu.check_word, (4, [1, 9])),
            (-5, lu.check_word, (4, array("q", [1, -5]))),
            (10**40, lu.raise_word, (4, 1, [1, 10**40])),
            (300, lu.tableau_line_of_word, (4, memoryview(array("i", [1, 0, 300, 0]))[::2])),
            (7, lu.same_class, (4, [1, 2], 4, [3, 7])),
            (5, lu.compare_weights, (4, [1, 5], 4, [3, 7])),
            (2, lu.check_tableau, (4, [3, 2], [0, 0])),
            (9, lu.product, (4, shape, ([3, 9], [0, 0]))),
            (-7, lu.product, (4, *shape, array("q", [3, -7]), [0, 0])),
            (8, lu.product, (4, shape, ([3, 3], [0, 8]))),
            (2, lu.product, (4, lu.Tableau([3, 2], [0, 0]), lu.Tableau([3, 1], [0, 0]))),
            (1, lu.column_reading, (4, [2, 2], [0, 1])),
            (256, lu.look, (4, [2, 2], [0, 256], 0)),
            (2**16 + 1, lu.check_pair, (4, *shape, [1, 2**16 + 1])),
            (1, lu.word_of_pair, (4, lu.Pair(*shape, [2, 1]))),
            (3, lu.write_pair_line, (4, *shape, [1, 3])),
            (9, lu.pair_of_word, (4, [1, 9])),
            (9, lu.class_number, (4, [1, 9])),
            (2, lu.class_word, (4, [1, 2], [0, 2], 7)),
            (None, lu.class_size, (4, [1] * 21, [0] * 21)),
            (None, lu.class_word, (4, *shape, 7)),
            (0, lu.insert_letter, (4, 1, [1, 0], [0, 0], [1, 2])),
            (5, lu.insert_letter, (4, 5, *shape, [1, 2])),
            (-1, lu.insert_letter, (4, -1, lu.Pair(*shape, [1, 2]))),
            (None, lu.check_word, (65, [1, 9])),
            (None, lu.raise_word, (4, 4, [1])),
            (None, lu.insert_letter, (4, 1, [1], [0], [])),
            (9, lu.remove_oldest, (4, [1, 9], [0, 0], [1, 2])),
            (1, lu.remove_oldest, (4, lu.Pair(*shape, [2, 1]))),
            (None, lu.remove_oldest, (4, lu.Pair([], [], []))),
            (None, lu.read_word_line, (b"W,4,1,5\n",)),
            (None, lu.read_pair_line, (b"P,4,1,5,1\n",)),
            (None, lu.convert_lines, (b"T,4,1,5\n", b"N,1,1\n")),
            (None, lu.read_run_line, (b"C,4,1,5,1\n",)),
            (9, lu.run_line_of_word, (4, [1, 9])),
        ]
        for value, function, arguments in calls:
            self.assertEqual(self.refusal(function, *arguments).value, value, (function, arguments))

    def test_text(self) -> None:
        calls: List[Tuple[Any, ...]] = [
            ("check_word: refusal 4 at place 2: letter outside 1 to rank (7)", lu.check_word, (4, [4, 3, 7])),
            ("check_tableau: refusal 6 at place 0: %s (1)" % lu.MEANINGS[6], lu.check_tableau, (4, [2], [True])),
            ("raise_word: refusal 10 at place 0: move undefined by an inversion", lu.raise_word, (3, 2, [3, 1, 2, 3])),
            ("check_word: refusal 4 at place 0: letter outside 1 to rank (a number of 16610 bits)", lu.check_word, (4, [10**5000])),
        ]
        for text, function, arguments in calls:
            self.assertEqual(str(self.refusal(function, *arguments)), text)
        self.assertEqual(str(lu.Refusal(4, 1)), "refusal 4 at place 1: letter outside 1 to rank")

    def test_value_error(self) -> None:
        self.assertIsInstance(self.refusal(lu.check_word, 4, [9]), ValueError)

    def test_equal_by_number_and_place(self) -> None:
        refusal = self.refusal(lu.check_word, 4, [1, 9])
        self.assertEqual(refusal, lu.Refusal(4, 1))
        self.assertEqual(refusal, self.refusal(lu.junctions, 4, [2, 8, 8]))
        self.assertNotEqual(refusal, lu.Refusal(4, 2))
        self.assertNotEqual(refusal, lu.Refusal(5, 1))
        self.assertNotEqual(refusal, (4, 1))
        self.assertEqual(len({refusal, lu.Refusal(4, 1, "look", 3), lu.Refusal(4, 0)}), 2)

    def test_pickle(self) -> None:
        refusal = self.refusal(lu.insert_letter, 4, 5, [1, 2], [0, 0], [1, 2])
        for again in (pickle.loads(pickle.dumps(refusal)), copy.copy(refusal), copy.deepcopy(refusal)):
            self.assertEqual((again.number, again.place, again.function, again.value), (4, 2, "insert_letter", 5))
            self.assertEqual(str(again), str(refusal))


def texts_in(header: str) -> Dict[int, str]:
    """The texts of luchtrav_refusal_text by number: each stands behind the name of its number."""
    numbers = {name: int(number) for name, number in re.findall(r"(LUCHTRAV_\w+) = (\d+)", header)}
    body = re.search(r"\bluchtrav_refusal_text\([^)]*\) \{(.*?)\n\}", header, re.S)
    assert body
    return {numbers[name]: text for name, text in re.findall(r'case (LUCHTRAV_\w+):\s*return "([^"]*)";', body[1])}


class Meanings(Case):
    def test_one_table(self) -> None:
        """MEANINGS, the docstring that help(luchtrav) shows, and the header have the same texts."""
        with open(HEADER) as file:
            header = texts_in(re.sub(r"/\*.*?\*/", "", file.read(), flags=re.S))
        self.assertEqual(sorted(lu.MEANINGS), list(range(1, 21)))
        self.assertEqual({0: "success", **lu.MEANINGS}, header)
        shown = {int(number): text for number, text in re.findall(r"^ {4,5}(\d+)  (.*)$", str(lu.__doc__), re.M)}
        self.assertEqual(shown, lu.MEANINGS)


if __name__ == "__main__":
    unittest.main()
