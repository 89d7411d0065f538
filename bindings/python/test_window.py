"""Tests of windows over a stream of letters: the oldest letter leaves a pair, and a Window (document 02, N8).

    python3 bindings/python/test_window.py
"""
import copy
import pickle
import unittest
from itertools import product
from random import Random
from typing import Any, List, Sequence

from support import Case, lu, word_of

FULL = lu.Pair([1] * 1024, [0] * 1024, range(1, 1025))


def filled(rank: int, size: int, letters: Sequence[int]) -> lu.Window:
    """A window through which letters have come; where it was full, the oldest has left first."""
    window = lu.Window(rank, size)
    for letter in letters:
        if len(window) == window.size:
            window.pop()
        window.push(letter)
    return window


class Departures(Case):
    def test_cases(self) -> None:
        """The oldest cell last, first, alone, and between two others, which are then joined by a step down or right."""
        for rank, digits, letters, marks, entries in (
            (4, "4323", "233", "010", "213"), (4, "433", "33", "00", "12"), (1, "1", "", "", ""), (2, "12", "2", "0", "1"), (2, "21", "1", "0", "1"),
            (6, "243245565", "23445556", "01100001", "32145687"), (2, "221", "12", "01", "21"), (3, "231", "13", "01", "21"), (2, "212", "12", "00", "12"),
            (3, "213", "13", "00", "12"),
        ):
            left = lu.remove_oldest(rank, lu.pair_of_word(rank, word_of(digits)))
            self.assertEqual(left, lu.Pair(word_of(letters), word_of(marks), word_of(entries)))
            self.assertEqual((type(left), left._counts), (lu.Pair, lu.pair_of_word(rank, word_of(digits[1:]))._counts))
        left = lu.remove_oldest(7, lu.pair_of_word(7, word_of("12446553275")))
        self.assertEqual(left.letters, (2, 2, 3, 4, 4, 5, 5, 5, 6, 7))
        self.assertEqual(left.marks, (0, 0, 1, 1, 0, 0, 0, 0, 1, 0))
        self.assertEqual(left.entries, (1, 8, 7, 2, 3, 5, 6, 10, 4, 9))

    def test_all_short_words(self) -> None:
        """All words of one to six letters over 1 to 3: the pair of the word without its first letter, counts too."""
        tried = 0
        for length in range(1, 7):
            for word in product((1, 2, 3), repeat=length):
                left, expected = lu.remove_oldest(3, lu.pair_of_word(3, word)), lu.pair_of_word(3, word[1:])
                self.assertEqual((left, left._counts), (expected, expected._counts))
                tried += 1
        self.assertEqual(tried, 1092)

    def test_full(self) -> None:
        """A full pair refuses an arrival, lets its oldest letter leave, and takes one again."""
        self.refuses(12, 1024, lu.insert_letter, 4, 2, FULL)
        left = lu.remove_oldest(4, FULL)
        self.assertEqual(left, lu.pair_of_word(4, [1] * 1023))
        self.assertEqual(lu.insert_letter(4, 2, left), lu.pair_of_word(4, [1] * 1023 + [2]))

    def test_refusals(self) -> None:
        """1 to 6, 17, 7, 8, each at a first, a middle or a last place, and 18 after all of them."""
        parts = [2, 3, 3, 4], [0, 1, 0, 1], [3, 2, 4, 1]
        self.refuses(1, 0, lu.remove_oldest, 0, [], [], [])
        self.refuses(1, 0, lu.remove_oldest, 65, *parts)
        self.refuses(2, 0, lu.remove_oldest, 4, [5] * 1025, [0], [])
        for unequal in (([1], [0, 0], [1]), ([1], [0], []), ([1, 1], [0], [1, 2]), ([1], [0], [1, 2]), ([], [0, 0], [1]), ([], [], [1])):
            self.refuses(3, 0, lu.remove_oldest, 4, *unequal)
            self.refuses(1, 0, lu.remove_oldest, 0, *unequal)
        for number, place, changed, at, value in (
            (4, 0, 0, 0, 0), (4, 1, 0, 1, 5), (4, 3, 0, 3, 300), (5, 1, 0, 0, 4), (5, 2, 0, 2, 1), (5, 3, 0, 3, 1), (6, 0, 1, 0, 1), (6, 2, 1, 2, 1),
            (6, 3, 1, 3, 2), (7, 0, 2, 0, 0), (7, 1, 2, 1, 5), (7, 3, 2, 3, 4), (8, 3, 1, 3, 0),
        ):
            lists = [list(part) for part in parts]
            lists[changed][at] = value
            self.refuses(number, place, lu.remove_oldest, 4, *lists)
        self.refuses(8, 1, lu.remove_oldest, 4, *parts[:2], [2, 3, 4, 1])
        self.refuses(8, 2, lu.remove_oldest, 4, *parts[:2], [4, 3, 2, 1])
        for place, counts in ((0, [1, 1, 2, 1]), (2, [0, 1, 3, 1]), (63, [0, 1, 2, 1] + [0] * 59 + [1])):
            self.refuses(17, place, lu.remove_oldest, 4, lu.Pair(*parts, counts))
            self.refuses(17, place, lu.remove_oldest, 4, lu.Pair(*parts[:2], [3, 2, 2, 1], counts))
        self.refuses(18, 0, lu.remove_oldest, 4, [], [], [])
        self.refuses(17, 5, lu.remove_oldest, 4, lu.Pair([], [], [], [0] * 5 + [1]))
        refusal = self.refusal(lu.remove_oldest, 4, lu.Pair([], [], []))
        self.assertEqual(str(refusal), "remove_oldest: refusal 18 at place 0: departure from an empty window")

    def test_callers_own_stay(self) -> None:
        parts = [2, 3, 3, 4], [0, 1, 0, 1], [3, 2, 4, 1]
        lu.remove_oldest(4, *parts)
        self.assertEqual(parts, ([2, 3, 3, 4], [0, 1, 0, 1], [3, 2, 4, 1]))


class Windows(Case):
    def holds(self, window: lu.Window, letters: Sequence[int]) -> None:
        """Everything that a window gives is that of these letters."""
        expected = lu.pair_of_word(window.rank, letters)
        self.assertEqual((len(window), window.word), (len(letters), list(letters)))
        self.assertEqual((window.pair, window.pair._counts), (expected, expected._counts))
        self.assertEqual((window.tableau, window.tableau._counts), (expected.tableau, expected._counts))
        self.assertEqual((window.recording, window.counts), (expected.entries, expected.counts))

    def test_4323(self) -> None:
        window = lu.Window(4)
        self.holds(window, [])
        for place, letter in enumerate(word_of("4323")):
            window.push(letter)
            self.holds(window, word_of("4323")[: place + 1])
        for place in range(4):
            self.assertEqual(window.pop(), word_of("4323")[place])
            self.holds(window, word_of("4323")[place + 1 :])
        self.refuses(18, 0, window.pop)
        self.holds(window, [])

    def test_kinds(self) -> None:
        window = filled(4, 3, word_of("4323"))
        self.assertEqual((window.rank, window.size, len(window)), (4, 3, 3))
        kinds = [type(value) for value in (window.pair, window.tableau, window.recording, window.counts, window.word, window.pop())]
        self.assertEqual(kinds, [lu.Pair, lu.Tableau, tuple, tuple, list, int])
        self.assertEqual(repr(window), "<Window of rank 4 with 2 of 3 letters>")
        for name in ("rank", "size", "word", "pair", "tableau", "recording", "counts"):
            self.assertRaises(AttributeError, setattr, window, name, None)
        self.assertTrue(window)
        self.assertFalse(lu.Window(4))

    def test_streams(self) -> None:
        """Some hundred letters through windows of several sizes: after each, the letters in it and their pair."""
        for rank, size in ((1, 1), (2, 2), (3, 1), (4, 7), (64, 5), (64, 40)):
            draw = Random(rank + size)
            window, stream = lu.Window(rank, size), [draw.randint(1, rank) for _ in range(300)]
            for place, letter in enumerate(stream):
                if len(window) == size:
                    self.assertEqual(window.pop(), stream[place - size])
                    self.holds(window, stream[place - size + 1 : place])
                window.push(letter)
                self.holds(window, stream[max(0, place + 1 - size) : place + 1])

    def test_any_calls(self) -> None:
        """Letters arrive and leave in any order, good and bad ones; what is refused changes nothing."""
        draw = Random(8)
        letters: List[int] = []
        window, refused = lu.Window(5, 12), 0
        for _ in range(1500):
            letter = draw.randint(0, 6)
            try:
                if draw.randrange(5) < 2:
                    self.assertEqual(window.pop(), letters[0])
                    del letters[0]
                else:
                    window.push(letter)
                    letters.append(letter)
            except lu.Refusal as refusal:
                refused += 1
                if refusal.number == 18:
                    self.assertEqual((refusal.place, letters), (0, []))
                elif refusal.number == 4:
                    self.assertEqual((refusal.place, refusal.value), (len(letters), letter))
                else:
                    self.assertEqual((refusal.number, refusal.place, len(letters)), (13, 13, 12))
            self.holds(window, letters)
        self.assertGreater(refused, 100)

    def test_full(self) -> None:
        """1,024 letters: an arrival is refused with 12 until one has left."""
        draw = Random(9)
        stream = [draw.randint(1, 64) for _ in range(1100)]
        window = filled(64, 1024, stream[:1024])
        self.holds(window, stream[:1024])
        for place in range(1024, 1100):
            self.refuses(12, 1024, window.push, stream[place])
            self.assertEqual(window.pop(), stream[place - 1024])
            window.push(stream[place])
        self.holds(window, stream[76:])
        while window:
            window.pop()
        self.holds(window, [])
        self.refuses(18, 0, window.pop)

    def test_size(self) -> None:
        """A smaller window is full at its size, and refuses with 13, with the size that it would need."""
        for size in (1, 2, 1023):
            window = filled(4, size, [4, 3, 2, 1] * 256)
            self.refuses(13, size + 1, window.push, 1)
            self.refuses(4, size, window.push, 5)
            self.assertEqual(len(window), size)
        for other in (0, -1, 1025, 10**40):
            self.assertRaises(ValueError, lu.Window, 4, other)
        for kind in (None, "3", 3.0):
            wrong: Any = kind
            self.assertRaises(TypeError, lu.Window, 4, wrong)
            self.assertRaises(TypeError, lu.Window, wrong)
        self.assertEqual((lu.Window(4).size, lu.Window(rank=4, size=7).size), (1024, 7))

    def test_refusals(self) -> None:
        for rank in (0, 65, -1, 2**64 + 4):
            self.refuses(1, 0, lu.Window, rank)
        window = filled(4, 10, word_of("43"))
        for letter in (0, 5, 257, -1, 2**64 + 1, 10**40):
            refusal = self.refusal(window.push, letter)
            self.assertEqual((refusal, refusal.value), (lu.Refusal(4, 2), letter))
        self.assertEqual(str(self.refusal(window.push, 9)), "Window.push: refusal 4 at place 2: letter outside 1 to rank (9)")
        for kind in (None, "3", 3.0, [3]):
            wrong: Any = kind
            self.assertRaises(TypeError, window.push, wrong)
        self.holds(window, word_of("43"))
        self.assertEqual(str(self.refusal(lu.Window(4).pop)), "Window.pop: refusal 18 at place 0: departure from an empty window")

    def test_copies(self) -> None:
        """A copy is a window of its own."""
        window = filled(4, 5, word_of("41432334"))
        for other in (copy.copy(window), copy.deepcopy(window), pickle.loads(pickle.dumps(window))):
            self.assertEqual((type(other), other.size), (lu.Window, 5))
            self.holds(other, word_of("32334"))
            other.pop()
            other.push(1)
            self.holds(other, word_of("23341"))
            self.holds(window, word_of("32334"))

    def test_beside(self) -> None:
        """Two windows have nothing in common, and what was taken from one does not change with it."""
        one, other = filled(4, 3, word_of("432")), filled(4, 3, word_of("123"))
        pair, word = one.pair, one.word
        one.pop()
        self.assertEqual((pair, word), (lu.pair_of_word(4, word_of("432")), word_of("432")))
        self.holds(other, word_of("123"))
        word.append(9)
        self.holds(one, word_of("32"))


if __name__ == "__main__":
    unittest.main()
