"""Tests of C lines: 4323, all short words and tableaux, the longest lines, the way to T lines and back, and refusals with their places and order.

    python3 bindings/python/test_runs.py
"""
import random
import unittest
from itertools import product
from typing import Any, List, Tuple

from support import Case, lu, word_of

LINE, TABLEAU_LINE = b"C,4,4,2,1,d,3,2,d,4,1\n", b"T,4,4,2,d,3,r,3,d,4\n"


def line_of(rank: int, letters: Tuple[int, ...], marks: Tuple[int, ...]) -> bytes:
    """The C line by the words of the request: each different letter in rising order with its count, and the step into it before all but the first."""
    items = [["rd"[marks[letters.index(letter)]], letter, letters.count(letter)] for letter in sorted(set(letters))]
    fields = ["C", rank, len(letters)] + [field for item in items for field in item][1:]
    return ",".join(map(str, fields)).encode() + b"\n"


class RunLines(Case):
    def test_4323(self) -> None:
        tableau = lu.pair_of_word(4, word_of("4323")).tableau
        self.assertEqual(lu.run_line_of_word(4, word_of("4323")), LINE)
        self.assertEqual(lu.write_run_line(4, tableau), LINE)
        self.assertEqual(lu.write_run_line(4, [2, 3, 3, 4], [0, 1, 0, 1]), LINE)
        rank, read = lu.read_run_line(LINE)
        self.assertEqual((rank, read, read.counts), (4, tableau, tableau.counts))
        self.assertEqual(lu.tableau_to_runs(TABLEAU_LINE), LINE)
        self.assertEqual(lu.runs_to_tableau(LINE), TABLEAU_LINE)
        for other in ("3243", "3423", "3432", "4332"):
            self.assertEqual(lu.run_line_of_word(4, word_of(other)), LINE)
        self.assertNotEqual(lu.run_line_of_word(4, word_of("2334")), LINE)

    def test_small(self) -> None:
        self.assertEqual(lu.run_line_of_word(4, []), b"C,4,0\n")
        self.assertEqual(lu.read_run_line(b"C,4,0\n"), (4, lu.Tableau([], [])))
        self.assertEqual((lu.runs_to_tableau(b"C,4,0\n"), lu.tableau_to_runs(b"T,4,0\n")), (b"T,4,0\n", b"C,4,0\n"))
        self.assertEqual(lu.write_run_line(4, [3], [0]), b"C,4,1,3,1\n")
        self.assertEqual(lu.run_line_of_word(4, [4, 3, 3]), b"C,4,3,3,2,d,4,1\n")
        self.assertEqual(lu.run_line_of_word(7, word_of("12446553275")), b"C,7,11,1,1,r,2,2,d,3,1,d,4,2,r,5,3,d,6,1,r,7,1\n")
        for text in (LINE, bytearray(LINE), memoryview(LINE)):
            self.assertEqual(lu.runs_to_tableau(text), TABLEAU_LINE)

    def test_all_short_words(self) -> None:
        """Words agree on C lines exactly where they agree on T lines; each line turns into the other and back, and is read as the other is."""
        lines = {}
        for length in range(7):
            for word in product((1, 2, 3), repeat=length):
                tableau, runs = lu.tableau_line_of_word(3, word), lu.run_line_of_word(3, word)
                self.assertEqual(lines.setdefault(tableau, runs), runs)
        self.assertEqual(len(set(lines.values())), len(lines))
        self.assertEqual(len(lines), 189)
        for tableau, runs in lines.items():
            self.assertEqual((lu.tableau_to_runs(tableau), lu.runs_to_tableau(runs)), (runs, tableau))
            rank, read = lu.read_run_line(runs)
            self.assertEqual((rank, read), lu.read_tableau_line(tableau))
            self.assertEqual(read.counts, lu.read_tableau_line(tableau)[1].counts)
            self.assertEqual((lu.write_run_line(3, read), line_of(3, *read)), (runs, runs))

    def test_long_runs(self) -> None:
        draw = random.Random(9)
        for _ in range(300):
            rank = draw.choice((1, 2, 5, 64))
            letters = draw.sample(range(1, rank + 1), draw.randint(1, min(rank, 6)))
            word = [letter for letter in letters for _ in range(draw.choice((1, 2, 9, 10, 11, 99, 100, 101, 150)))]
            draw.shuffle(word)
            tableau = lu.pair_of_word(rank, word).tableau
            runs = lu.run_line_of_word(rank, word)
            self.assertEqual(runs, line_of(rank, *tableau))
            self.assertEqual(lu.read_run_line(runs), (rank, tableau))
            self.assertEqual(lu.tableau_to_runs(lu.runs_to_tableau(runs)), runs)

    def test_longest(self) -> None:
        word = [letter for letter in range(1, 65) for _ in range(100 if letter > 60 else 10)]
        runs = lu.run_line_of_word(64, word)
        self.assertEqual(len(runs), 515)
        self.assertEqual(lu.read_run_line(runs), (64, lu.Tableau(word, [0] * 1000)))
        self.assertEqual(lu.run_line_of_word(64, [64] * 1024), b"C,64,1024,64,1024\n")
        self.assertEqual(len(lu.runs_to_tableau(b"C,64,1024,64,1024\n")), 5128)
        self.assertEqual(lu.read_run_line(b"C,64,1024,64,1024\n")[1].counts[63], 1024)

    def test_ranks(self) -> None:
        """Without the rank field the lines tell the class of words of different rank."""
        words = [(n, list(word)) for n in (2, 4) for length in range(5) for word in product(range(1, 3), repeat=length)]
        for first in words:
            for second in words:
                without = [lu.run_line_of_word(*of).split(b",", 2)[2] for of in (first, second)]
                self.assertEqual(without[0] == without[1], lu.same_class(*first, *second))


class Refusals(Case):
    def refused(self, number: int, place: int, text: bytes) -> None:
        """What the reader of C lines refuses the converter refuses alike, and neither tells a value."""
        for function in (lu.read_run_line, lu.runs_to_tableau):
            refusal = self.refusal(function, text)
            self.assertEqual((refusal, refusal.value), (lu.Refusal(number, place), None), text)

    def test_bytes(self) -> None:
        places = (
            (0, b""), (0, b"T,4,0\n"), (0, b"c,4,0\n"), (1, b"C"), (3, b"C,4"), (5, b"C,4,0"), (6, b"C,4,0,\n"), (7, b"C,4,1,2\n"), (9, b"C,4,1,2,1"),
            (10, b"C,4,1,2,1,\n"), (9, b"C,4,1,2,01\n"), (6, b"C,4,1,r,2,1\n"), (10, b"C,4,2,2,1,3,1\n"), (12, b"C,4,1,2,10000\n"), (6, b"C,4,1\n\n"),
            (10, b"C,4,2,2,1,x,3,1\n"), (18003, b"C,4,4,2,1" + b",r,2,1" * 2999),
        )
        for place, text in places:
            self.refused(14, place, text)

    def test_values(self) -> None:
        self.refused(1, 0, b"C,0,2000,2,2\n")
        self.refused(1, 0, b"C,65,0\n")
        self.refused(2, 0, b"C,4,1025,2,1025\n")
        for place, text in ((0, b"C,4,2,5,0,d,2,1\n"), (1, b"C,4,2,2,0,d,5,1\n"), (2, b"C,4,3,1,1,d,2,1,d,0,1\n"), (0, b"C,4,1,260,1\n")):
            self.refused(4, place, text)
        for place, text in (
            (0, b"C,4,2,2,0,d,3,2\n"), (1, b"C,4,2,2,2,d,3,0\n"), (1, b"C,4,2,2,1,d,2,1\n"), (1, b"C,4,2,3,1,d,2,1\n"), (1, b"C,4,9,2,1,d,2,1\n"),
            (2, b"C,4,3,1,1,d,3,1,d,3,1\n"), (0, b"C,4,0,2,0\n"),
        ):
            self.refused(19, place, text)
        for text in (b"C,4,3\n", b"C,4,0,2,1\n", b"C,4,1024,2,1025\n", b"C,4,1024,2,1023\n", b"C,4,2,2,1\n", b"C,4,0,2,256\n"):
            self.refused(20, 0, text)
        wrapped = b",r,".join(b"%d,%d" % (letter, 8193 if letter == 1 else 8192) for letter in range(1, 9))
        self.refused(20, 0, b"C,8,1,%s\n" % wrapped)

    def test_many_items(self) -> None:
        """There may be thousands of items, and each check is made on all of them before the next."""
        rising = b",d,".join(b"%d,1" % letter for letter in range(1, 65))
        self.refused(4, 64, b"C,64,65,%s,d,65,1\n" % rising)
        self.refused(19, 64, b"C,64,65,%s,d,64,1\n" % rising)
        self.refused(19, 1, b"C,4,4,2,1" + b",r,2,1" * 2999 + b"\n")
        self.refused(4, 2999, b"C,4,1024,2,0" + b",r,2,0" * 2998 + b",r,5,0\n")
        self.assertEqual(lu.read_run_line(b"C,64,64,%s\n" % rising), (64, lu.Tableau(range(1, 65), [0] + [1] * 63)))

    def test_turned_from_tableaux(self) -> None:
        """A T line is refused as its reader does."""
        for text in (b"", b"C,4,0\n", b"T,4,2,3,3\n", b"T,65,1,70\n", b"T,4,3,1,r,5,r,3\n", b"T,4,3,2,r,1,r,3\n", b"T,4,3,1,r,2,d,2\n", b"T,4,1,3\n\n",
                     b"T,4,1025,1" + b",r,1" * 1024 + b"\n"):
            self.assertEqual(self.refusal(lu.tableau_to_runs, text), self.refusal(lu.read_tableau_line, text))

    def test_written(self) -> None:
        calls: List[Tuple[Any, ...]] = [
            (1, 0, None, (65, [3], [0])), (2, 0, None, (4, [1] * 1025, [0])), (3, 0, None, (4, [1, 2], [0])), (4, 1, 300, (4, [1, 300], [0, 0])),
            (5, 2, 2, (4, [1, 3, 2], [0, 0, 0])), (6, 1, 1, (4, [2, 2], [0, 1])), (6, 0, -1, (4, [2, 3], [-1, 0])),
        ]
        for number, place, value, arguments in calls:
            refusal = self.refusal(lu.write_run_line, *arguments)
            self.assertEqual((refusal, refusal.value), (lu.Refusal(number, place), value))
        self.refuses(1, 0, lu.run_line_of_word, 0, [1])
        self.refuses(2, 0, lu.run_line_of_word, 4, [1] * 1025)
        self.assertEqual(self.refusal(lu.run_line_of_word, 4, [1, 9]).value, 9)

    def test_no_text(self) -> None:
        for function in (lu.read_run_line, lu.tableau_to_runs, lu.runs_to_tableau):
            for other in ("C,4,0\n", [67], None):
                self.assertRaises(TypeError, function, other)


if __name__ == "__main__":
    unittest.main()
