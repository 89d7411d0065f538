"""Tests of the pair of a word, its P line, and the converter of former T and N lines (document 02, N7).

    python3 bindings/python/test_pairs.py
"""
import unittest
from itertools import product
from typing import List, Sequence, Tuple

from support import Case, lu, word_of

LINE = b"P,4,4,2,d,3,r,3,d,4,3,2,4,1\n"
FORMER = b"T,4,4,2,d,3,r,3,d,4\n", b"N,4,3,2,4,1\n"
PAIR = lu.Pair([2, 3, 3, 4], [0, 1, 0, 1], [3, 2, 4, 1])


def former(rank: int, pair: lu.Pair) -> Tuple[bytes, bytes]:
    """The two lines that versions before 0.8 stored of a pair."""
    recording = b"N,%d%s\n" % (len(pair.entries), b"".join(b",%d" % entry for entry in pair.entries))
    return lu.write_tableau_line(rank, pair.tableau), recording


def inserted(rank: int, word: Sequence[int]) -> lu.Pair:
    """The pair of a word, letter by letter."""
    pair = lu.Pair([], [], [])
    for letter in word:
        pair = lu.insert_letter(rank, letter, pair)
    return pair


class Pairs(Case):
    def test_examples(self) -> None:
        for rank, digits, letters, marks, entries in (
            (4, "4323", "2334", "0101", "3241"), (4, "433", "334", "001", "231"), (4, "", "", "", ""), (9, "9", "9", "0", "1"),
            (6, "243245565", "223445556", "001100001", "143256798"), (3, "321", "123", "011", "321"), (3, "123", "123", "000", "123"),
        ):
            pair = lu.pair_of_word(rank, word_of(digits))
            self.assertEqual(pair, lu.Pair(word_of(letters), word_of(marks), word_of(entries)))
            self.assertEqual((type(pair), type(pair.tableau)), (lu.Pair, lu.Tableau))
            self.assertEqual(pair.tableau, lu.Tableau(word_of(letters), word_of(marks)))

    def test_all_short_words(self) -> None:
        """All words of up to five letters over 1 to 3: as letter by letter, and back; no two words have one pair."""
        met = set()
        for length in range(6):
            for word in product((1, 2, 3), repeat=length):
                pair = lu.pair_of_word(3, word)
                met.add(pair)
                self.assertEqual(pair, inserted(3, word))
                lu.check_counted_pair(3, pair)
                self.assertEqual(lu.word_of_pair(3, pair), list(word))
                self.assertEqual(lu.write_tableau_line(3, pair.tableau), lu.tableau_line_of_word(3, word))
        self.assertEqual(len(met), 364)

    def test_longest(self) -> None:
        for rank, word in ((64, [64 - place % 64 for place in range(1024)]), (1, [1] * 1024), (2, [2, 1] * 512)):
            pair = lu.pair_of_word(rank, word)
            self.assertEqual((list(pair.letters), sorted(pair.entries)), (sorted(word), list(range(1, 1025))))
            self.assertEqual(lu.word_of_pair(rank, pair), word)

    def test_refusals(self) -> None:
        for number, place, rank, word in (
            (1, 0, 0, [1]), (1, 0, 65, [1] * 1025), (2, 0, 4, [5] * 1025), (4, 0, 4, [5, 1, 1]), (4, 1, 4, [1, 0, 9]), (4, 2, 4, [1, 1, 5]),
        ):
            self.refuses(number, place, lu.pair_of_word, rank, word)


class PairLines(Case):
    def test_4323(self) -> None:
        self.assertEqual(lu.write_pair_line(4, PAIR), LINE)
        self.assertEqual(lu.read_pair_line(LINE), (4, PAIR))
        rank, pair = lu.read_pair_line(LINE)
        self.assertEqual((type(pair), lu.word_of_pair(rank, pair)), (lu.Pair, [4, 3, 2, 3]))
        self.assertEqual(lu.read_pair_line(b"P,4,0\n"), (4, ((), (), ())))
        self.assertEqual(lu.read_pair_line(b"P,4,1,3,1\n"), (4, ((3,), (0,), (1,))))

    def test_all_short_words(self) -> None:
        """There and back, and the line is the halves of the former lines; no two words have one line."""
        lines = set()
        for length in range(6):
            for word in product((1, 2, 3), repeat=length):
                pair = lu.pair_of_word(3, word)
                line = lu.write_pair_line(3, pair)
                lines.add(line)
                self.assertEqual(lu.read_pair_line(line), (3, pair))
                tableau, recording = former(3, pair)
                items = recording[len("N,%d" % length) : -1]
                self.assertEqual(line, b"P" + tableau[1:-1] + items + b"\n")
                self.assertEqual(lu.convert_lines(tableau, recording), line)
                self.assertEqual(lu.answer(lu.write_word_line(3, word)).split(b"\n")[0] + b"\n", line)
        self.assertEqual(len(lines), 364)

    def test_longest(self) -> None:
        pair = lu.Pair([10] * 1024, [0] * 1024, range(1, 1025))
        line = lu.write_pair_line(64, pair)
        self.assertEqual((len(line), lu.read_pair_line(line)), (9141, (64, pair)))
        self.assertEqual(lu.convert_lines(*former(64, pair)), line)

    def test_bytes(self) -> None:
        """14 at the first byte that breaks the grammar, or at the text's length."""
        for place, text in (
            (0, b""), (0, b"T,4,0\n"), (0, b"p,4,0\n"), (1, b"P"), (2, b"P,"), (2, b"P,,"), (3, b"P,04"), (5, b"P,4,0"), (6, b"P,4,0\n\n"), (5, b"P,4,0,\n"),
            (7, b"P,4,1,3\n"), (9, b"P,4,1,3,1"), (10, b"P,4,1,3,1\n\n"), (9, b"P,4,1,3,1,"), (8, b"P,4,1,3,r"), (8, b"P,4,2,3,4,1,2\n"),
            (6, b"P,4,1,d"), (9, b"P,4,1,3,01\n"), (12, b"P,4,1,3,12345\n"), (len(LINE) - 1, LINE[:-1]), (len(LINE), LINE + b"x"),
            (25, b"P,4,4,2,d,3,r,3,d,4,3,2,4\n"), (27, LINE[:-1] + b",1\n"), (5, b"P,65,x"),
        ):
            self.refuses(14, place, lu.read_pair_line, text)

    def test_values(self) -> None:
        """1, 2, 4 to 8 of what the line says, each at a first, a middle or a last place, the first number first."""
        for number, place, text in (
            (1, 0, b"P,0,1,3,1\n"), (1, 0, b"P,65,1,99,0\n"), (1, 0, b"P,0,1025" + b",1" + b",r,1" * 1024 + b",0" * 1025 + b"\n"),
            (2, 0, b"P,4,1025,9" + b",r,1" * 1024 + b",0" * 1025 + b"\n"),
            (4, 0, b"P,4,3,5,r,0,d,3,1,2,3\n"), (4, 1, b"P,4,3,2,r,300,d,1,0,0,0\n"), (4, 2, b"P,4,3,1,r,2,r,9999,1,2,3\n"),
            (5, 1, b"P,4,3,2,r,1,d,1,0,0,0\n"), (5, 2, b"P,4,3,1,r,3,r,2,1,2,3\n"),
            (6, 1, b"P,4,3,2,d,2,d,2,0,0,0\n"), (6, 2, b"P,4,3,1,d,2,d,2,0,0,0\n"),
            (7, 0, b"P,4,3,1,r,2,r,3,0,2,3\n"), (7, 1, b"P,4,3,1,r,2,r,3,1,4,3\n"), (7, 2, b"P,4,3,1,d,2,d,3,1,2,2\n"), (7, 2, b"P,4,3,1,r,2,r,3,1,2,1\n"),
            (8, 1, b"P,4,3,1,d,2,r,3,1,2,3\n"), (8, 1, b"P,4,3,1,r,2,d,3,3,2,1\n"), (8, 2, b"P,4,3,1,r,2,r,3,1,3,2\n"),
        ):
            self.refuses(number, place, lu.read_pair_line, text)

    def test_written(self) -> None:
        """1 to 8 of a pair, in order."""
        parts: List[Tuple[int, int, int, List[int], List[int], List[int]]] = [
            (1, 0, 65, [1], [0], []), (2, 0, 4, [5] * 1025, [0], []), (3, 0, 4, [5, 5], [0], [1, 2]), (3, 0, 4, [5, 5], [0, 0], [1]),
            (4, 1, 4, [2, 5], [1, 0], [1, 2]), (5, 1, 4, [2, 1], [1, 0], [1, 2]), (6, 0, 4, [1, 2], [1, 0], [0, 2]), (6, 1, 4, [1, 1], [0, 1], [0, 2]),
            (7, 0, 4, [1, 2], [0, 1], [0, 2]), (7, 1, 4, [1, 2], [0, 1], [2, 2]), (8, 1, 4, [1, 2], [0, 1], [1, 2]), (8, 1, 4, [1, 2], [0, 0], [2, 1]),
        ]
        for number, place, rank, letters, marks, entries in parts:
            self.refuses(number, place, lu.write_pair_line, rank, letters, marks, entries)
            if len(letters) == len(marks):
                self.refuses(number, place, lu.write_pair_line, rank, lu.Tableau(letters, marks), entries)


class Converter(Case):
    def test_4323(self) -> None:
        self.assertEqual(lu.convert_lines(*FORMER), LINE)
        self.assertEqual(lu.convert_lines(bytearray(FORMER[0]), memoryview(FORMER[1])), LINE)
        self.assertEqual(lu.convert_lines(b"T,4,0\n", b"N,0\n"), b"P,4,0\n")

    def test_bytes(self) -> None:
        """14 over the T line first; places in the N line count on from the T line's length."""
        tableau, recording = FORMER
        for place, first, second in (
            (0, b"", b""), (0, b"W,4,0\n", b""), (0, recording, tableau), (0, LINE, recording), (19, tableau[:-1], b""), (20, tableau + b"\n", recording),
            (20, tableau, b""), (20, tableau, tableau), (21, tableau, b"N"), (22, tableau, b"N,04\n"[:2]), (31, tableau, recording[:-1]),
            (32, tableau, recording + b"\n"), (29, tableau, b"N,4,3,2,4\n"), (23, tableau, b"N,0,\n"), (23, tableau, b"N,00\n"),
            (6, b"T,65,0", b"N"), (10, b"T,4,1025,9\n", b"N"), (7, b"T,65,0\n", b""), (9, b"T,65,0\n", b"N,"),
        ):
            self.refuses(14, place, lu.convert_lines, first, second)

    def test_values(self) -> None:
        """1, 2 of either, 3 of unequal numbers, 4 to 8; places are those of letters or entries."""
        level = b"T,4,3,1,r,2,r,3\n"
        many = b"T,4,1025,1" + b",r,1" * 1024 + b"\n"
        entries = b"N,1025" + b",0" * 1025 + b"\n"
        for number, place, first, second in (
            (1, 0, b"T,0,1,3\n", b"N,1,1\n"), (1, 0, b"T,65,1,3\n", entries), (2, 0, many, b"N,1,1\n"), (2, 0, b"T,4,1,9\n", entries), (2, 0, many, entries),
            (3, 0, level, b"N,2,1,2\n"), (3, 0, level, b"N,4,1,2,3,4\n"), (3, 0, b"T,4,1,9\n", b"N,0\n"), (3, 0, b"T,4,0\n", b"N,1,0\n"),
            (4, 0, b"T,4,3,0,r,2,r,3\n", b"N,3,0,0,0\n"), (4, 2, b"T,4,3,2,d,1,r,5\n", b"N,3,1,2,3\n"), (4, 1, b"T,4,2,1,r,256\n", b"N,2,1,2\n"),
            (5, 1, b"T,4,3,2,r,1,d,1\n", b"N,3,0,0,0\n"), (6, 2, b"T,4,3,1,d,2,d,2\n", b"N,3,0,0,0\n"),
            (7, 0, level, b"N,3,4,2,2\n"), (7, 2, level, b"N,3,2,1,1\n"), (8, 1, level, b"N,3,3,2,1\n"), (8, 2, level, b"N,3,1,3,2\n"),
        ):
            self.refuses(number, place, lu.convert_lines, first, second)

    def test_read_again(self) -> None:
        """What the converter gives, the reader takes: the values of the two lines."""
        for word in ([4, 3, 2, 3], [], [1, 2, 4, 4, 6, 5, 5, 3, 2, 7, 5], [64, 1] * 512):
            pair = lu.pair_of_word(64, word)
            self.assertEqual(lu.read_pair_line(lu.convert_lines(*former(64, pair))), (64, pair))

    def test_lone_recordings(self) -> None:
        """No other function takes an N line."""
        for call in (lu.read_word_line, lu.read_tableau_line, lu.read_pair_line):
            self.refuses(14, 0, call, FORMER[1])
        self.assertEqual(lu.answer(FORMER[1]), b"E,14,0\n")


if __name__ == "__main__":
    unittest.main()
