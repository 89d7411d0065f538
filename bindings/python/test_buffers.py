"""Tests of buffers: integers of every format, contiguous or not, answer as the list of them does, also where some do not fit.

    python3 bindings/python/test_buffers.py

numpy arrays are tried where there is a numpy.
"""
import ctypes
import random
import struct
import unittest
from array import array
from typing import Any, Callable, List, Tuple

from support import Case, lu

try:
    import numpy
except ImportError:
    numpy = None  # type: ignore[assignment]

FORMATS = "bBhHiIlLqQ"


def setUpModule() -> None:
    if numpy is None:
        print("There is no numpy here: its arrays are not tried.")


def came_of(call: Callable[..., Any], *arguments: Any) -> Any:
    """An answer, or all that a refusal tells."""
    try:
        return call(*arguments)
    except lu.Refusal as refusal:
        return refusal.args


def uses(values: Any) -> Tuple[Any, ...]:
    """What comes of integers as a word, as letters and marks, also where nothing is refused, and as entries."""
    return (
        came_of(lu.pair_of_word, 64, values), came_of(lu.same_class, 64, [1], 64, values), came_of(lu.raise_word, 64, 1, values),
        [lu.cell_at(values, [0] * len(values), place) for place in range(len(values))],
        [lu.cell_at([1] * len(values), values, place) for place in range(len(values))],
        came_of(lu.product, 64, ([1], [0]), (values, [0] * len(values))), came_of(lu.product, 64, ([1] * len(values), values), ([1], [0])),
        came_of(lu.check_tableau, 64, [1] * len(values), values), lu.Tableau(values, values),
        came_of(lu.write_pair_line, 64, [1] * len(values), [0] * len(values), values),
    )


def drawn(draw: random.Random, code: str, small: bool) -> List[int]:
    """Up to 12 integers of a format: those of a word, or some of them the least, the largest and others at an edge."""
    bits = 8 * struct.calcsize(code)
    least, most = (-(2 ** (bits - 1)), 2 ** (bits - 1) - 1) if code.islower() else (0, 2**bits - 1)
    edges = [least, most, 0, 127, 128, 255, 256, 257, 32767, 32768, 65535, 65536, 65537, 2**24, 2**32 + 1, 2**56, -1, -256, -65536]
    fitting = [edge for edge in edges if least <= edge <= most]
    return [draw.randint(1, 64) if small or draw.random() < 0.7 else draw.choice(fitting) for _ in range(draw.randint(0, 12))]


class Buffers(Case):
    def laid(self, code: str, values: List[int]) -> List[Any]:
        """The integers as buffers: in one piece, of two formats, apart, and backwards."""
        whole = array(code, values)
        apart = array(code, [value for value in values for _ in range(3)])
        return [
            whole, memoryview(whole), memoryview(whole).toreadonly(), memoryview(whole.tobytes()).cast("@" + code), memoryview(apart)[1::3],
            memoryview(array(code, values[::-1]))[::-1],
        ]

    def test_like_lists(self) -> None:
        draw = random.Random(1)
        for code in FORMATS:
            for turn in range(60):
                values = drawn(draw, code, turn % 3 == 0)
                expected = uses(values)
                for buffer in self.laid(code, values):
                    self.assertEqual(uses(buffer), expected, (code, values))

    def test_of_other_makers(self) -> None:
        """ctypes tells the byte order; n and N come by a cast; mapped and lent memory are bytes."""
        words: List[List[int]] = [[4, 3, 2, 3], [1, 100], []]
        for kind in (ctypes.c_uint8, ctypes.c_int8, ctypes.c_int16, ctypes.c_uint32, ctypes.c_long, ctypes.c_uint64):
            for values in words:
                buffer = (kind * len(values))(*values)
                self.assertEqual(uses(buffer), uses(values))
        self.assertEqual(came_of(lu.check_word, 4, (ctypes.c_int16 * 2)(1, -300)), (4, 1, "check_word", -300))
        for code in "nN":
            self.assertEqual(uses(memoryview(struct.pack("4" + code, 4, 3, 2, 3)).cast(code)), uses([4, 3, 2, 3]))

    def test_truth_values(self) -> None:
        marks = memoryview(b"\0\1\0\7").cast("?")
        self.assertEqual(lu.column_reading(4, [2, 3, 3, 4], marks), [3, 2, 4, 3])
        self.assertEqual(lu.Tableau([2, 3, 3, 4], marks), lu.Tableau([2, 3, 3, 4], [0, 1, 0, 1]))

    def test_no_integers(self) -> None:
        square = memoryview(bytes(4)).cast("B", (2, 2))
        high_byte_first = getattr(ctypes.c_int, "__ctype_be__") * 1
        others: List[Any] = [
            array("f", [1]), array("d", [1]), memoryview(b"1").cast("c"), square, (ctypes.c_char * 2)(), ctypes.c_int(1), array("u", "1"),
            high_byte_first(1),
        ]
        for other in others:
            with self.assertRaisesRegex(TypeError, "a buffer of integers is needed, in one dimension and in the machine's byte order, not"):
                lu.check_word(4, other)
            with self.assertRaisesRegex(TypeError, "a buffer of integers is needed, in one dimension and in the machine's byte order, not"):
                lu.write_pair_line(4, [1], [0], other)

    def test_memory_stays(self) -> None:
        for code in FORMATS:
            word, letters, marks, entries = (array(code, values) for values in ([3, 1, 3, 1], [2, 3], [0, 1], [2, 1]))
            before = [part.tobytes() for part in (word, letters, marks, entries)]
            self.assertEqual(lu.raise_word(3, 2, word), lu.MovedWord([2, 1, 3, 1], 0))
            self.assertEqual(lu.raise_tableau(4, 1, letters, marks), lu.MovedTableau(lu.Tableau([1, 3], [0, 1]), 0))
            self.assertEqual(lu.insert_letter(4, 1, letters, marks, entries), lu.Pair([1, 2, 3], [0, 1, 1], [3, 2, 1]))
            self.assertEqual(lu.remove_oldest(4, letters, marks, entries), lu.Pair([2], [0], [1]))
            self.assertEqual(lu.product(4, letters, marks, letters, marks), lu.Tableau([2, 2, 3, 3], [0, 0, 1, 0]))
            self.assertEqual([part.tobytes() for part in (word, letters, marks, entries)], before)
            word.append(1)  # No buffer is held after the call.


@unittest.skipIf(numpy is None, "no numpy")
class Numpy(Case):
    def test_like_lists(self) -> None:
        draw = random.Random(2)
        for code in FORMATS:
            for turn in range(30):
                values = drawn(draw, code, turn % 3 == 0)
                array_of = numpy.array(values, dtype=code)
                square = numpy.stack([array_of] * 3, axis=1)
                for buffer in (array_of, square[:, 1], array_of[::-1][::-1]):
                    self.assertEqual(uses(buffer), uses(values), (code, values))
        self.assertEqual(lu.pair_of_word(4, numpy.array([4, 3, 2, 3])), lu.pair_of_word(4, [4, 3, 2, 3]))
        self.assertEqual(lu.check_tableau(4, [2, 3], numpy.array([False, True])), None)

    def test_single_numbers(self) -> None:
        word = numpy.array([4, 3, 2, 3])
        self.assertEqual(lu.pair_of_word(numpy.int32(4), list(word)), lu.pair_of_word(4, [4, 3, 2, 3]))  # type: ignore[arg-type]
        refusal = self.refusal(lu.check_word, 4, list(word * 3))
        self.assertEqual(str(refusal), "check_word: refusal 4 at place 0: letter outside 1 to rank (12)")

    def test_refused(self) -> None:
        for other in (numpy.array([1.0]), numpy.array([[1]]), numpy.array(1), numpy.int64(1), numpy.array(["1"]), numpy.array([1], dtype=object),
                      numpy.array([1], dtype=">i4"), numpy.array([1], dtype="M8[s]"), numpy.array([1j]),
                      numpy.ma.array([1, 2], mask=[0, 1])):  # type: ignore[no-untyped-call]
            self.assertRaises(TypeError, lu.check_word, 4, other)
            self.assertRaises(TypeError, lu.write_pair_line, 4, [1], [0], other)


if __name__ == "__main__":
    unittest.main()
