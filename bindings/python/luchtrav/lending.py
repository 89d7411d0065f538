"""What a caller hands over, as what the library takes: sequences and buffers as arrays of 8 or 16 bits, numbers as size_t.

No number is cut. One that does not fit is handed on as a number that the library refuses in its stead, at the same place.
"""
from array import array
from collections import abc
from itertools import islice
from operator import index
from typing import TYPE_CHECKING, List, Optional, Sequence, Union

from .buffers import Integers, from_buffer

LARGEST = 2**64 - 1

# The letters that have a count.
COUNTED = range(1, 65)

# So many elements of a sequence are taken: one more than the library accepts, so that 2 falls however long it is.
ENOUGH = 1025

# Bytes that hold a line.
Text = Union[bytes, bytearray, memoryview]

if TYPE_CHECKING:
    Array = array[int]
else:
    Array = array


class Counts(Array):
    """Letter counts, 64 of 16 bits, which are lent without their number."""


def taken(width: int, values: Integers, enough: Optional[int] = ENOUGH) -> Sequence[int]:
    """What was given: a list or tuple of it, or, from a buffer, the bytes of integers of that width where all of them fit. TypeError for what is
    neither sequence nor buffer: a set has no order, an iterator no length."""
    # No other list or tuple is handed to bytes() as it is: it might have a __bytes__ or __index__ of its own.
    if type(values) is list or type(values) is tuple:
        return values
    content = None if isinstance(values, (list, tuple)) else from_buffer(values, width)
    if content is not None:
        return content
    if isinstance(values, abc.Sequence) and not isinstance(values, str):
        return list(islice(values, enough))
    raise TypeError("a sequence or a buffer of integers is needed, not %s" % type(values).__name__)


def elements(values: Integers) -> Sequence[int]:
    """All the integers that the caller gave, whether they fit or not."""
    given = taken(8, values, None)
    return array("Q", given) if isinstance(given, (bytes, bytearray)) else given


def as_integers(values: Sequence[int]) -> List[int]:
    """The values as integers of Python's own. TypeError, with its place, for one that is none."""
    try:
        # int: before Python 3.10 index leaves a truth value as it is.
        return list(map(int, map(index, values)))
    except TypeError as error:
        integers = (place for place, value in enumerate(values) if not hasattr(value, "__index__"))
        raise TypeError("integers are needed; at place %d: %s" % (next(integers, 0), error)) from error


def fitting(limit: int, stand_in: int, values: Sequence[int]) -> List[int]:
    """The values, the stand-in for each that is not 0 to limit. TypeError for one that is no integer."""
    return [value if 0 <= value <= limit else stand_in for value in as_integers(values)]


def as_bytes(stand_in: int, values: Integers, enough: Optional[int]) -> "array[int]":
    given = values if type(values) is bytes or type(values) is bytearray else taken(1, values, enough)
    try:
        return array("B", bytes(given))
    except (ValueError, TypeError):
        return array("B", fitting(255, stand_in, given))


def as_letters(values: Integers, enough: Optional[int] = ENOUGH) -> "array[int]":
    """Letters: 0 for one that fits no byte, so that 4 falls at its place."""
    return as_bytes(0, values, enough)


def as_marks(values: Integers, enough: Optional[int] = ENOUGH) -> "array[int]":
    """Marks: 255 for one that fits no byte, so that 6 falls at its place."""
    return as_bytes(255, values, enough)


def as_entries(values: Integers) -> "array[int]":
    """Entries: 0 for one that does not fit 16 bits, so that 7 falls at its place."""
    given = taken(2, values)
    try:
        return array("H", given)
    except (OverflowError, TypeError):
        return array("H", fitting(65535, 0, given))


def as_counts(stored: Optional[Sequence[int]], letters: "array[int]") -> Counts:
    """Letter counts, all 64 of them: those that were stored, 65,535 for one that does not fit 16 bits, so that 17 falls at its place; where none were,
    those of the lent letters. More letters than the library accepts are not counted, as 2 falls."""
    if stored is None:
        return Counts("H", map(letters.tobytes().count, COUNTED)) if len(letters) < ENOUGH else counts_room()
    try:
        return Counts("H", stored)
    except OverflowError:
        return Counts("H", fitting(65535, 65535, stored))


def as_number(value: int) -> int:
    """A rank, a move's index or a letter to be inserted: 0 for one that fits no size_t, so that 1, 9 or 4 falls."""
    number = index(value)
    return number if 0 <= number <= LARGEST else 0


def as_place(value: int) -> int:
    """A place, or the number of a word: the largest for one that does not fit 64 bits, so that there is no such cell, or 16 falls."""
    place = index(value)
    return place if 0 <= place <= LARGEST else LARGEST


def as_told(value: int) -> int:
    """A number that is only told, in an E line: ValueError for one that fits no size_t."""
    number = index(value)
    if not 0 <= number <= LARGEST:
        raise ValueError("%d is not 0 to 2**64 - 1" % number)
    return number


def as_text(text: Text) -> "array[int]":
    """The bytes of a line. A str has no bytes, and is a TypeError; so is memory that holds wider numbers."""
    if not isinstance(text, (bytes, bytearray, memoryview)):
        raise TypeError("a line is bytes, not %s" % type(text).__name__)
    with memoryview(text) as view:
        if view.itemsize != 1:
            raise TypeError("a line is bytes, not numbers of %d bytes" % view.itemsize)
        # Not bytes(text): a class of the caller's own might have a __bytes__.
        return array("B", view.tobytes())


def room(code: str, count: int) -> "array[int]":
    """Memory to lend for an output of so many elements."""
    return array(code, [0]) * count


def counts_room() -> Counts:
    """Memory to lend for letter counts."""
    return Counts("H", bytes(2 * len(COUNTED)))
