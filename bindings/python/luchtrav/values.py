"""What the functions give where it is more than a number or a list. All of them are tuples. They hash, and can be keys; a MovedWord, whose word is a
list, does not."""
from array import array
from collections import Counter
from typing import Any, Iterable, List, NamedTuple, Optional, Tuple, Type

from .buffers import Integers
from .lending import COUNTED, Counts, as_integers, elements


def integers(values: Integers) -> Tuple[int, ...]:
    return tuple(as_integers(elements(values)))


def counts_of(letters: Tuple[int, ...]) -> Tuple[int, ...]:
    """How often each of the letters 1 to 64 occurs. Numbers that are no letters do not count."""
    found = Counter(letters)
    return tuple([found.get(letter, 0) for letter in COUNTED])


def stored_counts(values: Optional[Integers]) -> Optional[Tuple[int, ...]]:
    """Counts as they were given, 0 for those that are missing at the end; None where none were given."""
    if values is None:
        return None
    counts = integers(values)
    if len(counts) > len(COUNTED):
        raise ValueError("letter counts are at most %d numbers, not %d" % (len(COUNTED), len(counts)))
    return counts + (0,) * (len(COUNTED) - len(counts))


def shown(parts: str, letters: Tuple[int, ...], counts: Tuple[int, ...]) -> str:
    """The text of a tuple, with the counts, up to the last that is not 0, where they are not those of the letters."""
    if counts == counts_of(letters):
        return parts
    last = max((place for place, count in enumerate(counts) if count), default=-1)
    return "%s, counts=%r)" % (parts[:-1], counts[: last + 1])


class TableauFields(NamedTuple):
    letters: Tuple[int, ...]
    marks: Tuple[int, ...]


class Tableau(TableauFields):
    """A quasi-ribbon tableau in ribbon order: letters, and for each cell the step into it, 0 right, 1 down. With them go its letter counts, 64 numbers.

    It is made from any two sequences or buffers of integers, and is a pair of tuples. The counts are those of the letters, by themselves; stored ones
    can be given as a third sequence, of which zeros at the end may be left out, and are judged (17) wherever the Tableau is. They take no part in
    comparisons: two Tableaux are equal when letters and marks are. Making one checks no rank, no order and no count: check_counted_tableau does.
    """

    # The counts that were given; None where they are those of the letters, and need not be kept.
    _counts: Optional[Tuple[int, ...]]

    def __new__(cls, letters: Integers, marks: Integers, counts: Optional[Integers] = None) -> "Tableau":
        return tableau_with((integers(letters), integers(marks)), stored_counts(counts), cls)

    @property
    def counts(self) -> Tuple[int, ...]:
        """How often each of the letters 1 to 64 occurs, as it was given; else as it is."""
        return counts_of(self.letters) if self._counts is None else self._counts

    def __repr__(self) -> str:
        return shown(super().__repr__(), self.letters, self.counts)

    # _replace goes through it too.
    @classmethod
    def _make(cls, iterable: Iterable[Any], **named: Any) -> "Tableau":
        return cls(*iterable)


class PairFields(NamedTuple):
    letters: Tuple[int, ...]
    marks: Tuple[int, ...]
    entries: Tuple[int, ...]


class Pair(PairFields):
    """A tableau with its recording ribbon's entries beside it, made and held likewise; `tableau` is the tableau alone. check_counted_pair checks it."""

    _counts: Optional[Tuple[int, ...]]

    def __new__(cls, letters: Integers, marks: Integers, entries: Integers, counts: Optional[Integers] = None) -> "Pair":
        return pair_with((integers(letters), integers(marks), integers(entries)), stored_counts(counts), cls)

    @property
    def counts(self) -> Tuple[int, ...]:
        """How often each of the letters 1 to 64 occurs, as it was given; else as it is."""
        return counts_of(self.letters) if self._counts is None else self._counts

    def __repr__(self) -> str:
        return shown(super().__repr__(), self.letters, self.counts)

    @property
    def tableau(self) -> Tableau:
        """The tableau alone, with its counts."""
        return tableau_with((self.letters, self.marks), self._counts)

    # _replace goes through it too.
    @classmethod
    def _make(cls, iterable: Iterable[Any], **named: Any) -> "Pair":
        return cls(*iterable)


# A tableau and a pair of tuples of integers.
def tableau_with(parts: Tuple[Tuple[int, ...], ...], counts: Optional[Tuple[int, ...]], kind: Type[Tableau] = Tableau) -> Tableau:
    tableau = tuple.__new__(kind, parts)
    tableau._counts = counts
    return tableau


def pair_with(parts: Tuple[Tuple[int, ...], ...], counts: Optional[Tuple[int, ...]], kind: Type[Pair] = Pair) -> Pair:
    pair = tuple.__new__(kind, parts)
    pair._counts = counts
    return pair


# A tableau and a pair in memory that the library has written: its numbers need no second look.
def tableau_in(letters: "array[int]", marks: "array[int]", counts: Counts) -> Tableau:
    return tableau_with((tuple(letters.tolist()), tuple(marks.tolist())), tuple(counts.tolist()))


def pair_in(letters: "array[int]", marks: "array[int]", entries: "array[int]", counts: Counts) -> Pair:
    return pair_with((tuple(letters.tolist()), tuple(marks.tolist()), tuple(entries.tolist())), tuple(counts.tolist()))


class MovedWord(NamedTuple):
    """A word after a move, and the place of the letter that the move changed."""

    word: List[int]
    place: int


class MovedTableau(NamedTuple):
    """A tableau after a move, and the place of the cell whose letter the move changed."""

    tableau: Tableau
    place: int


class Junctions(NamedTuple):
    """A junction set, bit a - 1 for letter a, and the rows of the tableau."""

    set: int
    rows: int


class Cell(NamedTuple):
    """A cell of a tableau; rows and columns count from 0."""

    letter: int
    row: int
    column: int
