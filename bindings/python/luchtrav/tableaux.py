"""Operations on tableaux, given as letters and marks in ribbon order or as one Tableau."""
from __future__ import annotations

from array import array
from typing import Any, Dict, List, Optional, Tuple, Union, cast, overload

from . import replies
from .buffers import Integers
from .lending import Counts, as_counts, as_letters, as_marks, as_number, as_place, room
from .library import ask
from .values import Cell, MovedTableau, Tableau, stored_counts, tableau_in

# Letters, or the Tableau that stands for letters and marks.
Letters = Union[Integers, Tableau]

# Letters, marks, and the counts that go with them in a Tableau; None where they are those of the letters.
Parts = Tuple[Integers, Integers, Optional[Tuple[int, ...]]]

# The same as they are lent.
Lent = Tuple["array[int]", "array[int]", Counts]


def parts_of(letters: Letters, marks: Optional[Integers]) -> Parts:
    """Letters, marks and counts, however they were given."""
    if isinstance(letters, Tableau) and marks is None:
        return letters.letters, letters.marks, letters._counts
    if isinstance(letters, Tableau) or marks is None:
        raise TypeError("letters and marks are needed, or one Tableau in their stead")
    return letters, marks, None


def lent_of(parts: Parts) -> Lent:
    letters = as_letters(parts[0])
    return letters, as_marks(parts[1]), as_counts(parts[2], letters)


def told(*tableaux: Parts) -> Dict[str, Any]:
    """What was given of one tableau, or of two, for the exception's text."""
    letters, marks, counts = zip(*tableaux)
    return {"letters": letters, "marks": marks, "counts": counts}


@overload
def check_tableau(rank: int, tableau: Tableau, /) -> None: ...
@overload
def check_tableau(rank: int, letters: Integers, marks: Integers) -> None: ...
def check_tableau(rank: int, letters: Letters, marks: Optional[Integers] = None) -> None:
    """Whether letters and marks, or those of a Tableau, are a tableau of the rank: silent, or refuses with 1 to 6. Counts are not looked at."""
    letters, marks, _ = parts_of(letters, marks)
    ask("check_tableau", as_number(rank), as_letters(letters), as_marks(marks), letters=(letters,), marks=(marks,))


@overload
def check_counted_tableau(rank: int, tableau: Tableau, /) -> None: ...
@overload
def check_counted_tableau(rank: int, letters: Integers, marks: Integers, counts: Integers) -> None: ...
def check_counted_tableau(rank: int, letters: Letters, marks: Optional[Integers] = None, counts: Optional[Integers] = None) -> None:
    """Whether a Tableau, or letters, marks and stored counts, are a tableau of the rank and its counts: silent, or refuses with 1 to 6, 17.

    >>> luchtrav.check_counted_tableau(4, [2, 3, 3, 4], [0, 1, 0, 1], [0, 1, 2, 1])
    """
    if isinstance(letters, Tableau) != (counts is None):
        raise TypeError("letters, marks and counts are needed, or one Tableau in their stead")
    letters, marks, stored = parts_of(letters, marks)
    parts = letters, marks, stored if counts is None else stored_counts(counts)
    ask("check_counted_tableau", as_number(rank), *lent_of(parts), **told(parts))


@overload
def column_reading(rank: int, tableau: Tableau, /) -> List[int]: ...
@overload
def column_reading(rank: int, letters: Integers, marks: Integers) -> List[int]: ...
def column_reading(rank: int, letters: Letters, marks: Optional[Integers] = None) -> List[int]:
    """The column reading of letters and marks, or of a Tableau: columns from left to right, each from bottom to top. Refuses 1 to 6, 17."""
    parts = parts_of(letters, marks)
    lent = lent_of(parts)
    word = room("B", len(lent[0]))
    ask("column_reading", as_number(rank), *lent, word, **told(parts))
    return word.tolist()


def moved(name: str, rank: int, index: int, letters: Letters, marks: Optional[Integers]) -> MovedTableau:
    parts = parts_of(letters, marks)
    lent = lent_of(parts)
    said: replies.Move = ask(name, as_number(rank), as_number(index), *lent, **told(parts))
    return MovedTableau(tableau_in(*lent), said.changed)


@overload
def raise_tableau(rank: int, index: int, tableau: Tableau, /) -> MovedTableau: ...
@overload
def raise_tableau(rank: int, index: int, letters: Integers, marks: Integers) -> MovedTableau: ...
def raise_tableau(rank: int, index: int, letters: Letters, marks: Optional[Integers] = None) -> MovedTableau:
    """The tableau, given as letters and marks or as a Tableau, with the first index + 1 turned into index, and the place of that cell; its marks do not
    change, nor do the caller's letters. In a word with this tableau raise_word changes the letter whose place, plus 1, is the recording entry
    of that cell. Refuses 1 to 6, 17, 9, 10 where index + 1 stands directly below index, 11 where there is no index + 1.

    >>> luchtrav.raise_tableau(3, 2, luchtrav.pair_of_word(3, [1, 3, 1]).tableau)
    MovedTableau(tableau=Tableau(letters=(1, 1, 2), marks=(0, 0, 1)), place=2)
    """
    return moved("raise_tableau", rank, index, letters, marks)


@overload
def lower_tableau(rank: int, index: int, tableau: Tableau, /) -> MovedTableau: ...
@overload
def lower_tableau(rank: int, index: int, letters: Integers, marks: Integers) -> MovedTableau: ...
def lower_tableau(rank: int, index: int, letters: Letters, marks: Optional[Integers] = None) -> MovedTableau:
    """The tableau, given as letters and marks or as a Tableau, with the last index turned into index + 1, and the place of that cell; its marks do not
    change, nor do the caller's letters. In a word with this tableau lower_word changes the letter whose place, plus 1, is the recording entry
    of that cell. Refuses 1 to 6, 17, 9, 10 where index + 1 stands directly below index, 11 where there is no index.

    >>> luchtrav.lower_tableau(3, 1, luchtrav.pair_of_word(3, [3, 1, 1, 3]).tableau)
    MovedTableau(tableau=Tableau(letters=(1, 2, 3, 3), marks=(0, 0, 1, 0)), place=1)
    """
    return moved("lower_tableau", rank, index, letters, marks)


def repeated(name: str, rank: int, index: int, letters: Letters, marks: Optional[Integers]) -> int:
    parts = parts_of(letters, marks)
    said: replies.Count = ask(name, as_number(rank), as_number(index), *lent_of(parts), **told(parts))
    return said.count


@overload
def raise_count_tableau(rank: int, index: int, tableau: Tableau, /) -> int: ...
@overload
def raise_count_tableau(rank: int, index: int, letters: Integers, marks: Integers) -> int: ...
def raise_count_tableau(rank: int, index: int, letters: Letters, marks: Optional[Integers] = None) -> int:
    """How often raise_tableau can be made, one after the other: 0 where it is not defined. Refuses 1 to 6, 17, 9."""
    return repeated("raise_count_tableau", rank, index, letters, marks)


@overload
def lower_count_tableau(rank: int, index: int, tableau: Tableau, /) -> int: ...
@overload
def lower_count_tableau(rank: int, index: int, letters: Integers, marks: Integers) -> int: ...
def lower_count_tableau(rank: int, index: int, letters: Letters, marks: Optional[Integers] = None) -> int:
    """How often lower_tableau can be made, one after the other: 0 where it is not defined. Refuses 1 to 6, 17, 9."""
    return repeated("lower_count_tableau", rank, index, letters, marks)


def parts_and(what: str, letters: Letters, marks: Union[Integers, int, None], number: Optional[int]) -> Tuple[Parts, int]:
    """Letters, marks and counts, and a number, which is a place or whatever else, however they were given: after a Tableau the number stands where the
    marks would."""
    if isinstance(letters, Tableau) and number is None:
        marks, number = None, cast(int, marks)
    if number is None:
        raise TypeError("letters, marks and a %s are needed, or a Tableau and a %s" % (what, what))
    return parts_of(letters, cast(Optional[Integers], marks)), number


def seen(said: replies.Cell) -> Optional[Cell]:
    return Cell(said.letter, said.row, said.column) if said.found else None


@overload
def look(rank: int, tableau: Tableau, place: int, /) -> Optional[Cell]: ...
@overload
def look(rank: int, tableau: Tableau, /, *, place: int) -> Optional[Cell]: ...
@overload
def look(rank: int, letters: Integers, marks: Integers, place: int) -> Optional[Cell]: ...
def look(rank: int, letters: Letters, marks: Union[Integers, int, None] = None, place: Optional[int] = None) -> Optional[Cell]:
    """The cell at a place of letters and marks, or of a Tableau, whose counts are not looked at; None for "no such cell". The whole tableau is checked
    first. Refuses 1 to 6."""
    (letters, marks, _), place = parts_and("place", letters, marks, place)
    return seen(ask("look", as_number(rank), as_letters(letters), as_marks(marks), as_place(place), letters=(letters,), marks=(marks,)))


@overload
def cell_at(tableau: Tableau, place: int, /) -> Optional[Cell]: ...
@overload
def cell_at(tableau: Tableau, /, *, place: int) -> Optional[Cell]: ...
@overload
def cell_at(letters: Integers, marks: Integers, place: int) -> Optional[Cell]: ...
def cell_at(letters: Letters, marks: Union[Integers, int, None] = None, place: Optional[int] = None) -> Optional[Cell]:
    """The cell at a place of a tableau that check_tableau has passed, without checking it again; None for "no such cell". Of other letters and marks,
    however many, it gives the letter, and as row and column how many marks 1 and how many marks 0 stand from place 1 to the cell. Refuses nothing."""
    (letters, marks, _), place = parts_and("place", letters, marks, place)
    return seen(ask("cell_at", as_letters(letters, None), as_marks(marks, None), as_place(place)))
