"""Operations on pairs: a tableau's letters and marks with the entries of a recording ribbon beside them; a Tableau and the entries; or one Pair."""
from __future__ import annotations

from array import array
from typing import List, Optional, Tuple, Union, overload

from .buffers import Integers
from .lending import as_counts, as_entries, as_letters, as_marks, as_number, room
from .library import ask
from .values import Pair, Tableau, pair_in, stored_counts

# Letters, or the Tableau that stands for letters and marks, or the Pair that stands for letters, marks and entries.
Letters = Union[Integers, Tableau, Pair]

# Letters, marks, entries, and the counts that go with them in a Tableau or a Pair; None where they are those of the letters.
Parts = Tuple[Integers, Integers, Integers, Optional[Tuple[int, ...]]]


def parts_of(letters: Letters, marks: Optional[Integers], entries: Optional[Integers]) -> Parts:
    """Letters, marks, entries and counts, however they were given: after a Tableau the entries stand where the marks would."""
    counts: Optional[Tuple[int, ...]] = None
    if isinstance(letters, Pair) and marks is None and entries is None:
        return letters.letters, letters.marks, letters.entries, letters._counts
    if isinstance(letters, Tableau) and (marks is None) != (entries is None):
        tableau, entries = letters, entries if marks is None else marks
        letters, marks, counts = tableau.letters, tableau.marks, tableau._counts
    if isinstance(letters, (Tableau, Pair)) or marks is None or entries is None:
        raise TypeError("letters, marks and entries are needed, or a Tableau and entries, or one Pair")
    return letters, marks, entries, counts


@overload
def check_pair(rank: int, pair: Pair, /) -> None: ...
@overload
def check_pair(rank: int, tableau: Tableau, entries: Integers, /) -> None: ...
@overload
def check_pair(rank: int, tableau: Tableau, /, *, entries: Integers) -> None: ...
@overload
def check_pair(rank: int, letters: Integers, marks: Integers, entries: Integers) -> None: ...
def check_pair(rank: int, letters: Letters, marks: Optional[Integers] = None, entries: Optional[Integers] = None) -> None:
    """Whether letters, marks and entries, a Tableau and entries, or a Pair are a pair of the rank: silent, or refuses with 1 to 8. Counts are not
    looked at."""
    letters, marks, entries, _ = parts_of(letters, marks, entries)
    parts = as_letters(letters), as_marks(marks), as_entries(entries)
    ask("check_pair", as_number(rank), *parts, letters=(letters,), marks=(marks,), entries=(entries,))


@overload
def check_counted_pair(rank: int, pair: Pair, /) -> None: ...
@overload
def check_counted_pair(rank: int, tableau: Tableau, entries: Integers, /) -> None: ...
@overload
def check_counted_pair(rank: int, tableau: Tableau, /, *, entries: Integers) -> None: ...
@overload
def check_counted_pair(rank: int, letters: Integers, marks: Integers, entries: Integers, counts: Integers) -> None: ...
def check_counted_pair(
    rank: int, letters: Letters, marks: Optional[Integers] = None, entries: Optional[Integers] = None, counts: Optional[Integers] = None
) -> None:
    """Whether a Pair, a Tableau and entries, or letters, marks, entries and stored counts are a pair of the rank and its counts: silent, or refuses with
    1 to 6, 17, 7, 8."""
    if isinstance(letters, (Tableau, Pair)) != (counts is None):
        raise TypeError("letters, marks, entries and counts are needed, or a Tableau and entries, or one Pair")
    letters, marks, entries, stored = parts_of(letters, marks, entries)
    if counts is not None:
        stored = stored_counts(counts)
    lent = as_letters(letters)
    parts = lent, as_marks(marks), as_entries(entries), as_counts(stored, lent)
    ask("check_counted_pair", as_number(rank), *parts, letters=(letters,), marks=(marks,), entries=(entries,), counts=(stored,))


def used_cells(name: str, rank: int, parts: Tuple[array[int], ...]) -> int:
    """How many cells a pair has that is lent for a letter to arrive or to leave. There the library takes longer parts, whose last elements are no cells;
    here they refuse as those of any other pair."""
    used = len(parts[0])
    if any(len(part) != used for part in parts):
        ask("check_pair", as_number(rank), *parts, caller=name)
    return used


@overload
def insert_letter(rank: int, letter: int, pair: Pair, /) -> Pair: ...
@overload
def insert_letter(rank: int, letter: int, tableau: Tableau, entries: Integers, /) -> Pair: ...
@overload
def insert_letter(rank: int, letter: int, tableau: Tableau, /, *, entries: Integers) -> Pair: ...
@overload
def insert_letter(rank: int, letter: int, letters: Integers, marks: Integers, entries: Integers) -> Pair: ...
def insert_letter(rank: int, letter: int, letters: Letters, marks: Optional[Integers] = None, entries: Optional[Integers] = None) -> Pair:
    """The pair, given as letters, marks and entries, as a Tableau and entries or as a Pair, with one letter more; what the caller gave stays. Its
    three parts must be equally long. Refuses 1 to 6, 17, 7, 8, and 12 for 1,024 cells. The letter to be inserted is judged by 4, at the number of cells as
    its place."""
    letters, marks, entries, stored = parts_of(letters, marks, entries)
    parts = as_letters(letters), as_marks(marks), as_entries(entries)
    counts = as_counts(stored, parts[0])
    used = used_cells("insert_letter", rank, parts)
    for part in parts:
        part.append(0)
    numbers, given = (as_number(rank), used, as_number(letter)), (letters, [letter])
    ask("insert_letter", *numbers, *parts, counts, letters=given, marks=(marks,), entries=(entries,), counts=(stored,))
    return pair_in(*parts, counts)


@overload
def remove_oldest(rank: int, pair: Pair, /) -> Pair: ...
@overload
def remove_oldest(rank: int, tableau: Tableau, entries: Integers, /) -> Pair: ...
@overload
def remove_oldest(rank: int, tableau: Tableau, /, *, entries: Integers) -> Pair: ...
@overload
def remove_oldest(rank: int, letters: Integers, marks: Integers, entries: Integers) -> Pair: ...
def remove_oldest(rank: int, letters: Letters, marks: Optional[Integers] = None, entries: Optional[Integers] = None) -> Pair:
    """The pair, given as letters, marks and entries, as a Tableau and entries or as a Pair, without the oldest letter, which has the entry 1: the pair of its
    word without the first letter; what the caller gave stays. Its three parts must be equally long. A Window keeps a pair in memory of its own, for many such
    calls. Refuses 1 to 6, 17, 7, 8, and 18 where there is no letter.

    >>> luchtrav.remove_oldest(4, luchtrav.pair_of_word(4, [4, 3, 2, 3])) == luchtrav.pair_of_word(4, [3, 2, 3])
    True
    """
    letters, marks, entries, stored = parts_of(letters, marks, entries)
    parts = as_letters(letters), as_marks(marks), as_entries(entries)
    counts = as_counts(stored, parts[0])
    used = used_cells("remove_oldest", rank, parts)
    ask("remove_oldest", as_number(rank), used, *parts, counts, letters=(letters,), marks=(marks,), entries=(entries,), counts=(stored,))
    for part in parts:
        part.pop()
    return pair_in(*parts, counts)


@overload
def word_of_pair(rank: int, pair: Pair, /) -> List[int]: ...
@overload
def word_of_pair(rank: int, tableau: Tableau, entries: Integers, /) -> List[int]: ...
@overload
def word_of_pair(rank: int, tableau: Tableau, /, *, entries: Integers) -> List[int]: ...
@overload
def word_of_pair(rank: int, letters: Integers, marks: Integers, entries: Integers) -> List[int]: ...
def word_of_pair(rank: int, letters: Letters, marks: Optional[Integers] = None, entries: Optional[Integers] = None) -> List[int]:
    """The one word whose pair letters, marks and entries, a Tableau and entries, or a Pair are. Refuses 1 to 6, 17, 7, 8."""
    letters, marks, entries, counts = parts_of(letters, marks, entries)
    lent = as_letters(letters)
    parts = lent, as_marks(marks), as_entries(entries), as_counts(counts, lent)
    word = room("B", len(lent))
    ask("word_of_pair", as_number(rank), *parts, word, letters=(letters,), marks=(marks,), entries=(entries,), counts=(counts,))
    return word.tolist()
