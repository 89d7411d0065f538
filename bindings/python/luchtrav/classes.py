"""The words of a class by number: those that have one tableau of at most 20 cells, in dictionary order, counted from 0."""
from __future__ import annotations

from typing import List, Optional, Union, overload

from . import replies
from .buffers import Integers
from .lending import as_letters, as_number, as_place, room
from .library import ask
from .tableaux import Letters, lent_of, parts_and, parts_of, told
from .values import Tableau


@overload
def class_size(rank: int, tableau: Tableau, /) -> int: ...
@overload
def class_size(rank: int, letters: Integers, marks: Integers) -> int: ...
def class_size(rank: int, letters: Letters, marks: Optional[Integers] = None) -> int:
    """How many words have the tableau, given as letters and marks or as a Tableau. The empty tableau has one word, the empty one. Refuses 1 to 6, 17, 15.

    >>> luchtrav.class_size(4, luchtrav.pair_of_word(4, [4, 2, 1, 3, 2, 3]).tableau)
    61
    """
    parts = parts_of(letters, marks)
    said: replies.Value = ask("class_size", as_number(rank), *lent_of(parts), **told(parts))
    return said.value


@overload
def class_word(rank: int, tableau: Tableau, number: int, /) -> List[int]: ...
@overload
def class_word(rank: int, tableau: Tableau, /, *, number: int) -> List[int]: ...
@overload
def class_word(rank: int, letters: Integers, marks: Integers, number: int) -> List[int]: ...
def class_word(rank: int, letters: Letters, marks: Union[Integers, int, None] = None, number: Optional[int] = None) -> List[int]:
    """The word with a number, of those that have the tableau, given as letters and marks or as a Tableau: 0 is the first of them in dictionary order, the
    size of the class less 1 the last. Refuses 1 to 6, 17, 15, 16.

    >>> [luchtrav.class_word(4, luchtrav.Tableau([2, 3, 3, 4], [0, 1, 0, 1]), number) for number in (0, 3, 4)]
    [[3, 2, 4, 3], [4, 3, 2, 3], [4, 3, 3, 2]]
    """
    parts, number = parts_and("number", letters, marks, number)
    lent = lent_of(parts)
    word = room("B", len(lent[0]))
    ask("class_word", as_number(rank), *lent, as_place(number), word, **told(parts))
    return word.tolist()


def class_number(rank: int, word: Integers) -> int:
    """The number of a word among those that have its tableau: class_word gives this word for it. Refuses 1 2 4 15.

    >>> luchtrav.class_number(4, [4, 3, 2, 3])
    3
    """
    said: replies.Value = ask("class_number", as_number(rank), as_letters(word), letters=(word,))
    return said.value
