"""Operations on words. A word is a sequence or a buffer of integers 1 to rank, bytes among them."""
from __future__ import annotations

from typing import Literal, Tuple

from . import replies
from .buffers import Integers
from .lending import as_letters, as_number, counts_room, room
from .library import ask
from .values import Junctions, MovedWord, Pair, pair_in

Order = Literal["equal", "lower", "higher", "neither"]
ORDERS: Tuple[Order, ...] = ("equal", "lower", "higher", "neither")


def check_word(rank: int, word: Integers) -> None:
    """Whether a word is within the limits: silent, or refuses with 1 2 4."""
    ask("check_word", as_number(rank), as_letters(word), letters=(word,))


def pair_of_word(rank: int, word: Integers) -> Pair:
    """The pair of a word: its quasi-ribbon tableau by Krob-Thibon insertion, which is the pair's `tableau`, and its recording ribbon, the pair's
    `entries`. word_of_pair is the way back. Refuses 1 2 4.

    >>> luchtrav.pair_of_word(4, [4, 3, 2, 3])
    Pair(letters=(2, 3, 3, 4), marks=(0, 1, 0, 1), entries=(3, 2, 4, 1))
    >>> luchtrav.pair_of_word(4, [4, 3, 2, 3]).tableau
    Tableau(letters=(2, 3, 3, 4), marks=(0, 1, 0, 1))
    """
    taken = as_letters(word)
    cells = len(taken)
    letters, marks, entries, counts = room("B", cells), room("B", cells), room("H", cells), counts_room()
    ask("pair_of_word", as_number(rank), taken, letters, marks, entries, counts, letters=(word,))
    return pair_in(letters, marks, entries, counts)


def junctions(rank: int, word: Integers) -> Junctions:
    """The junction set of a word, and the rows of its tableau. Bit a - 1 is set when a occurs, a larger letter occurs, and the next larger
    letter that occurs stands left of some a. Refuses 1 2 4."""
    said: replies.Junction = ask("junctions", as_number(rank), as_letters(word), letters=(word,))
    return Junctions(said.set, said.rows)


def moved(name: str, rank: int, index: int, word: Integers) -> MovedWord:
    taken = as_letters(word)
    said: replies.Move = ask(name, as_number(rank), as_number(index), taken, letters=(word,))
    return MovedWord(taken.tolist(), said.changed)


def raise_word(rank: int, index: int, word: Integers) -> MovedWord:
    """The word with its leftmost index + 1 turned into index, and the place of that letter; the caller's word stays. Refuses 1 2 4 9, 10 where some
    index + 1 stands left of some index, 11 where there is no index + 1.

    >>> luchtrav.raise_word(3, 2, [1, 3, 1])
    MovedWord(word=[1, 2, 1], place=1)
    """
    return moved("raise_word", rank, index, word)


def lower_word(rank: int, index: int, word: Integers) -> MovedWord:
    """The word with its rightmost index turned into index + 1, and the place of that letter; the caller's word stays. Refuses 1 2 4 9, 10 where some
    index + 1 stands left of some index, 11 where there is no index.

    >>> luchtrav.lower_word(3, 1, [3, 1, 1, 3])
    MovedWord(word=[3, 1, 2, 3], place=2)
    """
    return moved("lower_word", rank, index, word)


def repeated(name: str, rank: int, index: int, word: Integers) -> int:
    said: replies.Count = ask(name, as_number(rank), as_number(index), as_letters(word), letters=(word,))
    return said.count


def raise_count_word(rank: int, index: int, word: Integers) -> int:
    """How often raise_word can be made, one after the other: 0 where it is not defined. Refuses 1 2 4 9."""
    return repeated("raise_count_word", rank, index, word)


def lower_count_word(rank: int, index: int, word: Integers) -> int:
    """How often lower_word can be made, one after the other: 0 where it is not defined. Refuses 1 2 4 9."""
    return repeated("lower_count_word", rank, index, word)


def same_class(first_rank: int, first: Integers, second_rank: int, second: Integers) -> bool:
    """Whether two words are in one class of the hypoplactic monoid, whatever their ranks: each rank bounds the letters of its own word and decides
    nothing else. Refuses 1 2 4, over both words; places in the second count on from the first's length.

    >>> luchtrav.same_class(4, [4, 3, 2, 3], 6, [3, 2, 4, 3])
    True
    """
    words = as_number(first_rank), as_letters(first), as_number(second_rank), as_letters(second)
    said: replies.Class = ask("same_class", *words, letters=(first, second))
    return said.same == 1


def compare_weights(first_rank: int, first: Integers, second_rank: int, second: Integers) -> Order:
    """The first word's weight against the second's: 'equal', 'lower', 'higher' or 'neither'. It is lower where for no k it has more letters 1 to k
    than the second, and for some k fewer. Refuses 1 2 4, over both words; places in the second count on from the first's length."""
    words = as_number(first_rank), as_letters(first), as_number(second_rank), as_letters(second)
    said: replies.Order = ask("compare_weights", *words, letters=(first, second))
    return ORDERS[said.order]
