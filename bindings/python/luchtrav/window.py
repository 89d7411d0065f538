"""A window over a stream of letters: the pair of the last letters, kept up to date as letters arrive and leave."""
from __future__ import annotations

from array import array
from operator import index
from typing import Any, List, Tuple, Type

from . import replies
from .lending import as_number, counts_room, room
from .library import LETTERS, ask
from .values import Pair, Tableau, pair_in, tableau_in


class Window:
    """The last letters of a stream, as their tableau with its letter counts and their recording ribbon.

    push lets a letter arrive at the end, pop lets the oldest leave. After each of them the window holds what inserting the letters then in it, one by
    one, would give; but pop inserts none of them again, and neither looks at a word: the window is the pair and its counts alone. The number of letters is
    len(window). A refused call changes nothing.

    `rank` bounds the letters, 1 to 64. `size` is how many letters there is room for, 1 to 1,024; ValueError for another. Memory is taken once, for all of
    them. A full window does not let the oldest leave by itself: to follow the last letters of a stream, pop before a push where len(window) is size.
    One window is for one thread at a time.

    >>> window = luchtrav.Window(4, size=3)
    >>> for letter in (4, 3, 2, 3):
    ...     if len(window) == window.size:
    ...         print("leaves:", window.pop())
    ...     window.push(letter)
    leaves: 4
    >>> window.word
    [3, 2, 3]
    >>> window.tableau, window.recording
    (Tableau(letters=(2, 3, 3), marks=(0, 1, 0)), (2, 1, 3))
    >>> window.pair == luchtrav.pair_of_word(4, [3, 2, 3])
    True
    """

    def __init__(self, rank: int, size: int = LETTERS) -> None:
        """An empty window. Refuses 1."""
        cells = index(size)
        if not 1 <= cells <= LETTERS:
            raise ValueError("a window has room for 1 to %d letters, not %d" % (LETTERS, cells))
        self._rank = int(as_number(rank))
        ask("check_word", self._rank, room("B", 0), caller="Window")
        self._used = 0
        self._letters = room("B", cells)
        self._marks = room("B", cells)
        self._entries = room("H", cells)
        self._counts = counts_room()

    def push(self, letter: int) -> None:
        """A letter arrives at the end. Refuses 4 where it is not 1 to rank, with len(window) as its place; 12, place 1024, where 1,024 letters are in the
        window; 13, with size + 1 as its place, where a smaller window is full."""
        numbers, given = (self._rank, self._used, as_number(letter)), (self._letters[: self._used], [letter])
        said: replies.Count = ask("insert_letter", *numbers, *self._lists(), self._counts, caller="Window.push", letters=given)
        self._used = said.count

    def pop(self) -> int:
        """The oldest letter leaves, and is given. Refuses 18 where there is none."""
        before = self._counts.tolist()
        said: replies.Count = ask("remove_oldest", self._rank, self._used, *self._lists(), self._counts, caller="Window.pop")
        self._used = said.count
        # Of the counts one is less than before: that of the letter that left.
        return next(letter for letter, (old, new) in enumerate(zip(before, self._counts), 1) if old != new)

    def __len__(self) -> int:
        return self._used

    @property
    def rank(self) -> int:
        """What bounds the letters."""
        return self._rank

    @property
    def size(self) -> int:
        """How many letters there is room for."""
        return len(self._letters)

    @property
    def word(self) -> List[int]:
        """The letters in the window, the oldest first."""
        word = room("B", self._used)
        ask("word_of_pair", self._rank, *self._cells(), self._counts, word)
        return word.tolist()

    @property
    def pair(self) -> Pair:
        """Tableau and recording ribbon of the letters in the window."""
        return pair_in(*self._cells(), self._counts)

    @property
    def tableau(self) -> Tableau:
        """Their tableau, with its counts."""
        letters, marks, _ = self._cells()
        return tableau_in(letters, marks, self._counts)

    @property
    def recording(self) -> Tuple[int, ...]:
        """Their recording ribbon: the entries of the pair."""
        return tuple(self._entries[: self._used].tolist())

    @property
    def counts(self) -> Tuple[int, ...]:
        """How often each of the letters 1 to 64 is in the window."""
        return tuple(self._counts.tolist())

    def __repr__(self) -> str:
        return "<Window of rank %d with %d of %d letters>" % (self._rank, self._used, self.size)

    # A copy, and what comes of pickle, is in memory of its own.
    def __reduce__(self) -> Tuple[Any, ...]:
        return window_of, (type(self), self._rank, self.size, self.word)

    def _lists(self) -> Tuple[array[int], array[int], array[int]]:
        """Letters, marks and entries, whole, as they are lent."""
        return self._letters, self._marks, self._entries

    def _cells(self) -> Tuple[array[int], array[int], array[int]]:
        """A copy of the used ones."""
        return self._letters[: self._used], self._marks[: self._used], self._entries[: self._used]


def window_of(kind: Type[Window], rank: int, size: int, word: List[int]) -> Window:
    """A window through which a word has come."""
    window = kind(rank, size)
    for letter in word:
        window.push(letter)
    return window
