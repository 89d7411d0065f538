"""Lines read and written, as bytes: W lines of words, T lines of tableaux, P lines of pairs; J and E lines are only written, and an N line is read only
beside its T line, by the converter of former lines. C lines are in runs.py."""
from __future__ import annotations

from array import array
from typing import List, Optional, Tuple, Union, overload

from . import pairs, replies
from .buffers import Integers
from .lending import Text, as_entries, as_letters, as_marks, as_number, as_text, as_told, counts_room, room
from .library import ANSWER_BYTES, LETTERS, LINE_BYTES, Given, ask
from .tableaux import Letters, parts_of
from .values import Pair, Tableau, pair_in, tableau_in


def written(
    name: str, *arguments: Union[int, "array[int]"], size: int = LINE_BYTES, letters: Given = (), marks: Given = (), entries: Given = ()
) -> bytes:
    """The bytes that a writer leaves in memory that is long enough for every line."""
    out = room("B", size)
    said: replies.Count = ask(name, *arguments, out, letters=letters, marks=marks, entries=entries)
    return out[: said.count].tobytes()


def tableau_line_of_word(rank: int, word: Integers) -> bytes:
    """The T line of a word's tableau: what to store for the word's whole class. Refuses 1 2 4."""
    return written("tableau_line_of_word", as_number(rank), as_letters(word), letters=(word,))


def write_word_line(rank: int, word: Integers) -> bytes:
    """The W line of a word. Refuses 1 2 4."""
    return written("write_word_line", as_number(rank), as_letters(word), letters=(word,))


@overload
def write_tableau_line(rank: int, tableau: Tableau, /) -> bytes: ...
@overload
def write_tableau_line(rank: int, letters: Integers, marks: Integers) -> bytes: ...
def write_tableau_line(rank: int, letters: Letters, marks: Optional[Integers] = None) -> bytes:
    """The T line of letters and marks, or of a Tableau, whose counts are not looked at. Refuses 1 to 6."""
    letters, marks, _ = parts_of(letters, marks)
    return written("write_tableau_line", as_number(rank), as_letters(letters), as_marks(marks), letters=(letters,), marks=(marks,))


@overload
def write_pair_line(rank: int, pair: Pair, /) -> bytes: ...
@overload
def write_pair_line(rank: int, tableau: Tableau, entries: Integers, /) -> bytes: ...
@overload
def write_pair_line(rank: int, tableau: Tableau, /, *, entries: Integers) -> bytes: ...
@overload
def write_pair_line(rank: int, letters: Integers, marks: Integers, entries: Integers) -> bytes: ...
def write_pair_line(rank: int, letters: pairs.Letters, marks: Optional[Integers] = None, entries: Optional[Integers] = None) -> bytes:
    """The P line of letters, marks and entries, of a Tableau and entries, or of a Pair; counts are not looked at. Refuses 1 to 8.

    >>> luchtrav.write_pair_line(4, luchtrav.pair_of_word(4, [4, 3, 2, 3]))
    b'P,4,4,2,d,3,r,3,d,4,3,2,4,1\\n'
    """
    letters, marks, entries, _ = pairs.parts_of(letters, marks, entries)
    parts = as_letters(letters), as_marks(marks), as_entries(entries)
    return written("write_pair_line", as_number(rank), *parts, letters=(letters,), marks=(marks,), entries=(entries,))


def write_junction_line(rank: int, word: Integers) -> bytes:
    """The J line of a word's junction set and rows. Refuses 1 2 4."""
    return written("write_junction_line", as_number(rank), as_letters(word), letters=(word,))


def write_refusal_line(number: int, place: int) -> bytes:
    """The E line of a refusal, whatever its number and place. ValueError for one that fits no size_t."""
    return written("write_refusal_line", as_told(number), as_told(place))


def read_word_line(text: Text) -> Tuple[int, List[int]]:
    """Rank and letters of a whole W line, line feed included. Refuses 14 1 2 4."""
    letters = room("B", LETTERS)
    said: replies.Line = ask("read_word_line", as_text(text), letters)
    return said.rank, letters[: said.count].tolist()


def read_tableau_line(text: Text) -> Tuple[int, Tableau]:
    """Rank and tableau of a whole T line, line feed included. Refuses 14 1 2 4 5 6."""
    letters, marks, counts = room("B", LETTERS), room("B", LETTERS), counts_room()
    said: replies.Line = ask("read_tableau_line", as_text(text), letters, marks, counts)
    return said.rank, tableau_in(letters[: said.count], marks[: said.count], counts)


def read_pair_line(text: Text) -> Tuple[int, Pair]:
    """Rank and pair of a whole P line, line feed included. Refuses 14 1 2 4 5 6 7 8."""
    letters, marks, entries, counts = room("B", LETTERS), room("B", LETTERS), room("H", LETTERS), counts_room()
    said: replies.Line = ask("read_pair_line", as_text(text), letters, marks, entries, counts)
    return said.rank, pair_in(letters[: said.count], marks[: said.count], entries[: said.count], counts)


def convert_lines(tableau_text: Text, recording_text: Text) -> bytes:
    """The P line of what versions before 0.8 stored in two lines: a whole T line and the whole N line of the same pair, line feeds included. Refuses 14 of
    the T line, 14 of the N line, whose places count on from the T line's length, then 1, 2 of the cells or of the entries, 3 where these are not equally
    many, 4 to 8.

    >>> luchtrav.convert_lines(b"T,4,4,2,d,3,r,3,d,4\\n", b"N,4,3,2,4,1\\n")
    b'P,4,4,2,d,3,r,3,d,4,3,2,4,1\\n'
    """
    return written("convert_lines", as_text(tableau_text), as_text(recording_text))


def answer(text: Text) -> bytes:
    """What the program `ribbon` prints for its whole input: the P line of the word in a W line, the W line of its column reading and its J line, or one
    E line. Refuses nothing."""
    return written("answer", as_text(text), size=ANSWER_BYTES)
