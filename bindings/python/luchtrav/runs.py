"""C lines, as bytes: tableaux in run form, each different letter with its count, written, read, and turned into T lines and back."""
from __future__ import annotations

from typing import Optional, Tuple, overload

from . import replies
from .buffers import Integers
from .lending import Text, as_letters, as_marks, as_number, as_text, counts_room, room
from .library import LETTERS, ask
from .lines import written
from .tableaux import Letters, parts_of
from .values import Tableau, tableau_in


def run_line_of_word(rank: int, word: Integers) -> bytes:
    """The C line of a word's tableau: what to store for the word's whole class in run form, which is short where letters repeat. Refuses 1 2 4.

    >>> luchtrav.run_line_of_word(4, [4, 3, 2, 3])
    b'C,4,4,2,1,d,3,2,d,4,1\\n'
    """
    return written("run_line_of_word", as_number(rank), as_letters(word), letters=(word,))


@overload
def write_run_line(rank: int, tableau: Tableau, /) -> bytes: ...
@overload
def write_run_line(rank: int, letters: Integers, marks: Integers) -> bytes: ...
def write_run_line(rank: int, letters: Letters, marks: Optional[Integers] = None) -> bytes:
    """The C line of letters and marks, or of a Tableau, whose counts are not looked at. Refuses 1 to 6."""
    letters, marks, _ = parts_of(letters, marks)
    return written("write_run_line", as_number(rank), as_letters(letters), as_marks(marks), letters=(letters,), marks=(marks,))


def read_run_line(text: Text) -> Tuple[int, Tableau]:
    """Rank and tableau of a whole C line, line feed included. The places of 4 and 19 are those of items, a letter with its count each. Refuses 14 1 2 4 19
    20."""
    letters, marks, counts = room("B", LETTERS), room("B", LETTERS), counts_room()
    said: replies.Line = ask("read_run_line", as_text(text), letters, marks, counts)
    return said.rank, tableau_in(letters[: said.count], marks[: said.count], counts)


def tableau_to_runs(text: Text) -> bytes:
    """The C line of the tableau in a whole T line, line feed included. Refuses 14 1 2 4 5 6.

    >>> luchtrav.tableau_to_runs(b"T,4,4,2,d,3,r,3,d,4\\n")
    b'C,4,4,2,1,d,3,2,d,4,1\\n'
    """
    return written("tableau_to_runs", as_text(text))


def runs_to_tableau(text: Text) -> bytes:
    """The T line of the tableau in a whole C line, line feed included. Refuses 14 1 2 4 19 20.

    >>> luchtrav.runs_to_tableau(b"C,4,4,2,1,d,3,2,d,4,1\\n")
    b'T,4,4,2,d,3,r,3,d,4\\n'
    """
    return written("runs_to_tableau", as_text(text))
