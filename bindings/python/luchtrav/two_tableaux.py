"""Operations on two tableaux: product, same-class test, comparison of weights. Each is a Tableau or another pair of letters and marks."""
from __future__ import annotations

from typing import Tuple, overload

from . import replies
from .buffers import Integers
from .lending import as_number, counts_room, room
from .library import ask
from .tableaux import Parts, lent_of, told
from .values import Tableau, tableau_in
from .words import ORDERS, Order

# One of two tableaux: letters and marks as a pair, which a Tableau is too.
Factor = Tuple[Integers, Integers]


def parts_in(given: object) -> Parts:
    """Letters, marks and counts of one of two tableaux."""
    if not isinstance(given, tuple) or len(given) != 2:
        raise TypeError("each of two tableaux is a Tableau or another pair of letters and marks; for product also all four lists, where a Tableau can stand for two")
    letters, marks = given
    return letters, marks, given._counts if isinstance(given, Tableau) else None


def factors_in(first: object, second: object, *more: object) -> Tuple[Parts, Parts]:
    """Letters, marks and counts of two factors, however they were given."""
    if more and isinstance(first, Tableau):
        second = second, *more
    elif more:
        first, second = (first, second), more if len(more) > 1 else more[0]
    return parts_in(first), parts_in(second)


@overload
def product(rank: int, first: Factor, second: Factor) -> Tableau: ...
@overload
def product(rank: int, first: Tableau, second_letters: Integers, second_marks: Integers, /) -> Tableau: ...
@overload
def product(rank: int, first_letters: Integers, first_marks: Integers, second: Tableau, /) -> Tableau: ...
@overload
def product(
    rank: int, first_letters: Integers, first_marks: Integers, second_letters: Integers, second_marks: Integers, /
) -> Tableau: ...
def product(rank: int, first: object, second: object, *more: object) -> Tableau:
    """The product of two tableaux: the tableau of the first's column reading followed by the second's, which any word of the first's class followed by
    any word of the second's has too. Each is a Tableau or another pair of letters and marks; or all four lists follow one another, where a Tableau can
    stand for two. Refuses 1 to 6, 17, over both tableaux; 2 where they have more than 1,024 cells together. Places in the second count on from the first's
    length, those of counts from 64.

    >>> luchtrav.product(3, luchtrav.pair_of_word(3, [3, 1]).tableau, luchtrav.pair_of_word(3, [2]).tableau)
    Tableau(letters=(1, 2, 3), marks=(0, 0, 1))
    """
    one, other = factors_in(first, second, *more)
    lent, beside = lent_of(one), lent_of(other)
    cells = len(lent[0]) + len(beside[0])
    given = room("B", cells), room("B", cells), counts_room()
    ask("product", as_number(rank), *lent, *beside, *given, **told(one, other))
    return tableau_in(*given)


def same_class_of_tableaux(first_rank: int, first: Factor, second_rank: int, second: Factor) -> bool:
    """Whether two tableaux are of one class of the hypoplactic monoid, whatever their ranks: what same_class says of their column readings, found from
    marks and counts. Each is a Tableau or another pair of letters and marks. Refuses 1 to 6, 17, over both; places in the second count on from the
    first's length, those of counts from 64.

    >>> luchtrav.same_class_of_tableaux(2, luchtrav.pair_of_word(2, [1, 2]).tableau, 2, luchtrav.pair_of_word(2, [2, 1]).tableau)
    False
    """
    one, other = parts_in(first), parts_in(second)
    lent, beside = lent_of(one), lent_of(other)
    said: replies.Class = ask("same_class_of_tableaux", as_number(first_rank), *lent, as_number(second_rank), *beside, **told(one, other))
    return said.same == 1


def compare_weights_of_tableaux(first_rank: int, first: Factor, second_rank: int, second: Factor) -> Order:
    """The first tableau's weight against the second's, 'equal', 'lower', 'higher' or 'neither': what compare_weights says of their column readings,
    found from counts. Tableaux and refusals as for same_class_of_tableaux.

    >>> luchtrav.compare_weights_of_tableaux(2, luchtrav.pair_of_word(2, [1, 2]).tableau, 2, luchtrav.pair_of_word(2, [2, 1]).tableau)
    'equal'
    """
    one, other = parts_in(first), parts_in(second)
    lent, beside = lent_of(one), lent_of(other)
    said: replies.Order = ask("compare_weights_of_tableaux", as_number(first_rank), *lent, as_number(second_rank), *beside, **told(one, other))
    return ORDERS[said.order]
