"""The moves of the quasi-crystal and their repeat counts, of words and of tableaux, on plain lists (document 01; document 02: the place that a move changed)."""
from checks import Refused, check_counted_tableau, check_index, check_word, letter_counts
from ribbons import put


def word_inversion(index, word):
    """Whether some i+1 stands left of some i, adjacent or not."""
    return any(letter == index + 1 and index in word[place:] for place, letter in enumerate(word))


def tableau_inversion(index, letters, marks):
    """Whether i+1 stands directly below i."""
    return any(marks[p] == 1 and letters[p] == index + 1 and letters[p - 1] == index for p in range(1, len(letters)))


def change(raising, index, inversion, letters):
    """The move in the lent letters, once it is known whether there is an inversion: it gives the place that it changed."""
    if inversion:
        raise Refused(10, 0)
    old, new = (index + 1, index) if raising else (index, index + 1)
    places = [place for place, letter in enumerate(letters) if letter == old]
    if not places:
        raise Refused(11, 0)
    place = places[0] if raising else places[-1]
    letters[place] = new
    return [place]


def move_word(raising, rank, index, word):
    check_word(rank, word)
    check_index(rank, index)
    return change(raising, index, word_inversion(index, word), word)


def move_tableau(raising, rank, index, letters, marks, counts):
    check_counted_tableau(rank, letters, marks, counts)
    check_index(rank, index)
    changed = change(raising, index, tableau_inversion(index, letters, marks), letters)
    put(letter_counts(letters), counts)
    return changed


def count(raising, index, inversion, letters):
    """How often a move can be repeated."""
    return [0 if inversion else letters.count(index + 1 if raising else index)]


def count_word(raising, rank, index, word):
    check_word(rank, word)
    check_index(rank, index)
    return count(raising, index, word_inversion(index, word), word)


def count_tableau(raising, rank, index, letters, marks, counts):
    check_counted_tableau(rank, letters, marks, counts)
    check_index(rank, index)
    return count(raising, index, tableau_inversion(index, letters, marks), letters)
