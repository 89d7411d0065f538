"""The checks of documents 01 and 02, on plain lists: what is refused, with which number, at which place, and in which order.

An operation makes its checks first and in rising number, 17 directly after 6, each over the whole input, and changes nothing before all have passed. Letter
counts are a list of 64 numbers; the letters that they go with are counted anew.
"""
from collections import Counter


class Refused(Exception):
    """A refusal: document 01's number and place."""

    def __init__(self, number, place):
        super().__init__(number, place)
        self.number = number
        self.place = place


def letter_counts(letters):
    """How often each of the letters 1 to 64 occurs."""
    found = Counter(letters)
    return [found[letter] for letter in range(1, 65)]


# ---- of one thing


def check_rank(rank):
    if not 1 <= rank <= 64:
        raise Refused(1, 0)


def check_length(length):
    if length > 1024:
        raise Refused(2, 0)


def check_alike(letters, *parts):
    if any(len(part) != len(letters) for part in parts):
        raise Refused(3, 0)


def check_letters(rank, letters, before=0):
    for place, letter in enumerate(letters):
        if not 1 <= letter <= rank:
            raise Refused(4, before + place)


def check_rising(letters, before=0):
    for place in range(1, len(letters)):
        if letters[place] < letters[place - 1]:
            raise Refused(5, before + place)


def check_marks(letters, marks, before=0):
    for place, mark in enumerate(marks):
        if mark not in (0, 1) or (place == 0 and mark != 0) or (mark == 1 and letters[place] == letters[place - 1]):
            raise Refused(6, before + place)


def check_counts(letters, counts, before=0):
    for place, (told, found) in enumerate(zip(counts, letter_counts(letters))):
        if told != found:
            raise Refused(17, before + place)


def check_entries(entries):
    met = set()
    for place, entry in enumerate(entries):
        if not 1 <= entry <= len(entries) or entry in met:
            raise Refused(7, place)
        met.add(entry)


def check_steps(marks, entries):
    for place in range(1, len(entries)):
        rises = entries[place] > entries[place - 1]
        if rises == (marks[place] == 1):
            raise Refused(8, place)


def check_index(rank, index):
    if not 1 <= index <= rank - 1:
        raise Refused(9, 0)


def check_room(needed, *outputs):
    if any(len(output) < needed for output in outputs):
        raise Refused(13, needed)


# ---- of a word, a tableau, a pair, or two


def check_word(rank, word):
    check_rank(rank)
    check_length(len(word))
    check_letters(rank, word)


def check_words(first_rank, first, second_rank, second):
    check_rank(first_rank)
    check_rank(second_rank)
    check_length(len(first))
    check_length(len(second))
    check_letters(first_rank, first)
    check_letters(second_rank, second, len(first))


def check_tableau(rank, letters, marks):
    check_rank(rank)
    check_length(len(letters))
    check_alike(letters, marks)
    check_letters(rank, letters)
    check_rising(letters)
    check_marks(letters, marks)


def check_counted_tableau(rank, letters, marks, counts):
    check_tableau(rank, letters, marks)
    check_counts(letters, counts)


def check_both(first_rank, first_letters, first_marks, first_counts, second_rank, second_letters, second_marks, second_counts):
    """3 to 6 and 17 of two tableaux, each of the first, then of the second, whose cells count on from the first's length, its counts from 64."""
    first_count = len(first_letters)
    check_alike(first_letters, first_marks)
    check_alike(second_letters, second_marks)
    check_letters(first_rank, first_letters)
    check_letters(second_rank, second_letters, first_count)
    check_rising(first_letters)
    check_rising(second_letters, first_count)
    check_marks(first_letters, first_marks)
    check_marks(second_letters, second_marks, first_count)
    check_counts(first_letters, first_counts)
    check_counts(second_letters, second_counts, 64)


def check_factors(rank, first_letters, first_marks, first_counts, second_letters, second_marks, second_counts):
    """Two tableaux of one rank: 2 counts their cells together, every other check is of each by itself."""
    check_rank(rank)
    check_length(len(first_letters) + len(second_letters))
    check_both(rank, first_letters, first_marks, first_counts, rank, second_letters, second_marks, second_counts)


def check_tableaux(first_rank, first_letters, first_marks, first_counts, second_rank, second_letters, second_marks, second_counts):
    """Two tableaux, each of its own rank and length."""
    check_rank(first_rank)
    check_rank(second_rank)
    check_length(len(first_letters))
    check_length(len(second_letters))
    check_both(first_rank, first_letters, first_marks, first_counts, second_rank, second_letters, second_marks, second_counts)


def check_pair(rank, letters, marks, entries):
    check_rank(rank)
    check_length(len(letters))
    check_alike(letters, marks, entries)
    check_letters(rank, letters)
    check_rising(letters)
    check_marks(letters, marks)
    check_entries(entries)
    check_steps(marks, entries)


def check_counted_pair(rank, letters, marks, entries, counts):
    check_rank(rank)
    check_length(len(letters))
    check_alike(letters, marks, entries)
    check_letters(rank, letters)
    check_rising(letters)
    check_marks(letters, marks)
    check_counts(letters, counts)
    check_entries(entries)
    check_steps(marks, entries)
