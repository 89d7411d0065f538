"""The departure of the oldest letter from a window, on plain lists, as document 02 says it (N8). The arrival of a letter is insertion, in ribbons.py.

A window is the pair in the first cells of three lists, of which so many are used, with the counts of the used letters. Its word is the one whose pair this
is. A departure finds that word, drops its first letter, and inserts all others afresh.
"""
from checks import Refused, check_counted_pair, check_length, check_rank
from ribbons import pair_of, put_pair


def check_window(rank, used, letters, marks, entries, counts):
    """As insertion judges, but for the new letter."""
    check_rank(rank)
    check_length(used)
    if used > min(len(letters), len(marks), len(entries)):
        raise Refused(3, 0)
    check_counted_pair(rank, letters[:used], marks[:used], entries[:used], counts)


def window_word(used, letters, entries):
    """The letters in the order in which they arrived, which their entries tell."""
    return [letter for _, letter in sorted(zip(entries[:used], letters[:used]))]


def remove_oldest(rank, used, letters, marks, entries, counts):
    check_window(rank, used, letters, marks, entries, counts)
    if used == 0:
        raise Refused(18, 0)
    word = window_word(used, letters, entries)
    return put_pair(*pair_of(word[1:]), letters, marks, entries, counts)
