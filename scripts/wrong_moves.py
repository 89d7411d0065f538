"""Edits of wrong_kernels.py: moves, repeat counts, and the place that a move changed."""

# How the moves of words and of tableaux are made, and how every reply is made of values.
IN_WORD = "change(raising, index, word_inversion(index, word), word)"
IN_TABLEAU = "change(raising, index, tableau_inversion(index, letters, marks), letters)"
MOVED_BESIDE = "move_tableau(raising, rank, index, letters, marks, letter_counts(letters))"
VALUES = "OPERATIONS[function.name](*arguments) or []"


def moves_reply(reply):
    """Another reply of moves, made of their values; that of every other function as it is."""
    return "(lambda values: %s if 'changed' in function.fields else [0, 0] + values)(%s)" % (reply, VALUES)


# The place that a move changes in a word, by the recording entry of the cell that it changes in the word's tableau.
BY_ENTRY = """    letters, marks, entries = pair_of(word)
    %s
    return [entries[cell] - 1 for cell in %s]""" % (IN_WORD, MOVED_BESIDE)

EDITS = [
    ("an inversion of neighbours only", "moves", "index in word[place:]", "index in word[place : place + 2]"),
    ("an inversion at any step down into i+1", "moves", " and letters[p - 1] == index", ""),
    ("an inversion beside, not below", "moves", "marks[p] == 1 and letters[p] == index + 1", "letters[p] == index + 1"),
    ("leftmost and rightmost exchanged", "moves", "places[0] if raising else places[-1]", "places[-1] if raising else places[0]"),
    ("always the leftmost", "moves", "places[0] if raising else places[-1]", "places[0]"),
    ("11 for 10", "moves", "raise Refused(10, 0)", "raise Refused(11, 0)"),
    ("a count under an inversion", "moves", "0 if inversion else letters.count", "letters.count"),
    ("a move tells the place 0 always", "moves", "return [place]", "return [0]"),
    ("a changed place counted from 1", "moves", "return [place]", "return [place + 1]"),
    ("a changed place counted from the end", "moves", "return [place]", "return [len(letters) - 1 - place]"),
    ("a changed place cut to a byte", "moves", "return [place]", "return [place % 256]"),
    ("the new letter for the changed place", "moves", "return [place]", "return [new]"),
    ("lowering tells the leftmost, and changes the rightmost", "moves", "return [place]", "return [places[0]]"),
    ("raising tells the rightmost, and changes the leftmost", "moves", "return [place]", "return [places[-1]]"),
    ("the tableau's move tells one place too far", "moves", "changed = " + IN_TABLEAU, "changed = [%s[0] + 1]" % IN_TABLEAU),
    (
        "the tableau's move tells a place in its column reading", "moves",
        "    changed = " + IN_TABLEAU,
        "    word = reading(letters, marks)\n    %s\n    changed = move_word(raising, rank, index, word)" % IN_TABLEAU,
    ),
    (
        "the word's move tells a cell of its tableau", "moves",
        "    return " + IN_WORD,
        "    letters, marks, _ = pair_of(word)\n    %s\n    return %s" % (IN_WORD, MOVED_BESIDE),
    ),
    ("the changed place in place, and not in changed", "replies", "[0, 0] + (%s)" % VALUES, moves_reply("[0, *values, 0]")),
    ("the changed place in place and in changed", "replies", "[0, 0] + (%s)" % VALUES, moves_reply("[0, *values, *values]")),
    (
        "the index in changed after a refusal", "replies",
        "[0] * (len(function.fields) - 2)",
        "[arguments[1] if 'changed' in function.fields else 0] * (len(function.fields) - 2)",
    ),
]

RIGHT = [
    ("the changed letter by the changed cell's entry", "moves", "    return " + IN_WORD, BY_ENTRY),
]
