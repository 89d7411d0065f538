"""Edits of wrong_kernels.py: insertion, column readings, cells, the product of two tableaux. Those of pairs are in wrong_pairs.py."""

COUNTED = "check_counted_tableau(rank, letters, marks, counts)"

# The product as it stands, and by letters and marks alone, as a kernel finds it: counts of both factors, the letters that a step down leaves in each, and
# from the largest letter down the step into the next larger one of either.
MULTIPLIED = "    new_letters, new_marks, _ = pair_of(reading(first_letters, first_marks) + reading(second_letters, second_marks))\n"
BY_LETTERS = """    first, second = ([letters.count(a) for a in range(65)] for letters in (first_letters, second_letters))
    first_down = {first_letters[p - 1] for p, mark in enumerate(first_marks) if mark}
    second_down = {second_letters[p - 1] for p, mark in enumerate(second_marks) if mark}
    steps, larger = {}, 0
    for a in range(64, 0, -1):
        steps[larger] = first[larger] > 0 and (a in first_down or second[a] > 0) or second[larger] > 0 and a in second_down
        if first[a] or second[a]:
            larger = a
    new_letters = sorted(first_letters + second_letters)
    new_marks = [int(letter not in new_letters[:place] and steps.get(letter, 0)) for place, letter in enumerate(new_letters)]
"""


def by_letters(old, new):
    """The product by letters with an edit."""
    assert BY_LETTERS.count(old) == 1, old
    return BY_LETTERS.replace(old, new)


EDITS = [
    ("a letter laid before its equals", "ribbons", "other <= letter", "other < letter"),
    ("the mark after a new cell left as it was", "ribbons", "marks[at + 1] = 1", "pass"),
    ("an entry one off", "ribbons", "[len(entries) + 1]", "[len(entries)]"),
    ("columns read downwards", "ribbons", "if mark == 0:\n            word", "if mark == 1:\n            word"),
    (
        "elements beyond the needed ones cleared", "ribbons",
        "output[: len(values)] = values\n",
        "output[:] = values + [0] * (len(output) - len(values))\n",
    ),
    ("insertion: buffers above 1,024 refused", "ribbons", "    check_length(used)\n", "    check_length(max(used, len(letters)))\n"),
    (
        "insertion: the new letter judged after 5", "ribbons",
        "    check_letters(rank, letters[:used] + [letter])\n    check_rising(letters[:used])\n",
        "    check_letters(rank, letters[:used])\n    check_rising(letters[:used])\n    check_letters(rank, letters[:used] + [letter])\n",
    ),
    ("insertion: the new letter cut to a byte", "ribbons", "[:used] + [letter])", "[:used] + [letter % 256])"),
    (
        "insertion: 13 before 12", "ribbons",
        "    if used == 1024:\n        raise Refused(12, 1024)\n    check_room(used + 1, letters, marks, entries)\n",
        "    check_room(used + 1, letters, marks, entries)\n    if used == 1024:\n        raise Refused(12, 1024)\n",
    ),
    (
        "insertion: 13 with the used count as its place", "ribbons",
        "    check_room(used + 1, letters, marks, entries)\n",
        "    if used >= min(len(letters), len(marks), len(entries)):\n        raise Refused(13, used)\n",
    ),
    (
        "insertion: entries not judged in 1,024 cells", "ribbons",
        "    check_entries(entries[:used])\n",
        "    if used < 1024:\n        check_entries(entries[:used])\n",
    ),
    (
        "insertion: a used count above the entries passes", "ribbons",
        "used > min(len(letters), len(marks), len(entries))",
        "used > min(len(letters), len(marks))",
    ),
    (
        "insertion: a used count that equals a length refused", "ribbons",
        "used > min(len(letters), len(marks), len(entries))",
        "used >= min(len(letters), len(marks), len(entries))",
    ),
    ("a place cut to 32 bits", "ribbons", "if place >= len(letters)", "place %= 2**32\n    if place >= len(letters)"),
    ("no cell where there is no mark", "ribbons", "if place >= len(letters)", "if place >= min(len(letters), len(marks))"),
    ("the column by the place", "ribbons", "steps.count(0)]", "place - steps.count(1)]"),
    ("row and column exchanged", "ribbons", "steps.count(1), steps.count(0)", "steps.count(0), steps.count(1)"),
    ("2 times 1 goes right", "ribbons", MULTIPLIED, by_letters("(a in first_down or second[a] > 0)", "a in first_down")),
    ("the factors' steps down exchanged", "ribbons", MULTIPLIED, by_letters("    steps,", "    first_down, second_down = second_down, first_down\n    steps,")),
    ("the next letter by the first factor alone", "ribbons", MULTIPLIED, by_letters("if first[a] or second[a]", "if first[a]")),
    ("the next letter by the second factor alone", "ribbons", MULTIPLIED, by_letters("if first[a] or second[a]", "if second[a]")),
    ("a step down of the first factor kept before the second's letter", "ribbons", MULTIPLIED, by_letters("first[larger] > 0 and ", "")),
    ("a step down wherever the first factor has the next letter", "ribbons", MULTIPLIED, by_letters(" and (a in first_down or second[a] > 0)", "")),
    (
        "the factors exchanged", "ribbons",
        "reading(first_letters, first_marks) + reading(second_letters, second_marks)",
        "reading(second_letters, second_marks) + reading(first_letters, first_marks)",
    ),
    ("the first factor's steps down dropped", "ribbons", "pair_of(reading(first_letters, first_marks) +", "pair_of(first_letters +"),
    (
        "the element after the product cleared", "ribbons",
        MULTIPLIED,
        MULTIPLIED + "    letters[len(new_letters) : len(new_letters) + 1] = [0] * (len(letters) > len(new_letters))\n",
    ),
    (
        "13 of marks that fit the larger factor only", "ribbons",
        "    check_room(len(first_letters) + len(second_letters), letters, marks)\n",
        "    check_room(len(first_letters) + len(second_letters), letters)\n    check_room(max(len(first_letters), len(second_letters)), marks)\n",
    ),
]

RIGHT = [
    ("the product by letters", "ribbons", MULTIPLIED, BY_LETTERS),
]

EDGES = [
    ("insertion: cells read before the used count is judged", "ribbons", "    check_length(used)\n", "    letters[:used]\n    check_length(used)\n"),
    (
        "insertion: entries beyond the used ones read", "ribbons",
        "    check_entries(entries[:used])\n",
        "    sum(entries)\n    check_entries(entries[:used])\n",
    ),
    (
        "the element after the needed ones read", "ribbons",
        "    output[: len(values)] = values\n",
        "    output[: len(values)] = values\n    output[len(values) : len(values) + 1]\n",
    ),
    (
        "the element after the needed ones written with what it held", "ribbons",
        "    output[: len(values)] = values\n",
        "    end = len(values) + 1\n    output[:end] = values + output[end - 1 : end]\n",
    ),
    (
        "column reading: the mark before the first read", "ribbons",
        "    %s\n    check_room(len(letters), word)\n" % COUNTED,
        "    %s\n    check_room(len(letters), word)\n    marks[-1]\n" % COUNTED,
    ),
]
