"""Edits of wrong_kernels.py: checks left out, one off, out of order, or with a wrong place. Those of 17 are in wrong_counts.py."""


def judged_by(first, second):
    """How the letters of two words are judged, each by a rank."""
    return "    check_letters(%s, first)\n    check_letters(%s, second, len(first))\n" % (first, second)


TWO_WORDS = judged_by("first_rank", "second_rank")
LARGER, SMALLER = "max(first_rank, second_rank)", "min(first_rank, second_rank)"

# 2 of two factors.
CELLS_TOGETHER = "    check_length(len(first_letters) + len(second_letters))\n"

# 1 to 3 of a pair.
OF_A_PAIR = """def check_pair(rank, letters, marks, entries):
    check_rank(rank)
    check_length(len(letters))
    check_alike(letters, marks, entries)
"""

EDITS = [
    ("rank 65 passes", "checks", "1 <= rank <= 64:", "1 <= rank <= 65:"),
    ("rank 64 refused", "checks", "1 <= rank <= 64:", "1 <= rank <= 63:"),
    ("rank 0 passes", "checks", "1 <= rank <= 64:", "0 <= rank <= 64:"),
    ("a rank cut to 32 bits", "checks", "1 <= rank <= 64:", "1 <= rank % 2**32 <= 64:"),
    ("a rank cut to a byte", "checks", "1 <= rank <= 64:", "1 <= rank % 256 <= 64:"),
    ("1,025 letters pass", "checks", "length > 1024", "length > 1025"),
    ("1,024 letters refused", "checks", "length > 1024", "length > 1023"),
    ("a longer part passes", "checks", "any(len(part) != len(letters)", "any(len(part) < len(letters)"),
    ("a shorter part passes", "checks", "any(len(part) != len(letters)", "any(len(part) > len(letters)"),
    ("the letter 0 passes", "checks", "1 <= letter <= rank:", "0 <= letter <= rank:"),
    ("a letter above the rank passes", "checks", "1 <= letter <= rank:", "1 <= letter <= rank + 1:"),
    ("places in the second word not counted on", "checks", "Refused(4, before + place)", "Refused(4, place)"),
    ("both words judged by the first's rank", "checks", TWO_WORDS, judged_by("first_rank", "first_rank")),
    ("both words judged by the second's rank", "checks", TWO_WORDS, judged_by("second_rank", "second_rank")),
    ("both words judged by the larger rank", "checks", TWO_WORDS, judged_by(LARGER, LARGER)),
    ("both words judged by the smaller rank", "checks", TWO_WORDS, judged_by(SMALLER, SMALLER)),
    ("each word judged by the other's rank", "checks", TWO_WORDS, judged_by("second_rank", "first_rank")),
    ("equal letters of a ribbon refused", "checks", "letters[place] < letters[place - 1]", "letters[place] <= letters[place - 1]"),
    (
        "a fall at place 1 overlooked", "checks",
        "for place in range(1, len(letters)):\n        if letters[place] <",
        "for place in range(2, len(letters)):\n        if letters[place] <",
    ),
    ("a first mark 1 passes", "checks", "(place == 0 and mark != 0) or ", ""),
    ("a step down between equals passes", "checks", " or (mark == 1 and letters[place] == letters[place - 1])", ""),
    ("the mark 2 passes", "checks", "mark not in (0, 1)", "mark not in (0, 1, 2)"),
    ("the mark 255 passes", "checks", "mark not in (0, 1)", "mark not in (0, 1, 255)"),
    ("an entry met before passes", "checks", " or entry in met", ""),
    ("the entry 0 passes", "checks", "1 <= entry <= len(entries)", "0 <= entry <= len(entries)"),
    ("an entry above the cells passes", "checks", "1 <= entry <= len(entries)", "1 <= entry <= len(entries) + 1"),
    ("a fall at a step right passes", "checks", "rises == (marks[place] == 1)", "rises and (marks[place] == 1)"),
    ("a rise at a step down passes", "checks", "rises == (marks[place] == 1)", "not rises and not (marks[place] == 1)"),
    ("the rank is an index", "checks", "1 <= index <= rank - 1", "1 <= index <= rank"),
    ("0 is an index", "checks", "1 <= index <= rank - 1", "0 <= index <= rank - 1"),
    ("an index cut to a byte", "checks", "1 <= index <= rank - 1", "1 <= index % 256 <= rank - 1"),
    ("an output one short passes", "checks", "len(output) < needed", "len(output) + 1 < needed"),
    ("an output exactly long enough refused", "checks", "len(output) < needed", "len(output) <= needed"),
    (
        "2 of the first word before 1 of the second", "checks",
        "    check_rank(second_rank)\n    check_length(len(first))\n",
        "    check_length(len(first))\n    check_rank(second_rank)\n",
    ),
    (
        "4 of the first word before 2 of the second", "checks",
        "    check_length(len(second))\n    check_letters(first_rank, first)\n",
        "    check_letters(first_rank, first)\n    check_length(len(second))\n",
    ),
    (
        "2 judged of each factor alone", "checks",
        CELLS_TOGETHER,
        "    check_length(len(first_letters))\n    check_length(len(second_letters))\n",
    ),
    (
        "the marks of both factors counted together", "checks",
        "    check_alike(first_letters, first_marks)\n    check_alike(second_letters, second_marks)\n",
        "    check_alike(first_letters + second_letters, first_marks + second_marks)\n",
    ),
    (
        "4 of the second factor not counted on", "checks",
        "check_letters(second_rank, second_letters, first_count)",
        "check_letters(second_rank, second_letters)",
    ),
    ("5 of the second factor not counted on", "checks", "check_rising(second_letters, first_count)", "check_rising(second_letters)"),
    ("6 of the second factor not counted on", "checks", "second_marks, first_count)", "second_marks)"),
    (
        "5 judged across the factors", "checks",
        "    check_rising(first_letters)\n    check_rising(second_letters, first_count)\n",
        "    check_rising(first_letters + second_letters)\n",
    ),
    (
        "the second factor's first mark judged as a step out of the first", "checks",
        "    check_marks(first_letters, first_marks)\n    check_marks(second_letters, second_marks, first_count)\n",
        "    check_marks(first_letters + second_letters, first_marks + second_marks)\n",
    ),
    (
        "5 of the first factor before 4 of the second", "checks",
        "    check_letters(second_rank, second_letters, first_count)\n    check_rising(first_letters)\n",
        "    check_rising(first_letters)\n    check_letters(second_rank, second_letters, first_count)\n",
    ),
    (
        "6 of the first factor before 5 of the second", "checks",
        "    check_rising(second_letters, first_count)\n    check_marks(first_letters, first_marks)\n",
        "    check_marks(first_letters, first_marks)\n    check_rising(second_letters, first_count)\n",
    ),
]

EDGES = [
    (
        "the first letter of a word read before its rank is judged", "checks",
        "    check_rank(rank)\n    check_length(len(word))\n",
        "    word[:1]\n    check_rank(rank)\n    check_length(len(word))\n",
    ),
    ("letters of a word read before its length is judged", "checks", "    check_length(len(word))\n", "    sum(word)\n    check_length(len(word))\n"),
    (
        "letters of a second word read before its length is judged", "checks",
        "    check_length(len(second))\n",
        "    sum(second)\n    check_length(len(second))\n",
    ),
    ("marks read before they are as many as the letters", "checks", "    check_alike(letters, marks)\n", "    sum(marks)\n    check_alike(letters, marks)\n"),
    (
        "entries of a pair read before they are as many as the letters", "checks",
        OF_A_PAIR,
        OF_A_PAIR.replace("    check_alike", "    sum(entries)\n    check_alike"),
    ),
    (
        "product: cells judged by a sum that is cut to 64 bits", "checks",
        CELLS_TOGETHER,
        "    check_length((first_letters.elements + second_letters.elements) % 2**64)\n",
    ),
    (
        "product: letters of the second factor read before 2 is judged", "checks",
        CELLS_TOGETHER,
        "    sum(second_letters)\n" + CELLS_TOGETHER,
    ),
    (
        "product: marks of the second factor read before 3 is judged", "checks",
        "    check_alike(second_letters, second_marks)\n",
        "    sum(second_marks)\n    check_alike(second_letters, second_marks)\n",
    ),
]
