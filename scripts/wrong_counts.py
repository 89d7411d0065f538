"""Edits of wrong_kernels.py: letter counts, and two tableaux that are compared."""
from wrong_checks import CELLS_TOGETHER, LARGER
from wrong_moves import IN_TABLEAU
from wrong_ribbons import COUNTED

# How 17 is judged, of one tableau, of a pair, of the used cells and of two tableaux, and what counts become.
JUDGED = "    for place, (told, found) in enumerate(zip(counts, letter_counts(letters))):\n        if told != found:\n"
OF_TABLEAU = "    check_tableau(rank, letters, marks)\n    check_counts(letters, counts)\n"
OF_PAIR = "    check_counts(letters, counts)\n    check_entries(entries)\n    check_steps(marks, entries)\n"
OF_USED = "    check_counts(letters[:used], counts)\n"
MARKS_OF_USED = "    check_marks(letters[:used], marks[:used])\n"
ENTRIES_OF_USED = "    check_entries(entries[:used])\n"
STEPS_OF_USED = "    check_steps(marks[:used], entries[:used])\n"
FULL = "    if used == 1024:\n        raise Refused(12, 1024)\n"
OF_FIRST = "    check_counts(first_letters, first_counts)\n"
OF_SECOND = "    check_counts(second_letters, second_counts, 64)\n"
MARKS_OF_SECOND = "    check_marks(second_letters, second_marks, first_count)\n"
MOVED = "    put(letter_counts(letters), counts)\n    return changed\n"
GIVEN = "    put(letter_counts(new_letters), counts)\n"
PUT_IN = "inserted(letter, letters[:used], marks[:used], entries[:used])"
INSERTED = "    return put_pair(*%s, letters, marks, entries, counts)\n" % PUT_IN
MULTIPLIED_INTO = "    return put_tableau(new_letters, new_marks, letters, marks, counts)\n"
READ = "    put_tableau(new_letters, new_marks, letters, marks, counts)\n    return [rank, len(new_letters)]\n"
CLASS_OF_TABLEAUX = "    return of_one_class(reading(first_letters, first_marks), reading(second_letters, second_marks))\n"
WEIGHTS_OF_TABLEAUX = "    return weights(reading(first_letters, first_marks), reading(second_letters, second_marks))\n"
LENGTHS = "    check_length(len(first_letters))\n    check_length(len(second_letters))\n"


def moved(text):
    """Other counts after a move, by the places of the letter that was and of the letter that is."""
    return "    was, new = (index, index - 1) if raising else (index - 1, index)\n    %s\n    return changed\n" % text


def inserted(text):
    """Other counts after an insertion."""
    new = "    new_letters, new_marks, new_entries = %s\n" % PUT_IN
    return new + "    put(new_letters, letters)\n    put(new_marks, marks)\n    %s\n    return put(new_entries, entries)\n" % text


def multiplied(text):
    """Other counts of a product."""
    return "    put(new_letters, letters)\n    put(%s, counts)\n    return put(new_marks, marks)\n" % text


def compared(rank, second_rank):
    """How the letters of two tableaux are judged, each by a rank."""
    return "    check_letters(%s, first_letters)\n    check_letters(%s, second_letters, first_count)\n" % (rank, second_rank)


EDITS = [
    ("counts: the last unseen", "checks", JUDGED, JUDGED.replace("zip(counts,", "zip(counts[:63],")),
    ("counts: the first unseen", "checks", JUDGED, JUDGED.replace("if told", "if place > 0 and told")),
    ("counts: those of letters above the largest unseen", "checks", JUDGED, JUDGED.replace("if told", "if place < max(letters, default=0) and told")),
    ("counts: those of letters that do not occur unseen", "checks", JUDGED, JUDGED.replace("if told", "if found and told")),
    ("counts: one too many passes", "checks", JUDGED, JUDGED.replace("told != found", "told < found")),
    ("counts: one too few passes", "checks", JUDGED, JUDGED.replace("told != found", "told > found")),
    ("counts: cut to a byte", "checks", JUDGED, JUDGED.replace("told != found", "told % 256 != found % 256")),
    ("counts: only their sum judged", "checks", JUDGED, JUDGED.replace("told != found", "told != found and sum(counts) != len(letters)")),
    ("counts: that of the neighbour judged", "checks", JUDGED, JUDGED.replace("letter_counts(letters)", "letter_counts(letters)[1:] + [0]")),
    ("counts: the letter as the place", "checks", "Refused(17, before + place)", "Refused(17, before + place + 1)"),
    (
        "counts: the last wrong one's place", "checks",
        JUDGED,
        JUDGED.replace("in enumerate(", "in reversed(list(enumerate(").replace("):\n        if", "))):\n        if"),
    ),
    (
        "counts: 17 before 6 of a tableau", "checks",
        OF_TABLEAU,
        "    if 1 <= rank <= 64 and len(letters) == len(marks) <= 1024:\n        check_letters(rank, letters)\n        check_rising(letters)\n"
        "        check_counts(letters, counts)\n    check_tableau(rank, letters, marks)\n",
    ),
    ("counts: 17 of a tableau not judged", "checks", OF_TABLEAU, OF_TABLEAU.replace("    check_counts(letters, counts)\n", "")),
    ("counts: 17 after 7 of a pair", "checks", OF_PAIR, "    check_entries(entries)\n    check_counts(letters, counts)\n    check_steps(marks, entries)\n"),
    ("counts: 17 after 8 of a pair", "checks", OF_PAIR, "    check_entries(entries)\n    check_steps(marks, entries)\n    check_counts(letters, counts)\n"),
    ("counts: 17 of a pair not judged", "checks", OF_PAIR, OF_PAIR.replace("    check_counts(letters, counts)\n", "")),
    ("counts: in insertion over all lent letters", "ribbons", OF_USED, "    check_counts(letters, counts)\n"),
    ("counts: in insertion the new letter counted", "ribbons", OF_USED, "    check_counts(letters[:used] + [letter], counts)\n"),
    ("counts: in insertion 17 before 6", "ribbons", MARKS_OF_USED + OF_USED, OF_USED + MARKS_OF_USED),
    ("counts: in insertion 17 after 7", "ribbons", OF_USED + ENTRIES_OF_USED, ENTRIES_OF_USED + OF_USED),
    ("counts: in insertion 17 after 8", "ribbons", OF_USED + ENTRIES_OF_USED + STEPS_OF_USED, ENTRIES_OF_USED + STEPS_OF_USED + OF_USED),
    (
        "counts: in insertion 17 after 12", "ribbons",
        OF_USED + ENTRIES_OF_USED + STEPS_OF_USED + FULL,
        ENTRIES_OF_USED + STEPS_OF_USED + FULL + OF_USED,
    ),
    (
        "counts: in insertion 17 before 4 of the new letter", "ribbons",
        "    check_letters(rank, letters[:used] + [letter])\n",
        "    check_letters(rank, letters[:used])\n    check_rising(letters[:used])\n%s%s    check_letters(rank, letters[:used] + [letter])\n"
        % (MARKS_OF_USED, OF_USED),
    ),
    ("counts: in a second tableau not counted on", "checks", OF_SECOND, OF_SECOND.replace(", 64", "")),
    ("counts: in a second tableau 63 counted on", "checks", OF_SECOND, OF_SECOND.replace("64", "63")),
    ("counts: in a second tableau counted on from the first's length", "checks", OF_SECOND, OF_SECOND.replace("64", "first_count")),
    ("counts: those of the second tableau judged first", "checks", OF_FIRST + OF_SECOND, OF_SECOND + OF_FIRST),
    ("counts: 17 of the first tableau before 6 of the second", "checks", MARKS_OF_SECOND + OF_FIRST, OF_FIRST + MARKS_OF_SECOND),
    ("counts: those of the second tableau not judged", "checks", OF_SECOND, ""),
    ("counts: those of the first tableau not judged", "checks", OF_FIRST, ""),
    (
        "counts: of two tableaux, each judged by the other's letters", "checks",
        OF_FIRST + OF_SECOND,
        "    check_counts(second_letters, first_counts)\n    check_counts(first_letters, second_counts, 64)\n",
    ),
    ("counts: a move leaves them alone", "moves", MOVED, "    return changed\n"),
    ("counts: a move takes one and gives none", "moves", MOVED, moved("counts[was] -= 1")),
    ("counts: a move gives one and takes none", "moves", MOVED, moved("counts[new] += 1")),
    ("counts: a move's two exchanged", "moves", MOVED, moved("counts[was], counts[new] = counts[was] + 1, counts[new] - 1")),
    ("counts: a move's two one letter further", "moves", MOVED, moved("counts[was] -= 1\n    counts[(new + 1) % 64] += 1")),
    ("counts: changed by a move that is refused", "moves", "    changed = " + IN_TABLEAU, "    counts[index - 1] += 1\n    changed = " + IN_TABLEAU),
    (
        "counts: put right by a move instead of refused", "moves",
        "    %s\n    check_index(rank, index)\n    changed" % COUNTED,
        "    check_tableau(rank, letters, marks)\n    check_index(rank, index)\n    changed",
    ),
    (
        "counts: 9 of a move before 17", "moves",
        "    %s\n    check_index(rank, index)\n    changed" % COUNTED,
        "    check_tableau(rank, letters, marks)\n    check_index(rank, index)\n    check_counts(letters, counts)\n    changed",
    ),
    (
        "counts: 9 of a repeat count before 17", "moves",
        "    %s\n    check_index(rank, index)\n    return" % COUNTED,
        "    check_tableau(rank, letters, marks)\n    check_index(rank, index)\n    check_counts(letters, counts)\n    return",
    ),
    ("counts: insertion leaves them alone", "ribbons", INSERTED, inserted("pass")),
    ("counts: insertion adds to the next letter's", "ribbons", INSERTED, inserted("counts[letter % 64] += 1")),
    ("counts: insertion adds two", "ribbons", INSERTED, inserted("counts[letter - 1] += 2")),
    ("counts: not given", "ribbons", GIVEN, ""),
    ("counts: given up to the largest letter only", "ribbons", GIVEN, "    put(letter_counts(new_letters)[: max(new_letters, default=0)], counts)\n"),
    ("counts: given one place further", "ribbons", GIVEN, "    put([0] + letter_counts(new_letters)[:63], counts)\n"),
    ("counts: the reader gives none", "lines", READ, "    put(new_letters, letters)\n    put(new_marks, marks)\n    return [rank, len(new_letters)]\n"),
    (
        "counts: given by a reader that is refused for room", "lines",
        "    check_room(len(new_letters), letters, marks)\n",
        "    put([new_letters.count(a) for a in range(1, 65)], counts)\n    check_room(len(new_letters), letters, marks)\n",
    ),
    ("counts: a product's those of the first factor", "ribbons", MULTIPLIED_INTO, multiplied("first_counts")),
    ("counts: a product's the larger of both", "ribbons", MULTIPLIED_INTO, multiplied("[max(both) for both in zip(first_counts, second_counts)]")),
    (
        "counts: a product without room before 17", "ribbons",
        "    check_factors(rank, first_letters, first_marks, first_counts, second_letters, second_marks, second_counts)\n",
        "    check_factors(rank, first_letters, first_marks, letter_counts(first_letters), second_letters, second_marks, letter_counts(second_letters))\n"
        "    check_room(len(first_letters) + len(second_letters), letters, marks)\n"
        "    check_factors(rank, first_letters, first_marks, first_counts, second_letters, second_marks, second_counts)\n",
    ),
    ("two tableaux: one class by counts alone", "comparisons", CLASS_OF_TABLEAUX, "    return [int(first_counts == second_counts)]\n"),
    ("two tableaux: one class by marks alone", "comparisons", CLASS_OF_TABLEAUX, "    return [int(first_marks == second_marks)]\n"),
    (
        "two tableaux: one class only where the ranks are equal", "comparisons",
        CLASS_OF_TABLEAUX,
        "    return [int(first_rank == second_rank and first_letters == second_letters and first_marks == second_marks)]\n",
    ),
    (
        "two tableaux: one class without the count of the letter 64 and the marks beyond", "comparisons",
        CLASS_OF_TABLEAUX,
        "    return [int(first_counts[:63] == second_counts[:63] and all(a == b for a, b in zip(first_marks, second_marks)))]\n",
    ),
    (
        "two tableaux: one class without the last mark", "comparisons",
        CLASS_OF_TABLEAUX,
        "    return [int(first_counts == second_counts and first_marks[:-1] == second_marks[:-1])]\n",
    ),
    ("two tableaux: weights exchanged", "comparisons", WEIGHTS_OF_TABLEAUX, "    return weights(second_letters, first_letters)\n"),
    (
        "two tableaux: weights to the first's rank", "comparisons",
        WEIGHTS_OF_TABLEAUX,
        "    return weights(first_letters, [a for a in second_letters if a <= first_rank])\n",
    ),
    ("two tableaux: both judged by the first's rank", "checks", compared("first_rank", "second_rank"), compared("first_rank", "first_rank")),
    ("two tableaux: both judged by the larger rank", "checks", compared("first_rank", "second_rank"), compared(LARGER, LARGER)),
    ("two tableaux: each judged by the other's rank", "checks", compared("first_rank", "second_rank"), compared("second_rank", "first_rank")),
    ("two tableaux: 2 judged of their cells together", "checks", LENGTHS, CELLS_TOGETHER),
    ("two tableaux: 2 of the second not judged", "checks", LENGTHS, "    check_length(len(first_letters))\n"),
    (
        "classes: 15 before 17", "class_numbers",
        "    %s\n    check_small(len(letters))\n    return" % COUNTED,
        "    check_counted_tableau(rank, letters, marks, [letters.count(a) for a in range(1, 65)])\n    check_small(len(letters))\n    %s\n    return"
        % COUNTED,
    ),
    (
        "classes: 16 before 17", "class_numbers",
        "    %s\n    check_small(len(letters))\n    check_number" % COUNTED,
        "    check_counted_tableau(rank, letters, marks, [letters.count(a) for a in range(1, 65)])\n    check_small(len(letters))\n"
        "    check_number(number, size_of(letters, marks))\n    %s\n    check_number" % COUNTED,
    ),
]

# What a kernel does: two counts changed by a move and one by an insertion, sums for a product, classes and weights from what is stored.
RIGHT = [
    ("counts: one less and one more by a move", "moves", MOVED, moved("counts[was] -= 1\n    counts[new] += 1")),
    ("counts: one more by an insertion", "ribbons", INSERTED, inserted("counts[letter - 1] += 1")),
    ("counts: a product's as sums", "ribbons", MULTIPLIED_INTO, multiplied("[a + b for a, b in zip(first_counts, second_counts)]")),
    (
        "two tableaux: one class by counts and marks", "comparisons",
        CLASS_OF_TABLEAUX,
        "    return [int(first_counts == second_counts and first_marks == second_marks)]\n",
    ),
]

EDGES = [
    ("counts: read before the rank is judged", "checks", OF_TABLEAU, "    counts[0]\n" + OF_TABLEAU),
    ("counts: the one after the last read", "checks", JUDGED, "    counts[64]\n" + JUDGED),
    ("counts: the one before the first read", "checks", JUDGED, "    counts[-1]\n" + JUDGED),
    ("counts: the one after the last written with what it held", "ribbons", GIVEN, GIVEN + "    counts[64] = counts[64]\n"),
    ("counts: in insertion read before the used count is judged", "ribbons", "    check_length(used)\n", "    sum(counts)\n    check_length(used)\n"),
    ("counts: of a second factor read before 2 is judged", "checks", CELLS_TOGETHER, "    sum(second_counts)\n" + CELLS_TOGETHER),
    ("counts: of a second tableau read before 2 is judged", "checks", LENGTHS, "    sum(second_counts)\n" + LENGTHS),
    (
        "counts: read by a reader that is to give them", "lines",
        "    rank, new_letters, new_marks = scan",
        "    counts[0]\n    rank, new_letters, new_marks = scan",
    ),
]
