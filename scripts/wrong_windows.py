"""Edits of wrong_kernels.py: departures from a window, and arrivals at a full one."""
from wrong_counts import FULL

# How a window is judged, and what a departure leaves.
USED = "used > min(len(letters), len(marks), len(entries))"
LENGTH = "    check_length(used)\n"
PAIR = "    check_counted_pair(rank, letters[:used], marks[:used], entries[:used], counts)\n"
WINDOW = "    check_window(rank, used, letters, marks, entries, counts)\n"
EMPTY = "    if used == 0:\n        raise Refused(18, 0)\n"
WORD = "    word = window_word(used, letters, entries)\n"
LEFT = "    return put_pair(*pair_of(word[1:]), letters, marks, entries, counts)\n"

# The same as a kernel finds it: the oldest cell taken out, and none inserted again.
JOINT = "0 < at and at + 1 < used and entries[at + 1] < entries[at - 1]"
LETTERS = "    letters[at : used - 1] = letters[at + 1 : used]\n"
MARKS = "    marks[at : used - 1] = marks[at + 1 : used]\n"
ENTRIES = "    entries[at : used - 1] = entries[at + 1 : used]\n"
LOWERED = "    entries[: used - 1] = [entry - 1 for entry in entries[: used - 1]]\n"
JOINED = "    if at + 1 < used:\n        marks[at] = joint\n"
COUNTED = "    counts[letter - 1] -= 1\n"
GIVEN = "    return [used - 1]\n"
OLDEST = "    at = entries[:used].index(1)\n    letter = letters[at]\n    joint = int(%s)\n" % JOINT
TAKEN_OUT = OLDEST + LETTERS + MARKS + ENTRIES + LOWERED + JOINED + COUNTED + GIVEN


def taken_out(what, old, new):
    """A departure of the oldest cell with an edit."""
    assert TAKEN_OUT.count(old) == 1, old
    return "departure: " + what, "windows", WORD + LEFT, TAKEN_OUT.replace(old, new)


def lowered(part):
    """Some of the entries one less."""
    return "    entries[%s] = [entry - 1 for entry in entries[%s]]\n" % (part, part)


EDITS = [
    taken_out("the joint mark left as it was", JOINED, ""),
    taken_out("the joint mark always 0", JOINT, "False"),
    taken_out("the joint mark always 1", JOINT, "0 < at"),
    taken_out("the joint mark where entries rise", "entries[at + 1] < entries[at - 1]", "entries[at + 1] > entries[at - 1]"),
    taken_out("the joint mark by letters", "entries[at + 1] < entries[at - 1]", "letters[at + 1] > letters[at - 1]"),
    taken_out("the joint mark that of the cell taken out", JOINT, "marks[at]"),
    taken_out("the joint mark by the entry taken out", "entries[at + 1] < entries[at - 1]", "entries[at] < entries[at - 1]"),
    taken_out("the joint mark one cell further", "        marks[at] = joint\n", "        marks[at + 1] = joint\n"),
    taken_out("the joint mark in the vacated cell", JOINED, "    marks[at] = joint\n"),
    taken_out("a step down into the first cell", "        marks[at] = joint\n", "        marks[at] = joint if at else 1\n"),
    ("departure: the newest leaves", "windows", LEFT, LEFT.replace("word[1:]", "word[:-1]")),
    taken_out("the last cell leaves", "entries[:used].index(1)", "used - 1"),
    taken_out("the first cell leaves", "entries[:used].index(1)", "0"),
    ("departure: nothing leaves", "windows", LEFT, LEFT.replace("word[1:]", "word")),
    ("departure: two leave", "windows", LEFT, LEFT.replace("word[1:]", "word[2:]")),
    ("departure: the others inserted from the last on", "windows", LEFT, LEFT.replace("word[1:]", "word[:0:-1]")),
    ("departure: letters in the order of the ribbon", "windows", WORD, "    word = letters[:used]\n"),
    taken_out("entries left as they were", LOWERED, ""),
    taken_out("entries from the gap on lowered", LOWERED, lowered("at : used - 1")),
    taken_out("entries before the gap lowered", LOWERED, lowered(":at")),
    taken_out("the vacated entry lowered", LOWERED, lowered(":used")),
    taken_out("entries cut to a byte", "entry - 1 for", "(entry - 1) % 256 for"),
    taken_out("letters not moved", LETTERS, ""),
    taken_out("marks not moved", MARKS, ""),
    taken_out("entries not moved", ENTRIES, ""),
    taken_out("an element beyond moved too", LETTERS, "    letters[at:used] = letters[at + 1 : used + 1] or letters[at:used]\n"),
    taken_out("the vacated letter cleared", GIVEN, "    letters[used - 1] = 0\n" + GIVEN),
    taken_out("the vacated mark cleared", GIVEN, "    marks[used - 1] = 0\n" + GIVEN),
    taken_out("the vacated entry cleared", GIVEN, "    entries[used - 1] = 0\n" + GIVEN),
    taken_out("the departed letter in the vacated cell", GIVEN, "    letters[used - 1] = letter\n" + GIVEN),
    taken_out("the count left as it was", COUNTED, ""),
    taken_out("the count of the last letter lowered", COUNTED, "    counts[letters[used - 1] - 1] -= 1\n"),
    taken_out("the count of the letter that moved up lowered", COUNTED, "    counts[letters[at] - 1] -= 1\n"),
    taken_out("the next letter's count lowered", COUNTED, "    counts[letter % 64] -= 1\n"),
    taken_out("the count raised", COUNTED, "    counts[letter - 1] += 1\n"),
    taken_out("the used count as it was", GIVEN, "    return [used]\n"),
    taken_out("the departed letter in place of the used count", GIVEN, "    return [letter]\n"),
    taken_out("the place of the gap in place of the used count", GIVEN, "    return [at]\n"),
    ("departure: an empty window gives 0", "windows", EMPTY, ""),
    ("departure: 12 from an empty window", "windows", "Refused(18, 0)", "Refused(12, 0)"),
    ("departure: 18 with the lent letters as its place", "windows", "Refused(18, 0)", "Refused(18, len(letters))"),
    ("departure: 18 of one letter", "windows", EMPTY, EMPTY.replace("used == 0", "used <= 1")),
    ("departure: 18 only where no letter is lent", "windows", EMPTY, EMPTY.replace("used == 0", "not letters")),
    ("departure: 18 before 17", "windows", PAIR, EMPTY + PAIR),
    ("departure: 18 before 1", "windows", WINDOW, EMPTY + WINDOW),
    ("departure: 12 from a full window", "windows", EMPTY, EMPTY + FULL),
    ("departure: 2 of a full window", "windows", LENGTH, "    check_length(used + 1)\n"),
    ("departure: room for one more asked for", "windows", EMPTY, EMPTY + "    check_room(used + 1, letters, marks, entries)\n"),
    (
        "departure: 7 and 8 not judged", "windows",
        PAIR,
        "    check_counted_tableau(rank, letters[:used], marks[:used], counts)\n",
    ),
    ("departure: 17 not judged", "windows", PAIR, "    check_pair(rank, letters[:used], marks[:used], entries[:used])\n"),
    ("departure: all lent cells judged", "windows", PAIR, PAIR.replace("[:used]", "")),
    ("departure: entries judged by all that are lent", "windows", PAIR, "    check_entries(entries)\n" + PAIR),
    ("departure: a used count above all three lists passes", "windows", USED, "False"),
    ("departure: a used count that equals a length refused", "windows", USED, USED.replace(">", ">=")),
    ("departure: lists of unequal lengths refused", "windows", USED, USED + " or not len(letters) == len(marks) == len(entries)"),
    ("departure: buffers above 1,024 refused", "windows", LENGTH, "    check_length(max(used, len(letters)))\n"),
    ("departure: 3 before 2", "windows", LENGTH, "    if %s:\n        raise Refused(3, 0)\n" % USED + LENGTH),
    (
        "arrival: at a full window the oldest leaves by itself", "ribbons",
        FULL,
        "    if used == 1024:\n        word = [other for _, other in sorted(zip(entries[:used], letters[:used]))]\n"
        "        return put_pair(*pair_of(word[1:] + [letter]), letters, marks, entries, counts)\n",
    ),
    ("arrival: a window is full at 1,023 letters", "ribbons", FULL, FULL.replace("used == 1024", "used >= 1023")),
]

RIGHT = [("departure: the oldest cell taken out", "windows", WORD + LEFT, TAKEN_OUT)]

EDGES = [
    ("departure: cells read before the used count is judged", "windows", LENGTH, "    letters[:used]\n" + LENGTH),
    ("departure: counts read before 3 is judged", "windows", LENGTH, LENGTH + "    sum(counts)\n"),
    ("departure: a mark read before 3 is judged", "windows", LENGTH, LENGTH + "    marks[used - 1]\n"),
    ("departure: entries beyond the used ones read", "windows", WORD, "    sum(entries)\n" + WORD),
    ("departure: the letter after the last read", "windows", WORD, "    letters[used]\n" + WORD),
    taken_out("the entry before the first read", "int(0 < at and ", "int(entries[at - 1] > 0 and 0 < at and "),
    ("departure: the mark after the last written with what it held", "windows", LEFT, "    marks[used] = marks[used]\n" + LEFT),
]
