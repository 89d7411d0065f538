"""Edits of wrong_kernels.py: the pair of a word, P lines, the converter of a T line and an N line, the program's lines."""

# The pair of a word: its room, and what is written.
ROOMS = "    check_room(len(word), letters, marks, entries)\n"
PAIR = "    return put_pair(*pair_of(word), letters, marks, entries, counts)\n"

# The checks of a pair.
ENTRIES_AND_STEPS = "    check_marks(letters, marks)\n    check_entries(entries)\n    check_steps(marks, entries)\n"

# A P line read and written.
SECOND_HALF = "    entries = scanner.fields(count)\n"
PAIR_JUDGED = "    check_pair(rank, *pair)\n"
PAIR_ROOM = "    check_room(len(pair[0]), letters, marks, entries)\n"
PAIR_READ = "    put_pair(*pair, letters, marks, entries, counts)\n    return [rank, len(pair[0])]\n"
PAIR_LINE = '    return line("P", [rank, len(letters)] + cells_of(letters, marks) + entries)\n'
PAIR_WRITTEN = "    check_pair(rank, letters, marks, entries)\n    return write(pair_line"

# The converter.
FIRST_TEXT = "    rank, letters, marks = scan_tableau(tableau_text)\n"
SECOND_TEXT = "    entries = scan_recording(recording_text, len(tableau_text))\n"
NUMBERS = "    check_rank(rank)\n    check_length(len(letters))\n    check_length(len(entries))\n"
CONVERTED = NUMBERS + "    return write_pair_line(rank, letters, marks, entries, out)\n"
NO_ROOM = "    if len(out) < %s:\n        raise Refused(13, %s)\n"

# The program.
FIRST_LINE = "    return pair_line(rank, letters, marks, entries) + word_line(rank, reading(letters, marks))"


def with_marks(marks):
    """The pair of a word with marks made otherwise, by the place of a cell and its entry or letter."""
    return (
        "    new_letters, _, new_entries = pair_of(word)\n    new_marks = [int(p > 0 and (%s)) for p in range(len(word))]\n" % marks
        + PAIR.replace("*pair_of(word)", "new_letters, new_marks, new_entries")
    )


def with_entries(entries):
    """The pair of a word with entries made otherwise."""
    return "    new_letters, new_marks, _ = pair_of(word)\n" + PAIR.replace("*pair_of(word)", "new_letters, new_marks, " + entries)


EDITS = [
    ("pair: marks from rising entries", "ribbons", PAIR, with_marks("new_entries[p] > new_entries[p - 1]")),
    ("pair: marks where letters rise", "ribbons", PAIR, with_marks("new_letters[p] > new_letters[p - 1]")),
    ("pair: a first mark by the last entry", "ribbons", PAIR, with_marks("new_entries[p] < new_entries[p - 1]").replace("p > 0 and ", "")),
    ("pair: marks from entries of the cell after", "ribbons", PAIR, with_marks("new_entries[p] < new_entries[(p + 1) % len(word)]")),
    (
        "pair: entries of equal letters from the last on", "ribbons",
        PAIR,
        with_entries("[place + 1 for place in sorted(range(len(word)), key=lambda place: (word[place], -place))]"),
    ),
    ("pair: entries from 0", "ribbons", PAIR, with_entries("[entry - 1 for entry in pair_of(word)[2]]")),
    ("pair: entries of the column reading", "ribbons", PAIR, with_entries("pair_of(reading(*pair_of(word)[:2]))[2]")),
    ("pair: entries cut to a byte", "ribbons", PAIR, with_entries("[entry % 256 for entry in pair_of(word)[2]]")),
    ("pair: cells by letters, where entries belong", "ribbons", PAIR, with_entries("[new_letters.index(a) + 1 for a in word]")),
    ("pair: letters as they stand in the word", "ribbons", PAIR, PAIR.replace("*pair_of(word)", "list(word), *pair_of(word)[1:]")),
    ("pair: no entries written", "ribbons", PAIR, "    return put_tableau(*pair_of(word)[:2], letters, marks, counts)\n"),
    ("pair: no counts given", "ribbons", PAIR, PAIR.replace("counts)", "[0] * 64)")),
    ("pair: room of the recording unchecked", "ribbons", ROOMS, ROOMS.replace(", entries", "")),
    ("pair: room of the marks unchecked", "ribbons", ROOMS, ROOMS.replace(", marks", "")),
    ("pair: room of the letters unchecked", "ribbons", ROOMS, ROOMS.replace(" letters,", "")),
    ("pair: room of the recording by that of the marks", "ribbons", ROOMS, ROOMS.replace("entries", "marks")),
    ("pair: a place of 13 that the recording has", "ribbons", ROOMS, "    if len(entries) < len(word):\n        raise Refused(13, len(entries))\n" + ROOMS),
    ("pair: letters written without room for the recording", "ribbons", ROOMS, ROOMS.replace(", entries", "") + "    put(sorted(word), letters)\n" + ROOMS),
    (
        "pair: entries written without room for letters", "ribbons",
        ROOMS,
        "    if len(entries) >= len(word):\n        put(pair_of(word)[2], entries)\n" + ROOMS,
    ),
    (
        "pair: counts given without room for the recording", "ribbons",
        ROOMS,
        ROOMS.replace(", entries", "") + "    put(letter_counts(word), counts)\n" + ROOMS,
    ),
    (
        "pair: the entry after the last cleared", "ribbons",
        PAIR,
        "    entries[len(word) : len(word) + 1] = [0] * (len(entries) > len(word))\n" + PAIR,
    ),
    (
        "a pair: 7 before 6", "checks",
        "    check_rising(letters)\n" + ENTRIES_AND_STEPS,
        "    check_rising(letters)\n    check_entries(entries)\n    check_marks(letters, marks)\n    check_steps(marks, entries)\n",
    ),
    (
        "a pair: 8 before 7", "checks",
        ENTRIES_AND_STEPS,
        "    check_marks(letters, marks)\n    check_steps(marks, entries)\n    check_entries(entries)\n",
    ),
    ("a pair: 8 not judged", "checks", ENTRIES_AND_STEPS, ENTRIES_AND_STEPS.replace("    check_steps(marks, entries)\n", "")),
    ("P line: the second half first", "lines", PAIR_LINE, PAIR_LINE.replace("cells_of(letters, marks) + entries", "entries + cells_of(letters, marks)")),
    ("P line: a count of its own for the entries", "lines", PAIR_LINE, PAIR_LINE.replace("+ entries", "+ [len(letters)] + list(entries)")),
    ("P line: steps between the entries", "lines", PAIR_LINE, PAIR_LINE.replace("+ entries", "+ cells_of(entries, marks)")),
    ("P line: without its entries", "lines", PAIR_LINE, PAIR_LINE.replace(" + entries", "")),
    ("P line: entries one off", "lines", PAIR_LINE, PAIR_LINE.replace("+ entries", "+ [entry - 1 for entry in entries]")),
    ("P line: written with the kind T", "lines", PAIR_LINE, PAIR_LINE.replace('"P"', '"T"')),
    (
        "P written: 7 and 8 not judged", "lines",
        PAIR_WRITTEN,
        PAIR_WRITTEN.replace("check_pair(rank, letters, marks, entries)", "check_tableau(rank, letters, marks)"),
    ),
    (
        "P written: 13 before 8", "lines",
        PAIR_WRITTEN,
        "    if len(letters) == len(marks) == len(entries) <= 1024 and sorted(entries) == list(range(1, len(entries) + 1)):\n"
        "        check_tableau(rank, letters, marks)\n        check_room(len(pair_line(rank, letters, marks, entries)), out)\n" + PAIR_WRITTEN,
    ),
    ("P read: a count of its own for the entries", "lines", SECOND_HALF, "    entries = scanner.fields(scanner.field())\n"),
    (
        "P read: entries as far as they go", "lines",
        SECOND_HALF,
        '    entries = []\n    while scanner.next() == ",":\n        entries.append(scanner.field())\n',
    ),
    ("P read: one entry less passes", "lines", SECOND_HALF, '    entries = [scanner.field() for _ in range(count) if scanner.next() != "\\n"]\n'),
    ("P read: entries cut to a byte", "lines", SECOND_HALF, "    entries = [entry % 256 for entry in scanner.fields(count)]\n"),
    ("P read: entries with steps between them", "lines", SECOND_HALF, "    entries, _ = scanner.cells(count)\n"),
    ("P read: a T line taken for one", "lines", '    scanner.one_of("P")\n', '    scanner.one_of("PT")\n'),
    ("P read: a letter cut to a byte", "lines", PAIR_JUDGED, "    pair[0] = [letter % 256 for letter in pair[0]]\n" + PAIR_JUDGED),
    ("P read: 7 and 8 not judged", "lines", PAIR_JUDGED, "    check_tableau(rank, pair[0], pair[1])\n"),
    (
        "P read: entries that fit the shape put right", "lines",
        PAIR_JUDGED,
        "    check_tableau(rank, pair[0], pair[1])\n    pair[2] = pair_of(reading(*pair[:2]))[2]\n",
    ),
    ("P read: 13 before 1", "lines", PAIR_JUDGED + PAIR_ROOM, PAIR_ROOM + PAIR_JUDGED),
    ("P read: 13 before 7", "lines", PAIR_JUDGED, "    check_tableau(rank, pair[0], pair[1])\n" + PAIR_ROOM + PAIR_JUDGED),
    ("P read: room of the recording unchecked", "lines", PAIR_ROOM, PAIR_ROOM.replace(", entries", "")),
    ("P read: room of the marks unchecked", "lines", PAIR_ROOM, PAIR_ROOM.replace(", marks", "")),
    ("P read: room for the bytes asked for", "lines", PAIR_ROOM, PAIR_ROOM.replace("len(pair[0])", "len(text) // 4")),
    ("P read: counts not given", "lines", PAIR_READ, PAIR_READ.replace("counts)", "[0] * 64)")),
    ("P read: counts given without room", "lines", PAIR_ROOM, "    put([pair[0].count(a) for a in range(1, 65)], counts)\n" + PAIR_ROOM),
    ("P read: entries not written", "lines", PAIR_READ, "    put_tableau(*pair[:2], letters, marks, counts)\n    return [rank, len(pair[0])]\n"),
    ("P read: the items as the count", "lines", PAIR_READ, PAIR_READ.replace("len(pair[0])]", "2 * len(pair[0])]")),
    ("P read: rank and count exchanged", "lines", PAIR_READ, PAIR_READ.replace("[rank, len(pair[0])]", "[len(pair[0]), rank]")),
    ("converter: N bytes not counted on", "lines", "Refused(14, before + refusal.place)", "Refused(14, refusal.place)"),
    ("converter: N bytes counted on without the line feed", "lines", "Refused(14, before + refusal.place)", "Refused(14, before - 1 + refusal.place)"),
    ("converter: N bytes counted on from the P line", "lines", "Refused(14, before + refusal.place)", "Refused(14, 2 + before + refusal.place)"),
    ("converter: the N text judged first", "lines", FIRST_TEXT + SECOND_TEXT, SECOND_TEXT + FIRST_TEXT),
    ("converter: 1 before 14 of the N text", "lines", SECOND_TEXT, "    check_rank(rank)\n" + SECOND_TEXT),
    ("converter: 3 after 4", "lines", CONVERTED, CONVERTED.replace("    return", "    check_word(rank, letters)\n    return")),
    ("converter: 3 after 6", "lines", CONVERTED, CONVERTED.replace("    return", "    check_tableau(rank, letters, marks)\n    return")),
    (
        "converter: 3 before 2", "lines",
        NUMBERS,
        NUMBERS.replace("    check_length", "    if len(letters) != len(entries):\n        raise Refused(3, 0)\n    check_length", 1),
    ),
    ("converter: 3 before 1", "lines", NUMBERS, "    if len(letters) != len(entries):\n        raise Refused(3, 0)\n" + NUMBERS),
    ("converter: 2 of the entries not judged", "lines", NUMBERS, NUMBERS.replace("    check_length(len(entries))\n", "")),
    ("converter: 2 of the entries before 1", "lines", NUMBERS, "    check_length(len(entries))\n    check_rank(rank)\n    check_length(len(letters))\n"),
    ("converter: 2 judged of both together", "lines", NUMBERS, NUMBERS + "    check_length(len(letters) + len(entries) - 1)\n"),
    ("converter: unequal L cut to the cells", "lines", NUMBERS, NUMBERS + "    entries = entries[: len(letters)]\n"),
    (
        "converter: unequal L cut to the shorter", "lines",
        NUMBERS,
        NUMBERS + "    letters, marks, entries = (list(part) for part in zip(*zip(letters, marks, entries))) if letters and entries else ([], [], [])\n",
    ),
    ("converter: an N line without entries passes", "lines", NUMBERS, NUMBERS + "    entries = entries or pair_of(reading(letters, marks))[2]\n"),
    (
        "converter: 7 and 8 not judged", "lines",
        CONVERTED,
        NUMBERS + "    if len(letters) != len(entries):\n        raise Refused(3, 0)\n    check_tableau(rank, letters, marks)\n"
        "    return write(pair_line(rank, letters, marks, entries), out)\n",
    ),
    (
        "converter: room for both texts asked for", "lines",
        CONVERTED,
        NUMBERS + "    check_pair(rank, letters, marks, entries)\n" + NO_ROOM % (("len(tableau_text) + len(recording_text)",) * 2) + CONVERTED,
    ),
    ("converter: 13 before 1", "lines", NUMBERS, NO_ROOM % (("len(pair_line(rank, letters, marks, entries))",) * 2) + NUMBERS),
    (
        "converter: bytes after the N line pass", "lines",
        "        entries = scanner.fields(scanner.field())\n        scanner.end()\n",
        '        entries = scanner.fields(scanner.field())\n        scanner.one_of("\\n")\n',
    ),
    ("converter: a T line in both texts passes", "lines", '        scanner.one_of("N")\n', '        scanner.one_of("NT")\n'),
    (
        "converter: the T line kept in the output", "lines",
        CONVERTED,
        NUMBERS + "    check_pair(rank, letters, marks, entries)\n    return write(bytes(tableau_text) + bytes(recording_text), out)\n",
    ),
    (
        "the program prints T and N lines", "lines",
        FIRST_LINE,
        FIRST_LINE.replace("pair_line(rank, letters, marks, entries)", "tableau_line(rank, letters, marks) + recording_line(entries)"),
    ),
    (
        "the program prints the T line alone", "lines",
        FIRST_LINE,
        FIRST_LINE.replace("pair_line(rank, letters, marks, entries)", "tableau_line(rank, letters, marks)"),
    ),
    ("the program prints the word itself", "lines", FIRST_LINE, FIRST_LINE.replace("reading(letters, marks)", "word")),
]

# As a kernel does it: entries by counting, marks from falling entries; a P line as a T line with the N items after it.
BY_COUNTING = """    new_letters, new_entries, next_of = sorted(word), [0] * len(word), [0] * 66
    for a in word:
        next_of[a + 1] += 1
    for a in range(1, 66):
        next_of[a] += next_of[a - 1]
    for place, a in enumerate(word):
        new_entries[next_of[a]] = place + 1
        next_of[a] += 1
    new_marks = [int(p > 0 and new_entries[p] < new_entries[p - 1]) for p in range(len(word))]
""" + PAIR.replace("*pair_of(word)", "new_letters, new_marks, new_entries")

RIGHT = [
    ("pair: entries by counting, marks from falling entries", "ribbons", PAIR, BY_COUNTING),
    (
        "P line: the T line with the N items after it", "lines",
        PAIR_LINE,
        '    items = recording_line(list(entries))[1:].partition(b",")[2].partition(b",")[2]\n'
        '    return b"P" + tableau_line(rank, letters, marks)[1:-1] + (b"," + items if items else b"\\n")\n',
    ),
]

EDGES = [
    (
        "pair: the word read before its length is judged by the room", "ribbons",
        "    check_word(rank, word)\n" + ROOMS,
        "    sum(word)\n    check_word(rank, word)\n" + ROOMS,
    ),
    ("pair: the entry after the needed ones read", "ribbons", PAIR, "    entries[len(word)]\n" + PAIR),
    ("pair: counts read, which are to be given", "ribbons", "    check_word(rank, word)\n" + ROOMS, "    counts[0]\n    check_word(rank, word)\n" + ROOMS),
    ("P read: the byte after the text read", "lines", PAIR_JUDGED, "    text[len(text)]\n" + PAIR_JUDGED),
    ("P read: counts read, which are to be given", "lines", "    rank, *pair = scan_pair(text)\n", "    counts[0]\n    rank, *pair = scan_pair(text)\n"),
    (
        "converter: the N text read where its bytes count on", "lines",
        "        raise Refused(14, before + refusal.place)\n",
        "        text[before + refusal.place]\n        raise Refused(14, before + refusal.place)\n",
    ),
    ("converter: the byte after the T text read", "lines", SECOND_TEXT, "    tableau_text[len(tableau_text)]\n" + SECOND_TEXT),
    ("converter: the output read before the line is known", "lines", FIRST_TEXT, "    out[0]\n" + FIRST_TEXT),
]
