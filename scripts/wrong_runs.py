"""Edits of wrong_kernels.py: C lines written and read, and turned into T lines and back."""

# The runs of a tableau, and the cells of runs.
RUNS = "    return [(letter, letters.count(letter), marks[letters.index(letter)]) for letter in sorted(set(letters))]\n"
LETTERS = "    letters = [letter for letter, count, _ in runs for _ in range(count)]\n"
MARKS = "    marks = [step if place == 0 else 0 for _, count, step in runs for place in range(count)]\n"

# A C line scanned.
WHILE = '    while scanner.next() != "\\n":\n'
COMMA = '        if runs:\n            scanner.one_of(",")\n'
STEP = '        step = "rd".index(scanner.one_of("rd")) if runs else 0\n'
ITEM = "        letter, count = scanner.fields(2)\n"
KEPT = "        runs.append((letter, count, step))\n"
SCANNED = KEPT + "    scanner.end()\n    return rank, length, runs\n"

# Its checks.
NUMBERS = "    check_rank(rank)\n    check_length(length)\n"
FOUR = "    check_letters(rank, [letter for letter, _, _ in runs])\n"
FAULT = "count == 0 or place > 0 and letter <= runs[place - 1][0]"
NINETEEN = "    for place, (letter, count, _) in enumerate(runs):\n        if %s:\n            raise Refused(19, place)\n" % FAULT
TWENTY = "    if sum(count for _, count, _ in runs) != length:\n        raise Refused(20, 0)\n"
JUDGED = NUMBERS + FOUR + NINETEEN + TWENTY

# It is read.
CHECKED = "    check_runs(rank, length, runs)\n    check_room(length, letters, marks)\n"
READ = "    put_tableau(*cells_of(runs), letters, marks, counts)\n    return [rank, length]\n"
ROOM = "    check_room(length, letters, marks)\n"

# It is written, of a tableau and of a word, and the converters.
ITEMS = '        items += [letter, count] if place == 0 else ["rd"[step], letter, count]\n'
LINE = '    return line("C", [rank, len(letters)] + items)\n'
WRITTEN = "    check_tableau(rank, letters, marks)\n    return write(run_line(rank, letters, marks), out)\n"
OF_WORD = "    letters, marks, _ = pair_of(word)\n    return write(run_line(rank, letters, marks), out)\n"
TO_RUNS = "    return write_run_line(*scan_tableau(text), out)\n"
TO_TABLEAU = "    check_runs(rank, length, runs)\n    return write(tableau_line(rank, *cells_of(runs)), out)\n"


def room(text):
    """Room in the output for a text."""
    return "    check_room(len(%s), out)\n" % text


def edit(what, old, *new):
    """One exchange in the plain Python of C lines."""
    return what, "run_lines", old, "".join(new)


def fault(what, new):
    """Another reason for 19."""
    return edit("19: " + what, FAULT, new)


def runs(what, new):
    """Other runs of a tableau."""
    return edit("runs: " + what, RUNS, "    return [%s]\n" % new)


EDITS = [
    runs("the step of a run's last cell", "(a, letters.count(a), marks[len(letters) - 1 - letters[::-1].index(a)]) for a in sorted(set(letters))"),
    runs("the step into the letter after", "(a, letters.count(a), marks[(letters.index(a) + letters.count(a)) % len(letters)]) for a in sorted(set(letters))"),
    runs("a step down always", "(a, letters.count(a), int(a > letters[0])) for a in sorted(set(letters))"),
    runs("counts cut to a byte", "(a, letters.count(a) % 256, marks[letters.index(a)]) for a in sorted(set(letters))"),
    runs("counts up to 99", "(a, min(99, letters.count(a)), marks[letters.index(a)]) for a in sorted(set(letters))"),
    runs("counts from 0", "(a, letters.count(a) - 1, marks[letters.index(a)]) for a in sorted(set(letters))"),
    runs("in falling order", "(a, letters.count(a), marks[letters.index(a)]) for a in sorted(set(letters), reverse=True)"),
    runs("letters that do not occur", "(a, letters.count(a), marks[letters.index(a)] if a in letters else 0) for a in range(1, max(letters, default=0) + 1)"),
    runs("one for each cell", "(letter, 1, mark) for letter, mark in zip(letters, marks)"),
    runs("the last letter's left out", "(a, letters.count(a), marks[letters.index(a)]) for a in sorted(set(letters))[:-1]"),
    edit("cells: the step in each of a run", MARKS, MARKS.replace("step if place == 0 else 0", "step")),
    edit("cells: the step in the last of a run", MARKS, MARKS.replace("place == 0", "place == count - 1")),
    edit("cells: no step into a single one", MARKS, MARKS.replace("place == 0", "place == 0 and count > 1")),
    edit("cells: no step down", MARKS, MARKS.replace("step if place == 0 else 0", "0")),
    edit("cells: one for each run", LETTERS + MARKS, (LETTERS + MARKS).replace("range(count)", "range(min(1, count))")),
    edit("C line: letter and count exchanged", ITEMS, ITEMS.replace("letter, count", "count, letter")),
    edit("C line: a step before the first item", ITEMS, '        items += ["rd"[step], letter, count]\n'),
    edit("C line: right and down exchanged", ITEMS, ITEMS.replace("rd", "dr")),
    edit("C line: the step after its item", ITEMS, '        items += [letter, count] if place == 0 else [letter, count, "rd"[step]]\n'),
    edit("C line: counts of 1 left out", ITEMS, ITEMS.replace("letter, count]", "letter] + [count] * (count > 1)")),
    edit("C line: L the number of items", LINE, '    return line("C", [rank, len(set(letters))] + items)\n'),
    edit("C line: without L", LINE, '    return line("C", [rank] + items)\n'),
    edit("C line: the rank that of the largest letter", LINE, '    return line("C", [max(letters, default=rank), len(letters)] + items)\n'),
    edit("C line: written with the kind T", LINE, LINE.replace('"C"', '"T"')),
    edit("C read: as many items as L says", WHILE, "    while len(runs) < length:\n"),
    edit("C read: items as far as their counts are below L", WHILE, "    while sum(count for _, count, _ in runs) < length:\n"),
    edit("C read: at most 64 items", WHILE, '    while scanner.next() != "\\n" and len(runs) < 64:\n'),
    edit("C read: at most 1,024 items", WHILE, '    while scanner.next() != "\\n" and len(runs) < 1024:\n'),
    edit("C read: items from the 65th on unseen", SCANNED, SCANNED.replace("length, runs", "length, runs[:64]")),
    edit("C read: items from the 65th on in place of the first", KEPT, "        runs[len(runs) % 64 : len(runs) % 64 + 1] = [(letter, count, step)]\n"),
    edit("C read: a step before the first item", STEP, STEP, '        scanner.at += 2 * (not runs and bytes(scanner.text[scanner.at :][:2]) == b",r")\n'),
    edit("C read: an item without a step", COMMA + STEP, "        step = 0\n        if bytes(scanner.text[scanner.at :][1:2]) in (b'r', b'd') and runs:\n",
         '            scanner.one_of(",")\n            step = "rd".index(scanner.one_of("rd"))\n'),
    edit("C read: any byte but r taken for a step down", STEP, '        step = int(scanner.one_of(scanner.next() or "r") != "r") if runs else 0\n'),
    edit("C read: right and down exchanged", STEP, STEP.replace('"rd".index', '"dr".index')),
    edit("C read: letter and count exchanged", ITEM, ITEM.replace("letter, count", "count, letter")),
    edit("C read: a letter cut to a byte", KEPT, KEPT.replace("letter,", "letter % 256,")),
    edit("C read: a count cut to a byte", KEPT, KEPT.replace("count,", "count % 256,")),
    edit("C read: 14 of the count 0", ITEM, ITEM, "        if count == 0:\n            raise Refused(14, scanner.at - 1)\n"),
    edit("C read: 14 of the 65th item", KEPT, KEPT, "        if len(runs) > 64:\n            raise Refused(14, scanner.at)\n"),
    edit("C read: a T line taken for one", '    scanner.one_of("C")\n', '    scanner.one_of("CT")\n'),
    edit("C read: bytes after the line feed pass", SCANNED, SCANNED.replace("    scanner.end()\n", "")),
    edit("4: a cell as its place", FOUR, "    check_letters(rank, cells_of(runs)[0])\n"),
    edit("4: of items with the count 0 unseen", FOUR, "    check_letters(rank, [letter if count else 1 for letter, count, _ in runs])\n"),
    edit("4: by the limit of ranks", FOUR, FOUR.replace("rank,", "64,")),
    edit("4: of the first 64 items alone", FOUR, FOUR.replace("in runs]", "in runs[:64]]")),
    edit("4: not judged", FOUR, ""),
    edit("4: after 19", FOUR + NINETEEN, NINETEEN + FOUR),
    edit("4 and 19: item by item", FOUR + NINETEEN, NINETEEN.replace(
        "        if", "        if not 1 <= letter <= rank:\n            raise Refused(4, place)\n        if")),
    fault("an equal letter passes", FAULT.replace("<=", "<")),
    fault("a falling letter passes", FAULT.replace("<=", "==")),
    fault("the count 0 passes", "place > 0 and letter <= runs[place - 1][0]"),
    fault("the count 0 of the first item alone", FAULT.replace("count == 0", "count == place == 0")),
    fault("the count 0 of the last item passes", FAULT.replace("count == 0", "count == 0 and place + 1 < len(runs)")),
    fault("the count 1 refused", FAULT.replace("count == 0", "count <= 1")),
    fault("only neighbours from the third on", FAULT.replace("place > 0", "place > 1")),
    fault("letters compared with the first", FAULT.replace("runs[place - 1]", "runs[0]")),
    fault("letters compared with the largest of those after", "count == 0 or any(letter >= other for other, _, _ in runs[place + 1 :])"),
    edit("19: the place that of the cell", NINETEEN, NINETEEN.replace("Refused(19, place)", "Refused(19, sum(run[1] for run in runs[:place]))")),
    edit("19: the place of the item before", NINETEEN, NINETEEN.replace("Refused(19, place)", "Refused(19, max(0, place - 1))")),
    edit("19: counts before letters", NINETEEN, NINETEEN.replace(FAULT, "count == 0"), NINETEEN),
    edit("19: the last place", NINETEEN, "    for place, (letter, count, _) in reversed(list(enumerate(runs))):\n", NINETEEN.partition("\n")[2]),
    edit("19: not judged", NINETEEN, ""),
    edit("19: after 20", NINETEEN + TWENTY, TWENTY + NINETEEN),
    edit("20: before 4", FOUR + NINETEEN + TWENTY, TWENTY + FOUR + NINETEEN),
    edit("20: not judged", TWENTY, ""),
    edit("20: only where the counts add to more", TWENTY, TWENTY.replace("!=", ">")),
    edit("20: only where the counts add to less", TWENTY, TWENTY.replace("!=", "<")),
    edit("20: the last item's count left out", TWENTY, TWENTY.replace("in runs)", "in runs[:-1])")),
    edit("20: a sum cut to a byte", TWENTY, TWENTY.replace("in runs) != length", "in runs) % 256 != length % 256")),
    edit("20: a sum cut to 16 bits", TWENTY, TWENTY.replace("in runs) !=", "in runs) % 65536 !=")),
    edit("20: a sum of 1,024 at most", TWENTY, TWENTY.replace("sum(count for _, count, _ in runs)", "min(1024, sum(count for _, count, _ in runs))")),
    edit("20: L held against the number of items", TWENTY, TWENTY.replace("sum(count for _, count, _ in runs)", "len(runs)")),
    edit("20: the sum as its place", TWENTY, TWENTY.replace("Refused(20, 0)", "Refused(20, sum(count for _, count, _ in runs))")),
    edit("20: of an empty line passes", TWENTY, TWENTY.replace("if sum", "if runs and sum")),
    edit("2: of the counts in place of L", NUMBERS + FOUR, NUMBERS.replace("(length)", "(sum(count for _, count, _ in runs))") + FOUR),
    edit("2: of the counts too", NUMBERS + FOUR, NUMBERS + "    check_length(sum(count for _, count, _ in runs))\n" + FOUR),
    edit("2: of the number of items too", NUMBERS + FOUR, NUMBERS + "    check_length(len(runs))\n" + FOUR),
    edit("2: more than 64 items", NUMBERS + FOUR, NUMBERS + "    if len(runs) > 64:\n        raise Refused(2, 0)\n" + FOUR),
    edit("C read: 13 before 4", CHECKED, "    check_rank(rank)\n    check_length(length)\n", ROOM, CHECKED),
    edit("C read: 13 before 1", CHECKED, ROOM, CHECKED),
    edit("C read: 13 before 20", CHECKED, "    if length <= 1024:\n        check_runs(rank, sum(run[1] for run in runs), runs)\n    ", ROOM, CHECKED),
    edit("C read: room of the marks unchecked", ROOM, ROOM.replace(", marks", "")),
    edit("C read: room of the letters unchecked", ROOM, ROOM.replace(" letters,", "")),
    edit("C read: room for the items asked for", ROOM, ROOM.replace("length,", "len(runs),")),
    edit("C read: counts not given", READ, READ.replace("counts)", "[0] * 64)")),
    edit("C read: counts added to what was there", READ, "    was = counts[:]\n", READ.replace(
        "    return", "    counts[:] = [(a + b) % 65536 for a, b in zip(was, counts)]\n    return")),
    edit("C read: counts of the letters that occur alone given", READ, "    for letter, count, _ in runs:\n        counts[letter - 1] = count\n", READ.replace(
        "counts)", "[0] * 64)")),
    edit("C read: counts given without room", ROOM, "    for letter, count, _ in runs:\n        counts[letter - 1] = count\n", ROOM),
    edit("C read: letters written before 20 is judged", CHECKED, "    letters[: len(runs)] = [run[0] for run in runs][: len(letters)]\n", CHECKED),
    edit("C read: the element after the last cleared", READ, "    letters[length : length + 1] = [0] * (len(letters) > length)\n", READ),
    edit("C read: the number of items in place of the cells", READ, READ.replace("[rank, length]", "[rank, len(runs)]")),
    edit("C read: rank and number of cells exchanged", READ, READ.replace("[rank, length]", "[length, rank]")),
    edit("C written: 3, 5 and 6 not judged", WRITTEN, WRITTEN.replace("check_tableau(rank, letters, marks)", "check_word(rank, letters)")),
    edit("C written: 6 not judged", WRITTEN, WRITTEN.replace("marks)\n    return", "[0] * len(marks))\n    return")),
    edit("C written: 13 before 6", WRITTEN, "    check_tableau(rank, letters, [0] * len(marks))\n", room("run_line(rank, letters, [0] * len(marks))"), WRITTEN),
    edit("C written: room for the T line asked for", WRITTEN, "    check_tableau(rank, letters, marks)\n", room("tableau_line(rank, letters, marks)"), WRITTEN),
    edit("C written: without its line feed", WRITTEN, WRITTEN.replace("marks), out)", "marks)[:-1], out)")),
    edit("C line of a word: no step down", OF_WORD, OF_WORD.replace("rank, letters, marks", "rank, letters, [0] * len(marks)")),
    edit("C line of a word: its letters as they stand", OF_WORD, OF_WORD.replace("pair_of(word)", "list(word), [0] * len(word), 0")),
    edit("C line of a word: that of its column reading turned round", OF_WORD, OF_WORD.replace("pair_of(word)", "pair_of(word[::-1])")),
    edit("T to C: 5 and 6 not judged", TO_RUNS, "    tableau = scan_tableau(text)\n    check_word(*tableau[:2])\n    return write(run_line(*tableau), out)\n"),
    edit("T to C: the T line itself", TO_RUNS, "    check_tableau(*scan_tableau(text))\n    return write(bytes(text), out)\n"),
    edit("T to C: room for the T line asked for", TO_RUNS, "    check_tableau(*scan_tableau(text))\n", room("text"), TO_RUNS),
    edit("T to C: a C line passes", TO_RUNS, '    if bytes(text[:1]) == b"C":\n        return write(bytes(text), out)\n', TO_RUNS),
    edit("C to T: 20 not judged", TO_TABLEAU, TO_TABLEAU.replace("rank, length, runs", "rank, sum(count for _, count, _ in runs), runs")),
    edit("C to T: the C line itself", TO_TABLEAU, "    check_runs(rank, length, runs)\n    return write(bytes(text), out)\n"),
    edit("C to T: room for the C line asked for", TO_TABLEAU, "    check_runs(rank, length, runs)\n", room("text"), TO_TABLEAU),
    edit("C to T: a run as one cell", TO_TABLEAU, TO_TABLEAU.replace("*cells_of(runs)", "[run[0] for run in runs], [run[2] for run in runs]")),
]

# As a kernel does it: cells put before runs, from the last on; the checks by a tally of the items, with a sum of 1,025 at most.
PUT_BEFORE = """    runs = []
    for letter, mark in reversed(list(zip(letters, marks))):
        if runs and runs[0][0] == letter:
            runs[0] = (letter, runs[0][1] + 1, mark)
        else:
            runs.insert(0, (letter, 1, mark))
    return runs
"""
TALLIED = NUMBERS + """    inside = rising = items = last = total = 0
    for letter, count, _ in runs:
        inside += inside == items and 1 <= letter <= rank
        rising += rising == items and letter > last and count > 0
        items, last, total = items + 1, letter, min(1025, total + count)
    if inside < items:
        raise Refused(4, inside)
    if rising < items:
        raise Refused(19, rising)
    if total != length:
        raise Refused(20, 0)
"""

RIGHT = [
    edit("runs: cells put before runs", RUNS, PUT_BEFORE),
    edit("4, 19 and 20: by a tally of the items", JUDGED, TALLIED),
]

EDGES = [
    edit("C read: the byte after the text read", CHECKED, "    text[len(text)]\n", CHECKED),
    edit("C read: counts read, which are to be given", CHECKED, "    counts[0]\n", CHECKED),
    edit("C read: letters read, which are to be given", CHECKED, "    letters[0]\n", CHECKED),
    edit("C read: the mark after the last written with what it held", READ, "    marks[length] = marks[length]\n", READ),
    edit("C written: letters read before 2 is judged", WRITTEN, "    sum(letters)\n", WRITTEN),
    edit("C written: as many marks as letters read before 3", WRITTEN, "    check_word(rank, letters)\n    [marks[p] for p in range(len(letters))]\n", WRITTEN),
    edit("C line of a word: the letter after the last read", OF_WORD, "    word[len(word)]\n", OF_WORD),
    edit("C line of a word: the output read before the word is judged", "    check_word(rank, word)\n", "    out[0]\n    check_word(rank, word)\n"),
    edit("T to C: the byte after the text read", TO_RUNS, "    text[len(text)]\n", TO_RUNS),
    edit(
        "C to T: the output read after the needed bytes",
        TO_TABLEAU,
        TO_TABLEAU.replace("    return", "    out[len(tableau_line(rank, *cells_of(runs)))]\n    return"),
    ),
]
