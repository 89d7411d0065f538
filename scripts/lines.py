"""Lines as bytes: the readers of W, T and P, the writers, the converter of a T line and an N line, and the program's whole output (document 01, "Lines",
"The program"; document 02, N7). C lines are in run_lines.py.

The place of 14 is the length of the longest beginning of the text that can still become a line of the kind. The scanner goes on byte by byte as
long as that is so, and raises 14 where it stands when the next byte cannot follow.
"""
from checks import Refused, check_length, check_pair, check_rank, check_room, check_tableau, check_word
from comparisons import junction_set, rows
from ribbons import pair_of, put, put_pair, put_tableau, reading


class Scanner:
    """A place in a text, and what may stand there."""

    def __init__(self, text):
        self.text = text
        self.at = 0

    def next(self):
        """The byte at the place as a text of one letter, or nothing at the end."""
        return chr(self.text[self.at]) if self.at < len(self.text) else ""

    def one_of(self, letters):
        """One byte out of several."""
        letter = self.next()
        if letter == "" or letter not in letters:
            raise Refused(14, self.at)
        self.at += 1
        return letter

    def number(self):
        """One to four digits without a leading zero. What follows is judged by whatever is due next."""
        digits = self.one_of("0123456789")
        while digits != "0" and len(digits) < 4 and self.next() != "" and self.next() in "0123456789":
            digits += self.one_of("0123456789")
        return int(digits)

    def field(self):
        """A comma and a number."""
        self.one_of(",")
        return self.number()

    def fields(self, count):
        """So many of them."""
        return [self.field() for _ in range(count)]

    def cells(self, count):
        """Letters and marks of so many cells. No step leads into the first."""
        letters, marks = [], []
        for place in range(count):
            if place > 0:
                self.one_of(",")
            marks.append(0 if place == 0 else "rd".index(self.one_of("rd")))
            letters.append(self.field())
        return letters, marks

    def end(self):
        """The line feed, and nothing after it."""
        self.one_of("\n")
        if self.at < len(self.text):
            raise Refused(14, self.at)


def scan_word(text):
    """Rank and letters of a W line."""
    scanner = Scanner(text)
    scanner.one_of("W")
    rank = scanner.field()
    letters = scanner.fields(scanner.field())
    scanner.end()
    return rank, letters


def scan_tableau(text):
    """Rank, letters and marks of a T line."""
    scanner = Scanner(text)
    scanner.one_of("T")
    rank = scanner.field()
    letters, marks = scanner.cells(scanner.field())
    scanner.end()
    return rank, letters, marks


def scan_pair(text):
    """Rank, letters, marks and entries of a P line: one L for the T items and for the N items after them."""
    scanner = Scanner(text)
    scanner.one_of("P")
    rank = scanner.field()
    count = scanner.field()
    letters, marks = scanner.cells(count)
    entries = scanner.fields(count)
    scanner.end()
    return rank, letters, marks, entries


def scan_recording(text, before):
    """The entries of an N line, whose bytes count on from those of the T line before it."""
    scanner = Scanner(text)
    try:
        scanner.one_of("N")
        entries = scanner.fields(scanner.field())
        scanner.end()
    except Refused as refusal:
        raise Refused(14, before + refusal.place)
    return entries


# ---- readers


def read_word_line(text, letters):
    """Gives rank and number of letters."""
    rank, word = scan_word(text)
    check_word(rank, word)
    check_room(len(word), letters)
    put(word, letters)
    return [rank, len(word)]


def read_tableau_line(text, letters, marks, counts):
    """Gives rank and number of cells, and counts the letters."""
    rank, new_letters, new_marks = scan_tableau(text)
    check_tableau(rank, new_letters, new_marks)
    check_room(len(new_letters), letters, marks)
    put_tableau(new_letters, new_marks, letters, marks, counts)
    return [rank, len(new_letters)]


def read_pair_line(text, letters, marks, entries, counts):
    """Gives rank and number of cells, and counts the letters."""
    rank, *pair = scan_pair(text)
    check_pair(rank, *pair)
    check_room(len(pair[0]), letters, marks, entries)
    put_pair(*pair, letters, marks, entries, counts)
    return [rank, len(pair[0])]


# ---- lines


def line(kind, values):
    return ",".join([kind] + [str(value) for value in values]).encode() + b"\n"


def word_line(rank, word):
    return line("W", [rank, len(word)] + word)


def cells_of(letters, marks):
    """The T items: letters with a step between neighbours."""
    cells = []
    for place, letter in enumerate(letters):
        if place > 0:
            cells.append("rd"[marks[place]])
        cells.append(letter)
    return cells


def tableau_line(rank, letters, marks):
    return line("T", [rank, len(letters)] + cells_of(letters, marks))


def pair_line(rank, letters, marks, entries):
    return line("P", [rank, len(letters)] + cells_of(letters, marks) + entries)


def recording_line(entries):
    """What old files have beside a T line. Nothing writes it."""
    return line("N", [len(entries)] + entries)


def junction_line(word):
    return line("J", [junction_set(word), rows(word)])


def refusal_line(number, place):
    return line("E", [number, place])


# ---- writers: each gives the number of bytes written


def write(written, out):
    check_room(len(written), out)
    return put(list(written), out)


def write_word_line(rank, word, out):
    check_word(rank, word)
    return write(word_line(rank, word), out)


def write_tableau_line(rank, letters, marks, out):
    check_tableau(rank, letters, marks)
    return write(tableau_line(rank, letters, marks), out)


def write_pair_line(rank, letters, marks, entries, out):
    check_pair(rank, letters, marks, entries)
    return write(pair_line(rank, letters, marks, entries), out)


def write_junction_line(rank, word, out):
    check_word(rank, word)
    return write(junction_line(word), out)


def write_refusal_line(number, place, out):
    return write(refusal_line(number, place), out)


def tableau_line_of_word(rank, word, out):
    check_word(rank, word)
    letters, marks, _ = pair_of(word)
    return write(tableau_line(rank, letters, marks), out)


def convert_lines(tableau_text, recording_text, out):
    """The P line of a T line and the N line beside it: 14 of the one, then of the other; 2 of either L, and 3 where they differ."""
    rank, letters, marks = scan_tableau(tableau_text)
    entries = scan_recording(recording_text, len(tableau_text))
    check_rank(rank)
    check_length(len(letters))
    check_length(len(entries))
    return write_pair_line(rank, letters, marks, entries, out)


# ---- the program


def program(text):
    """The whole output for the whole input."""
    try:
        if len(text) > 4096:
            raise Refused(14, 4096)
        rank, word = scan_word(text)
        check_word(rank, word)
    except Refused as refusal:
        return refusal_line(refusal.number, refusal.place)
    letters, marks, entries = pair_of(word)
    return pair_line(rank, letters, marks, entries) + word_line(rank, reading(letters, marks)) + junction_line(word)


def answer(text, out):
    return write(program(text), out)
