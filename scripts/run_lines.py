"""Run form: C lines, written and read, and turned into T lines and back (document 02, N9), on plain lists and bytes.

A C line has rank and L, then for each different letter in rising order the letter and its count, with `r` or `d` between neighbours for the step into the
next letter. A letter with its count is one item. The items end at the line feed; L has no say in how many they are.

    python3 scripts/run_lines.py          computed lines and refusals; every small C text, broken ones too; every word of up to 6 letters over 1 to 3
"""
import re
from itertools import product

from checks import Refused, check_length, check_letters, check_rank, check_room, check_tableau, check_word
from class_numbers import tableaux_of
from lines import Scanner, line, scan_tableau, tableau_line, write
from ribbons import pair_of, put_tableau


def runs_of(letters, marks):
    """Letter, count and step of each different letter: the step is the mark of its first cell."""
    return [(letter, letters.count(letter), marks[letters.index(letter)]) for letter in sorted(set(letters))]


def cells_of(runs):
    """Letters and marks of the cells: the steps between equal letters go right."""
    letters = [letter for letter, count, _ in runs for _ in range(count)]
    marks = [step if place == 0 else 0 for _, count, step in runs for place in range(count)]
    return letters, marks


# ---- reading


def scan_runs(text):
    """Rank, L and the items of a C line. No step leads into the first."""
    scanner = Scanner(text)
    scanner.one_of("C")
    rank, length, runs = scanner.field(), scanner.field(), []
    while scanner.next() != "\n":
        if runs:
            scanner.one_of(",")
        step = "rd".index(scanner.one_of("rd")) if runs else 0
        letter, count = scanner.fields(2)
        runs.append((letter, count, step))
    scanner.end()
    return rank, length, runs


def check_runs(rank, length, runs):
    """1, 2 of L, 4, 19 and 20, each over all items before the next; a place is an item's."""
    check_rank(rank)
    check_length(length)
    check_letters(rank, [letter for letter, _, _ in runs])
    for place, (letter, count, _) in enumerate(runs):
        if count == 0 or place > 0 and letter <= runs[place - 1][0]:
            raise Refused(19, place)
    if sum(count for _, count, _ in runs) != length:
        raise Refused(20, 0)


def read_run_line(text, letters, marks, counts):
    """Gives rank and number of cells, and counts the letters."""
    rank, length, runs = scan_runs(text)
    check_runs(rank, length, runs)
    check_room(length, letters, marks)
    put_tableau(*cells_of(runs), letters, marks, counts)
    return [rank, length]


# ---- writing: each gives the number of bytes written


def run_line(rank, letters, marks):
    items = []
    for place, (letter, count, step) in enumerate(runs_of(letters, marks)):
        items += [letter, count] if place == 0 else ["rd"[step], letter, count]
    return line("C", [rank, len(letters)] + items)


def write_run_line(rank, letters, marks, out):
    check_tableau(rank, letters, marks)
    return write(run_line(rank, letters, marks), out)


def run_line_of_word(rank, word, out):
    check_word(rank, word)
    letters, marks, _ = pair_of(word)
    return write(run_line(rank, letters, marks), out)


def tableau_to_runs(text, out):
    """A T line turned into the C line of its tableau."""
    return write_run_line(*scan_tableau(text), out)


def runs_to_tableau(text, out):
    """A C line turned into the T line of its tableau."""
    rank, length, runs = scan_runs(text)
    check_runs(rank, length, runs)
    return write(tableau_line(rank, *cells_of(runs)), out)


# ---- computed: what is read off the request, what texts come back, and where a text breaks

# A text, `$` for its line feed, and number and place of its refusal; None where it is read, and comes back.
CASES = [
    ("C,4,4,2,1,d,3,2,d,4,1$", None), ("C,4,0$", None), ("C,4,1,3,1$", None), ("C,64,2,1,1,d,64,1$", None), ("C,4,1024,2,1024$", None),
    ("C,4,3$", (20, 0)), ("C,4,0,2,1$", (20, 0)), ("C,4,1024,2,1025$", (20, 0)), ("C,4,1023,2,1024$", (20, 0)), ("C,4,2,2,1$", (20, 0)),
    ("C,4,1,2$", (14, 7)), ("C,4,1,2,1", (14, 9)), ("C,4,1,2,1,$", (14, 10)), ("C,4,1,2,01$", (14, 9)), ("C,4,1,r,2,1$", (14, 6)),
    ("C,4,2,2,1,3,1$", (14, 10)), ("C,4,1,2,10000$", (14, 12)), ("C,4,1$$", (14, 6)), ("", (14, 0)), ("T,4,0$", (14, 0)), ("C,4,0$x", (14, 6)),
    ("C,4,2,2,1,d,2,1$", (19, 1)), ("C,4,2,3,1,d,2,1$", (19, 1)), ("C,4,9,2,1,d,2,1$", (19, 1)),
    ("C,4,2,2,0,d,3,2$", (19, 0)), ("C,4,2,2,2,d,3,0$", (19, 1)),
    ("C,4,2,5,0,d,2,1$", (4, 0)), ("C,4,2,2,0,d,5,1$", (4, 1)), ("C,0,2000,2,2$", (1, 0)), ("C,4,1025,2,1025$", (2, 0)),
    ("C,4,4,2,1" + ",r,2,1" * 2999 + "$", (19, 1)), ("C,4,1024,5,1" + ",d,2,1" * 2999 + "$", (4, 0)), ("C,4,1024,2,1" + ",d,5,0" * 2999 + "$", (4, 1)),
]

NUMBER = b"(?:0|[1-9][0-9]{0,3})"
LINE = re.compile(b"C,N,N(?:,N,N(?:,[rd],N,N)*)?\n".replace(b"N", NUMBER))
# Whatever goes on to a C line goes on so.
ENDINGS = [whole[at:] for whole in (b"C,1,0\n", b",r,1,1\n", b"1,1\n") for at in range(len(whole) + 1)]


def broken_at(text):
    """The length of the longest beginning that goes on to some C line; nothing where the text is one itself."""
    if LINE.fullmatch(text):
        return None
    return max(at for at in range(len(text) + 1) if any(LINE.fullmatch(text[:at] + ending) for ending in ENDINGS))


def read_back(text):
    """The values of a C text, once each way back from them has given the text itself; else the refusal, of the converter too."""
    letters, marks, counts, out = [0] * 1024, [0] * 1024, [0] * 64, [0] * 8192
    try:
        rank, length = read_run_line(text, letters, marks, counts)
    except Refused as refusal:
        try:
            assert not runs_to_tableau(text, out), text
        except Refused as other:
            assert (refusal.number, refusal.place) == (other.number, other.place), text
        return refusal.number, refusal.place
    assert bytes(out[: write_run_line(rank, letters[:length], marks[:length], out)[0]]) == text, text
    tableau = bytes(out[: runs_to_tableau(text, out)[0]])
    assert tableau == tableau_line(rank, letters[:length], marks[:length]), text
    assert bytes(out[: tableau_to_runs(tableau, out)[0]]) == text, text
    return None


def small_texts():
    """C lines of ranks 0 to 3 and L 0 to 4, with up to three items of letters 0 to 3 and counts 0 to 2."""
    runs = [",%d,%d" % both for both in product(range(4), range(3))]
    steps = [",r" + run for run in runs] + [",d" + run for run in runs]
    for rank, length in product(range(4), range(5)):
        for items in ([()], product(runs), product(runs, steps), product(runs, steps, steps)):
            yield from (("C,%d,%d" % (rank, length) + "".join(parts) + "\n").encode() for parts in items)


def broken_texts(text):
    """A text with one byte less, more or changed at each place, and each beginning of it."""
    for at in range(len(text) + 1):
        yield text[:at]
        yield text[:at] + text[at + 1 :]
        for byte in b"C,019rd\nT\xff":
            yield text[:at] + bytes([byte]) + text[at + 1 :]
            yield text[:at] + bytes([byte]) + text[at:]


def computed():
    for text, refused in CASES:
        assert read_back(text.replace("$", "\n").encode()) == refused, text
    letters = [letter for letter in range(1, 65) for _ in range(100 if letter > 60 else 10)]
    assert len(letters) == 1000 and len(run_line(64, letters, [0] * 1000)) == 515
    print("%d lines and refusals as the request has them, the longest line of 515 bytes" % len(CASES))


def small():
    replies = [read_back(text) for text in small_texts()]
    tableaux = [letters for rank, length in product((1, 2, 3), range(5)) for letters, _ in tableaux_of(rank, length)]
    assert replies.count(None) == sum(1 for letters in tableaux if all(letters.count(letter) < 3 for letter in letters))
    print("%d small C texts: %d come back byte for byte, as many as there are tableaux" % (len(replies), replies.count(None)))


def broken():
    texts = {other for text in (b"C,4,4,2,1,d,3,2,d,4,1\n", b"C,64,1024,10,1000,r,64,24\n", b"C,4,0\n", b"C,0,1,0,0\n") for other in broken_texts(text)}
    for text in texts:
        place, refused = broken_at(text), read_back(text)
        assert (refused is not None and refused[0] == 14) == (place is not None) and (place is None or refused == (14, place)), text
    print("%d texts one byte away from a C line: 14 where no line goes on, and nowhere else" % len(texts))


def words():
    both, found = set(), 0
    for length in range(7):
        for word in product((1, 2, 3), repeat=length):
            letters, marks, _ = pair_of(word)
            out = [0] * 64
            runs = bytes(out[: run_line_of_word(3, list(word), out)[0]])
            both.add((tableau_line(3, letters, marks), runs))
            assert runs == run_line(3, letters, marks) and read_back(runs) is None, word
            found += 1
    assert len(both) == len({tableau for tableau, _ in both}) == len({runs for _, runs in both})
    print("%d words of up to 6 letters over 1 to 3: %d T lines, and a C line for each" % (found, len(both)))


if __name__ == "__main__":
    for check in (computed, small, broken, words):
        check()
