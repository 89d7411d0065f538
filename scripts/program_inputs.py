"""The inputs of the crate cases: whole inputs of the program `ribbon`, each under the name of its file."""
from checks import Refused
from lines import word_line
from moves import move_word

# Document 01's checked words that the program can answer, with the words that their moves give.
CHECKED = [
    (4, "4323"), (7, "12446553275"), (4, ""), (4, "433"), (6, "243245565"), (3, "3113"), (3, "3123"), (3, "3131"), (3, "2131"), (3, "31"),
    (3, "21"), (4, "3243"), (4, "2334"), (6, "542164325224"), (6, "432143212111"), (3, "33"), (4, "4"), (4, "43"), (4, "432"),
]

# Words of the paper's section 4: the column readings of (4.2) and (4.3), that of the tableau of 433, and beginnings of 12446553275.
PAPER = [(7, "12432455657"), (7, "15632245547"), (4, "343"), (7, "1244"), (7, "1244655"), (7, "124465532"), (7, "1244655327")]

# The fields of a W line of three letters.
FIELDS = ["rank", "length", "first-letter", "middle-letter", "last-letter"]


def word_of(digits):
    return [int(digit) for digit in digits]


def component(rank, digits):
    """The words that lowering reaches from a word, itself among them: from a highest one, its whole component of the quasi-crystal graph."""
    found, new = [], [word_of(digits)]
    while new:
        found += new
        new = [word for word in lowered(rank, new) if word not in found]
    return found


def lowered(rank, words):
    """What one lowering move makes of some words, each result once."""
    results = []
    for word in words:
        for index in range(1, rank):
            result = list(word)
            try:
                move_word(False, rank, index, result)
            except Refused:
                continue
            if result not in results:
                results.append(result)
    return results


def with_field(name, text):
    """`W,4,3,4,3,2` with another text in one field."""
    fields = ["4", "3", "4", "3", "2"]
    fields[FIELDS.index(name)] = text
    return ",".join(["W"] + fields).encode("latin-1") + b"\n"


def answered():
    """Words that the program answers with three lines."""
    cases = {}
    for rank, digits in CHECKED:
        cases["checked-%s-rank-%d" % (digits or "empty", rank)] = word_line(rank, word_of(digits))
    for rank, digits in PAPER:
        cases["paper-%s-rank-%d" % (digits, rank)] = word_line(rank, word_of(digits))
    # The two components that the caption of Figure 3 names, found by lowering.
    for start in ("1212", "2121"):
        for word in component(4, start):
            cases["figure-3-below-%s-%s" % (start, "".join(map(str, word)))] = word_line(4, word)
    cases["rank-1-empty"] = word_line(1, [])
    cases["rank-1-one-letter"] = word_line(1, [1])
    cases["rank-1-five-letters"] = word_line(1, [1] * 5)
    cases["rank-64-least-letter"] = word_line(64, [1])
    cases["rank-64-largest-letter"] = word_line(64, [64])
    cases["rank-64-largest-and-least"] = word_line(64, [64, 1])
    cases["rank-64-all-letters-rising"] = word_line(64, list(range(1, 65)))
    cases["rank-64-all-letters-falling"] = word_line(64, list(range(64, 0, -1)))
    cases["rank-63-all-letters-falling"] = word_line(63, list(range(63, 0, -1)))
    cases["rank-64-gaps-between-letters"] = word_line(64, [40, 7, 64, 7, 22, 40, 1])
    cases["equal-letters-at-rank-4"] = word_line(4, [3, 3])
    cases["no-inversion-but-a-step-down"] = word_line(3, [3, 1])
    cases["length-1"] = word_line(9, [5])
    cases["length-1023-one-letter"] = word_line(9, [7] * 1023)
    cases["length-1023-cycle-of-nine"] = word_line(9, [1 + place % 9 for place in range(1023)])
    cases["length-1024-one-letter"] = word_line(1, [1] * 1024)
    cases["length-1024-cycle-of-nine"] = word_line(9, [9 - place % 9 for place in range(1024)])
    cases["length-1024-letters-of-two-digits"] = word_line(64, [10 + place * 37 % 55 for place in range(1024)])
    cases["length-1024-largest-letters"] = word_line(64, [64 - place // 512 for place in range(1024)])
    return cases


def judged():
    """Lines of the grammar that 1, 2 or 4 refuses, and the order of these checks."""
    cases = {}
    for rank in (0, 65, 100, 9999):
        cases["rank-%d-empty" % rank] = word_line(rank, [])
    cases["rank-0-letter-0"] = word_line(0, [0])
    cases["rank-65-letter-65"] = word_line(65, [65])
    cases["rank-260-letter-4"] = word_line(260, [4])
    for length in (1025, 1026, 1500):
        cases["length-%d" % length] = word_line(9, [1 + place % 9 for place in range(length)])
    cases["letter-outside-at-first-place"] = word_line(4, [5, 3, 2, 3])
    cases["letter-outside-at-middle-place"] = word_line(4, [4, 3, 5, 3])
    cases["letter-outside-at-last-place"] = word_line(4, [4, 3, 2, 5])
    cases["letter-0-at-first-place"] = word_line(4, [0, 3, 2, 3])
    cases["letter-0-at-middle-place"] = word_line(4, [4, 0, 2, 3])
    cases["letter-0-at-last-place"] = word_line(4, [4, 3, 2, 0])
    cases["letter-0-before-letter-5"] = word_line(4, [4, 0, 5, 3])
    cases["letter-5-before-letter-0"] = word_line(4, [4, 5, 0, 3])
    cases["letter-5-alone"] = word_line(4, [5])
    cases["letter-0-alone"] = word_line(4, [0])
    cases["letter-2-at-rank-1"] = word_line(1, [1, 2, 1])
    cases["letter-65-at-rank-64"] = word_line(64, [64, 65])
    cases["letter-257-is-no-1"] = word_line(4, [1, 257])
    cases["letter-9999"] = word_line(64, [9999])
    cases["letter-outside-at-place-1023"] = word_line(8, [1] * 1023 + [9])
    cases["rank-before-length"] = word_line(65, [1] * 1025)
    cases["rank-before-letter"] = word_line(0, [1])
    cases["length-before-letter"] = word_line(9, [0] + [1] * 1024)
    cases["length-before-last-letter"] = word_line(3, [1] * 1024 + [4])
    cases["rank-before-length-and-letter"] = word_line(99, [0] + [1] * 1024)
    cases["line-before-rank"] = b"W,99,2,3\n"
    cases["line-before-length"] = b"W,4,1025,1\n"
    cases["line-before-letter"] = b"W,4,2,9,x\n"
    cases["line-feed-missing-before-rank"] = b"W,65,1,1"
    return cases


def broken_fields():
    """Each fault of a field, at every field of the line."""
    faults = {
        "fifth-digit-at": "12345", "leading-zero-at": "03", "two-zeros-at": "00", "empty-field-at": "", "space-before": " 3", "space-after": "3 ",
        "plus-sign-at": "+3", "minus-sign-at": "-3", "quotes-at": '"3"', "letter-of-text-at": "x", "carriage-return-after": "3\r",
        "line-feed-in": "3\n", "zero-byte-at": "\0", "byte-above-127-at": "\xb3", "point-in": "3.0", "four-nines-at": "9999",
    }
    return {"%s-%s" % (fault, field): with_field(field, text) for fault, text in faults.items() for field in FIELDS}


def broken_lines():
    """Faults of the whole line, and inputs about as long as the program reads."""
    whole = b"W,4,3,4,3,2\n"
    cases = {"line-ends-after-%d-bytes" % length: whole[:length] for length in range(len(whole))}
    cases.update({
        "line-feed-only": b"\n", "kind-w-lower-case": b"w,4,1,3\n", "kind-t-line": b"T,4,4,2,d,3,r,3,d,4\n", "kind-n-line": b"N,4,3,2,4,1\n",
        "kind-p-line": b"P,4,4,2,d,3,r,3,d,4,3,2,4,1\n",
        "kind-j-line": b"J,6,3\n", "kind-e-line": b"E,14,0\n", "kind-quoted": b'"W",4,1,3\n', "kind-after-space": b" W,4,1,3\n",
        "kind-twice": b"WW,4,1,3\n", "kind-zero-byte": b"\0", "kind-byte-order-mark": b"\xef\xbb\xbfW,4,1,3\n", "semicolons": b"W;4;1;3\n",
        "items-none-of-two": b"W,4,2\n", "items-one-of-two": b"W,4,2,3\n", "items-three-of-two": b"W,4,2,3,3,3\n", "items-one-of-none": b"W,4,0,3\n",
        "comma-after-empty-word": b"W,4,0,\n", "comma-after-last-letter": b"W,4,1,3,\n", "item-after-last": b"W,4,1,3,2",
        "marks-between-letters": b"W,4,2,3,r,4\n", "second-line-feed": b"W,4,1,3\n\n", "second-line": b"W,4,1,3\nW,4,1,3\n",
        "zero-byte-after-line-feed": b"W,4,1,3\n\0", "space-after-line-feed": b"W,4,1,3\n ", "carriage-return-for-line-feed": b"W,4,1,3\r",
        "length-9999-one-letter": b"W,4,9999,3\n", "length-9999-no-letter": b"W,4,9999\n", "rank-left-out": b"W,1,3\n",
    })
    fits = word_line(64, [1] * 2043)
    assert len(fits) == 4096
    cases.update({
        "bytes-4096-length-2043": fits,
        "bytes-4096-broken-at-last": fits[:-1] + b"x",
        "bytes-4096-comma-for-line-feed": fits[:-1] + b",",
        "bytes-4096-ends-early": b"W,64,9999" + b",1" * 2043 + b",",
        "bytes-4096-broken-at-first": b"x" * 4096,
        "bytes-4096-line-feeds": b"\n" * 4096,
        "bytes-4096-after-a-line": word_line(4, [3]) + b"3" * 4088,
        "bytes-4097-one-after-a-line": fits + b"\n",
        "bytes-4097-line-length-2044": word_line(9, [1] * 2044),
        "bytes-4097-broken-at-first": b"x" * 4097,
        "bytes-4097-rank-0-line": word_line(0, [1] * 2044),
        "bytes-10000-zero-bytes": b"\0" * 10000,
        "bytes-10000-after-a-line": word_line(4, [3]) + b"\n" * 9992,
        "bytes-9000-letters-of-four-digits": (b"W,64,1798" + b",1234" * 1798 + b"\n").ljust(9000, b"\n"),
    })
    return cases


def program_inputs():
    """All of them, by name."""
    cases = {}
    for part in (answered(), judged(), broken_fields(), broken_lines()):
        assert not cases.keys() & part.keys()
        cases.update(part)
    return cases
