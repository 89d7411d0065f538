"""The program's output before document 02's N7, when it printed a T line and an N line where it prints a P line now: crates/cases/former, beside
crates/cases/stdout. In both stands the name of each case, and then what the program printed for it.
"""
import os

from checks import Refused
from header import ROOT
from lines import convert_lines
from operation_calls import table_of


def printed(file):
    """The lines of each case, by its name, in a file of crates/cases."""
    with open(os.path.join(ROOT, "crates", "cases", file), "rb") as opened:
        lines = opened.read().splitlines(keepends=True)
    cases = {}
    for line in lines:
        if line[1:2] != b",":
            case = cases[line[:-1].decode()] = []
        else:
            case.append(line)
    return cases


def accepted(case):
    return not case[0].startswith(b"E")


def cut(line):
    """A P line in two: rank, L and the T items as a T line, L and the N items as an N line."""
    kind, rank, count, *items = line[:-1].split(b",")
    cells = max(0, 2 * int(count) - 1)
    return [b",".join([b"T", rank, count] + items[:cells]) + b"\n", b",".join([b"N", count] + items[cells:]) + b"\n"]


def converted(tableau, recording):
    """What the plain converter gives for a T line and an N line; nothing where it refuses them."""
    out = [0] * (len(tableau) + len(recording))
    try:
        return bytes(out[: convert_lines(tableau, recording, out)[0]])
    except Refused:
        return b""


def halves():
    """Whether each P line is the former T line and the former N line, byte for byte, and what the converter gives for these, and all else as it was; and
    whether the table of operations asks the converter for the former lines."""
    former, now = printed("former"), printed("stdout")
    wrong = [name for name in former if name not in now]
    wrong += [name for name, case in now.items() if name not in former and accepted(case)]
    both = [(name, former[name], case) for name, case in now.items() if name in former]
    words = [(name, was, case) for name, was, case in both if accepted(was) and accepted(case)]
    wrong += [name for name, was, (pair, *rest) in words if not pair.startswith(b"P,") or cut(pair) + rest != was or converted(*was[:2]) != pair]
    refused = [(name, was, case) for name, was, case in both if not (accepted(was) and accepted(case))]
    wrong += [name for name, was, case in refused if was != case]
    asked = table_of()
    wrong += [call for call in former_calls() if call not in asked]
    for name in wrong:
        print("not as before: " + name)
    print(
        "%d P lines cut in two and compared with the former T and N lines, beside %d W and J lines and %d E lines: %d cases not as before"
        % (len(words), 2 * len(words), len(refused), len(wrong))
    )
    return not wrong


def former_calls():
    """The converter's calls on the former T and N lines of words of up to 64 letters, each with exactly the room for its P line."""
    cases = [case for case in printed("former").values() if accepted(case) and max(map(len, case)) <= 400]
    return [
        "convert_lines %s$ %s$ 35*%d" % (tableau[:-1].decode(), recording[:-1].decode(), len(converted(tableau, recording)))
        for tableau, recording, *_ in cases
    ]
