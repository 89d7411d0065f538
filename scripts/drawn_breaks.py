"""Breaks by chance: each spoils one thing of an input, a dict from the names of the header's parameters to numbers and lists.

A break may leave an input valid where there is nothing to break (no letter in an empty word); the plain Python says what the reply is in every case.
Letter counts are drawn when all the rest is (drawn_inputs.py), and broken then. The values of C lines are broken in drawn_run_breaks.py.
"""
from checks import letter_counts
from class_numbers import size_of
from drawn_run_breaks import RUN_BREAKS
from drawn_values import FAR
from lent_memory import unpacked

# What stands before the names of a tableau's parts: nothing, or which of two factors it is, or of two tableaux that are compared.
FACTORS = ("", "first_", "second_")
TABLEAUX = [factor + part for factor in FACTORS for part in ("letters", "marks")]
PARTS = ["word", "first", "second", *TABLEAUX, "entries"]


def lists_of(input, names=PARTS):
    return [name for name in names if input.get(name) is not None]


def factor_of(draw, input):
    """One of two factors; nothing where there is one tableau."""
    return draw.one_of([factor for factor in FACTORS if factor + "letters" in input])


def break_rank(draw, input):
    """0, or above 64."""
    name = draw.one_of([name for name in ("rank", "first_rank", "second_rank") if name in input])
    input[name] = draw.one_of((0, 65, 66, draw.one_of(FAR)))


def break_length(draw, input):
    """More than 1,024 letters, or cells of two factors of one rank together; all parts of a ribbon alike, the cells after the first ones as the last."""
    if "used" in input:
        input["used"] = draw.one_of((1025, 1026, 1025 + draw.below(2000), draw.one_of([number for number in FAR if number > 1024])))
    names = lists_of(input)
    if "first" in names:
        names = [draw.one_of(names)]
    length = draw.one_of((1025, 1025, 1026, 1025 + draw.below(1000)))
    if "first_letters" in names:
        factor = factor_of(draw, input)
        if "rank" in input:
            length -= len(input["second_letters" if factor == "first_" else "first_letters"])
        names = [factor + "letters", factor + "marks"]
    for name in names:
        input[name] = input[name] + [input[name][-1] if input[name] else 1] * (length - len(input[name]))


def break_one_length(draw, input):
    """More than 1,024 cells, or more than 1,024 entries: of a T line and an N line, one alone."""
    length = draw.one_of((1025, 1025, 1025 + draw.below(1000)))
    for name in draw.one_of((["letters", "marks"], ["entries"])):
        input[name] = input[name] + [input[name][-1] if input[name] else 1] * (length - len(input[name]))


def break_parts(draw, input):
    """One part of a tableau or pair shorter or longer than the others; of used cells, a used count above one of them; a mark given to another factor."""
    name = draw.one_of(lists_of(input, [*TABLEAUX, "entries"]))
    values = input[name]
    if "first_marks" in input and input["first_marks"] and draw.below(4) == 0:
        input["second_marks"].insert(0, input["first_marks"].pop())
    elif "used" in input:
        if draw.below(2) and values:
            del values[draw.below(len(values)) :]
        else:
            input["used"] += 1 + draw.below(4) if draw.below(4) else draw.below(1025)
    elif draw.below(2) and values:
        del values[-1 - draw.below(min(3, len(values))) :]
    elif draw.below(20):
        values += [draw.one_of((0, 1, min(255, len(values) + 1)))] * (1 + draw.below(3))
    else:
        values += [1] * 1100


def break_letter(draw, input):
    """A letter 0 or above the rank; in insertion also the new one."""
    name = draw.one_of(lists_of(input, ("word", "first", "second", "letters", "first_letters", "second_letters")))
    rank = input.get(name.replace("_letters", "") + "_rank", input.get("rank", 64))
    if "letter" in input and draw.below(2):
        input["letter"] = draw.one_of((0, rank + 1, 256 + rank, draw.one_of(FAR)))
    elif input[name]:
        input[name][draw.below(len(input[name]))] = draw.one_of((0, min(255, rank + 1), 255, 128 + draw.below(128)))


def break_rising(draw, input):
    """A letter smaller than the one before it."""
    letters = input[factor_of(draw, input) + "letters"]
    places = [place for place in range(1, len(letters)) if letters[place - 1] > 1]
    if places:
        place = draw.one_of(places)
        letters[place] = 1 + draw.below(letters[place - 1] - 1)


def break_mark(draw, input):
    """A mark that is none, a step down into the first cell, or one between equals."""
    factor = factor_of(draw, input)
    letters, marks = input[factor + "letters"], input[factor + "marks"]
    if not marks:
        return
    equals = [place for place in range(1, min(len(letters), len(marks))) if letters[place] == letters[place - 1]]
    kind = draw.below(3)
    if kind == 0 and equals:
        marks[draw.one_of(equals)] = 1
    elif kind == 1:
        marks[0] = 1
    else:
        marks[draw.below(len(marks))] = draw.one_of((2, 3, 255, 128, 2 + draw.below(254)))


def break_both(draw, input):
    """One thing in each of two factors."""
    for factor in FACTORS[1:]:
        rank = input.get(factor + "rank", input.get("rank"))
        tableau = {"rank": rank, "letters": input[factor + "letters"], "marks": input[factor + "marks"]}
        draw.one_of((break_letter, break_rising, break_mark, break_parts))(draw, tableau)


def break_entry(draw, input):
    """An entry 0, above the number of cells, or met before."""
    entries = input["entries"]
    if entries:
        entries[draw.below(len(entries))] = draw.one_of((0, len(entries) + 1, 65535, 256, draw.one_of(entries), draw.one_of(entries), draw.below(65536)))


def break_step(draw, input):
    """Two entries exchanged, or one step turned, where letters rise."""
    letters, marks, entries = input["letters"], input["marks"], input["entries"]
    count = min(len(letters), len(marks), len(entries))
    if count < 2:
        return
    place = 1 + draw.below(count - 1)
    if draw.below(2) and letters[place] > letters[place - 1]:
        marks[place] = 1 - min(marks[place], 1)
    else:
        other = place - 1 if draw.below(2) else draw.below(count)
        entries[place], entries[other] = entries[other], entries[place]


def break_index(draw, input):
    """An index 0, the rank, or above it."""
    input["index"] = draw.one_of((0, input["rank"], input["rank"] + 1, 256 + input["index"], draw.one_of(FAR))) % 2**64


def break_many(draw, input):
    """More cells or letters than a class is counted of."""
    rank, length = min(64, max(1, input["rank"])), draw.one_of((21, 21, 22, 21 + draw.below(60), 1024))
    if "word" in input:
        input["word"] = draw.word(rank, length)
    else:
        input["letters"], input["marks"] = draw.tableau(rank, length)


def break_number(draw, input):
    """A number that is not below the size of the class: the size, or one that a cut to 32 bits would leave below it."""
    letters, marks = input["letters"], input["marks"]
    size = size_of(letters, marks) if len(letters) == len(marks) <= 20 else 1
    input["number"] = draw.one_of((size, size, size + 1, size + draw.below(1000), input["number"] + 2**63, 2**64 - 1))


def break_full(draw, input):
    """Insertion into 1,024 cells."""
    rank = min(64, max(1, input["rank"]))
    input["letters"], input["marks"], input["entries"] = draw.pair(rank, 1024)
    input["used"] = 1024


def break_empty(draw, input):
    """A window without a letter, whatever its lists hold."""
    input["used"] = 0


def break_counts(draw, letters, counts, input):
    """Counts that are not those of the letters: one of them wrong, often the first, the last or a letter's; one of a letter counted as of another; those of
    more letters, a new one or cells that are not in use; none; or any."""
    kind = draw.below(8)
    occurring = [letter for letter in letters if 1 <= letter <= 64] or [1]
    place = draw.one_of((0, 63, draw.below(64), draw.one_of(occurring) - 1, draw.one_of(occurring) % 64))
    if kind == 0 and len(input.get("letters", [])) > len(letters):
        counts[:] = letter_counts(input["letters"])
    elif kind == 1 and 1 <= input.get("letter", 0) <= 64:
        counts[input["letter"] - 1] += 1
    elif kind == 2:
        counts[:] = [0] * 64 if draw.below(2) else unpacked(2, draw.bytes(128))
    elif kind < 5:
        taken = draw.one_of(occurring) - 1
        counts[taken] = max(0, counts[taken] - 1)
        counts[draw.one_of((place, (taken + 1) % 64, taken - 1))] += 1
    else:
        count = counts[place]
        counts[place] = draw.one_of((count + 1, count + 1, abs(count - 1), 0, count + 256, 65535, 65535 - count, draw.below(65536)))


BREAKS = {
    "rank": break_rank, "length": break_length, "one length": break_one_length, "parts": break_parts, "letter": break_letter,
    "falling letter": break_rising, "mark": break_mark, "both factors": break_both, "entry": break_entry, "step": break_step, "index": break_index,
    "many cells": break_many, "number past the last": break_number, "full": break_full, "empty": break_empty, **RUN_BREAKS,
}
