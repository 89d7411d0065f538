"""Breaks by chance of the values of a C line: rank, L ("length"), items ("runs"), each a list of letter, count and step, and which of them have a step before
them ("stepped"). As in drawn_breaks.py, a break may leave them valid."""


def cells(runs):
    return sum(count for _, count, _ in runs)


def break_length(draw, input):
    """An L above 1,024; half of the time the counts add to it."""
    input["length"] = draw.one_of((1025, 1025, 1026, 1025 + draw.below(1000), 9999))
    if input["runs"] and draw.below(2):
        draw.one_of(input["runs"])[1] += max(0, input["length"] - cells(input["runs"]))


def break_letter(draw, input):
    """An item whose letter is 0 or above the rank: also one that is a good letter when cut to a byte."""
    if input["runs"]:
        run = draw.one_of(input["runs"])
        run[0] = draw.one_of((0, input["rank"] + 1, 65, 255, 256 + run[0], 9999))


def break_item(draw, input):
    """An item whose letter is the one before it or smaller, or whose count is 0; often the first or the last."""
    runs = input["runs"]
    if not runs:
        return
    place, kind = draw.one_of((0, draw.below(len(runs)), draw.below(len(runs)), len(runs) - 1)), draw.below(3)
    if kind == 0 or place == 0:
        runs[place][1] = 0
    else:
        before = runs[place - 1][0]
        runs[place][0] = before if kind == 1 else max(1, before - 1 - draw.below(3))


def break_sum(draw, input):
    """Counts that do not add to L: one of the two a little larger or smaller, L the number of items, an item less or more, or counts that add to L when
    their sum is cut to 16 bits."""
    runs, length, kind = input["runs"], input["length"], draw.below(8)
    if kind == 0 and runs:
        del runs[draw.below(len(runs))]
    elif kind == 1 and runs and runs[-1][0] < input["rank"]:
        runs.append([input["rank"], draw.one_of((1, 1, 2, 1024)), draw.below(2)])
    elif kind == 2 and 8 <= input["rank"] <= 64:
        runs[:] = [[letter, 8192 + draw.below(2), draw.below(2)] for letter in range(1, 9)]
        input["length"] = cells(runs) - 65536
    elif kind < 5 and runs:
        run = draw.one_of((draw.one_of(runs), runs[-1]))
        run[1] = draw.one_of((run[1] + 1, run[1] + 1, max(1, run[1] - 1), run[1] + 256, run[1] + 1024, 9999))
    else:
        input["length"] = draw.one_of((length + 1, length + 1, max(0, length - 1), len(runs), 0, 1024, length + 256)) % 1025


def break_items(draw, input):
    """More items than there are letters, 65 or some more, one time in eight thousands: rising letters at first or none, then any, also outside the rank."""
    runs, rank = input["runs"], min(64, max(1, input["rank"]))
    many = 1000 + draw.below(2000) if draw.below(8) == 0 else draw.one_of((65, 65, 66, 65 + draw.below(200)))
    kind = draw.below(4)
    if kind < 2:
        runs[:] = [[letter, 1, 0] for letter in range(1, rank + 1)]
    while len(runs) < many:
        letter = min(9999, len(runs) + 1) if kind == 0 else rank if kind == 1 else 1 + draw.below(rank)
        runs.append([letter, draw.below(3) if kind == 3 else 1, draw.below(2)])
    if draw.below(3) == 0:
        draw.one_of((runs[-1], draw.one_of(runs)))[0] = draw.one_of((0, rank + 1))
    if draw.below(2):
        input["length"] = min(1024, cells(runs))


def break_steps(draw, input):
    """A step before the first item, or none before another."""
    if input["runs"]:
        input["stepped"] ^= {draw.one_of((0, draw.below(len(input["runs"]))))}


RUN_BREAKS = {
    "L above 1,024": break_length, "item's letter": break_letter, "item": break_item, "sum": break_sum, "many items": break_items,
    "item's step": break_steps,
}
