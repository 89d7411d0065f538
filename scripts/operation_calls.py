"""The table of the crate operations: one call to a line, its notation, and what each call must print.

A line has the operation's name, its numbers, then its lists, parted by single spaces; but for that their order is the header's. A list is items parted by
commas, an item a number, `v*k` for k times v, or `a-b` for the numbers from a to b; `-` is the empty list. A text stands as it is, with `$` for the line
feed and `(t)*k` for k times t; `-` is the empty text. Letter counts are a list of up to 64 numbers, to which as many 0 are added as are missing. What came of
the call follows after ` = `, and each lent list as it is afterwards after ` | `; of counts every number up to the last that is not 0, or `v*64` where all are
equal.

The table has for each operation the documents' checked words, one call at least for each refusal number, each refusal that has a place at a first, a middle and
a last one, the order of the checks, and outputs longer than needed and too short by one. At the end of the calls on words, of
those on tableaux and of those on C lines stands one of no operation.
"""
import os
import re

import header
from checks import Refused
from replies import OPERATIONS

FUNCTIONS = header.functions_of(None)
# The kernel's name for what the header calls otherwise; of a cell that is not there it gives nothing, of one that is there only the cell.
FUNCTIONS["look_once"] = FUNCTIONS.pop("look")


def table_of():
    """The calls of the table."""
    with open(os.path.join(header.ROOT, "crates/operations/data/table")) as file:
        return file.read().splitlines()


def item(text):
    if "*" in text:
        value, times = text.split("*")
        return [int(value)] * int(times)
    if "-" in text:
        first, last = text.split("-")
        return list(range(int(first), int(last) + 1))
    return [int(text)]


def argument(parameter, text):
    if not parameter.size:
        return int(text)
    if parameter.name.endswith("text"):
        return b"" if text == "-" else re.sub(r"\((.*?)\)\*(\d+)", lambda group: group[1] * int(group[2]), text).replace("$", "\n").encode()
    values = [] if text == "-" else [value for part in text.split(",") for value in item(part)]
    return values + [0] * (parameter.fixed - len(values))


def checksum(values):
    """The sum of place times element, places from 1, mod 65536."""
    return sum(place * value for place, value in enumerate(values, 1)) % 65536


def shown_list(values):
    if not values:
        return "-"
    if len(values) > 16 and len(set(values)) == 1:
        return "%d*%d" % (values[0], len(values))
    if len(values) > 16:
        return ",".join(map(str, values[:8])) + "..%d:%d" % (len(values), checksum(values))
    return ",".join(map(str, values))


def shown_counts(values):
    """Every number up to the last that is not 0; one where all are equal."""
    if len(set(values)) == 1:
        return "%d*%d" % (values[0], len(values))
    last = max(place for place, value in enumerate(values) if value != 0)
    return ",".join(map(str, values[: last + 1]))


def shown_text(values):
    """Bytes as they are, `$` for the line feed; of more than 64 the first 32, then length and checksum."""
    if not values:
        return "-"
    text = bytes(values[:32] if len(values) > 64 else values).decode().replace("\n", "$")
    return text + ("..%d:%d" % (len(values), checksum(values)) if len(values) > 64 else "")


def shown(parameter, values):
    return (shown_counts if parameter.fixed else shown_text if parameter.name == "out" else shown_list)(values)


def gives(function, arguments):
    """The values that an operation gives."""
    values = OPERATIONS[function.name](*arguments) or []
    return values[1:] * values[0] if function.name == "look" else values


def came_of(call):
    """The line that the program prints for a line of the table."""
    name, *texts = call.split(" ")
    if name not in FUNCTIONS:
        return call + " = unknown\n"
    parameters = FUNCTIONS[name].parameters
    assert len(parameters) == len(texts), call
    given = dict(zip(sorted(parameters, key=lambda parameter: parameter.size > 0), texts))
    arguments = [argument(parameter, given[parameter]) for parameter in parameters]
    try:
        came = " ".join(["gives"] + [str(value) for value in gives(FUNCTIONS[name], arguments)])
    except Refused as refusal:
        came = "refused %d %d" % (refusal.number, refusal.place)
    lent = [shown(parameter, values) for parameter, values in zip(parameters, arguments) if parameter.lent]
    return call + " = " + " | ".join([came] + lent) + "\n"
