"""The exception that stands for every refusal of the kernel, and what its numbers mean."""
from typing import Dict, Optional

# What each number says, word for word as luchtrav_refusal_text of include/luchtrav.h.
MEANINGS: Dict[int, str] = {
    1: "rank is not 1 to 64",
    2: "more than 1,024 letters, cells or entries",
    3: "parts of one tableau or pair differ in length, or end before the used count",
    4: "letter outside 1 to rank",
    5: "letter smaller than the one before it in the ribbon",
    6: "mark not 0 or 1, first mark not 0, or a step down between equal letters",
    7: "entry 0, above the number of cells, or met before",
    8: "entry that rises at a step down or falls at a step right",
    9: "move index not 1 to rank - 1",
    10: "move undefined by an inversion",
    11: "no inversion, and no letter to change",
    12: "insertion into 1,024 cells",
    13: "an output is too short",
    14: "byte that breaks the grammar of the line, or a line that ends early",
    15: "more than 20 cells or letters, where a class is counted",
    16: "number not below the size of the class",
    17: "count that is not how often its letter occurs",
    18: "departure from an empty window",
    19: "item with a letter not above the one before it, or with the count 0",
    20: "counts that do not add to the number of cells",
}


def shown(value: int) -> str:
    """A number in decimal, and of one that has more than 64 bits how many: Python prints no number of many thousand digits."""
    bits = value.bit_length()
    return str(int(value)) if bits <= 64 else "a number of %d bits" % bits


class Refusal(ValueError):
    """The kernel refused an input.

    number      why: luchtrav.MEANINGS has the meaning of each
    place       where; places count from 0
    function    the name of the function that refused
    value       the letter, mark, entry or count at the place, as the caller gave it, where 4 to 8 or 17 refuse a word, a tableau, a pair or a recording
                ribbon; else, and where a line was read, None

    Two refusals are equal when number and place are: `refusal == Refusal(4, 2)`.
    """

    number: int
    place: int
    function: str
    value: Optional[int]

    def __init__(self, number: int, place: int, function: str = "", value: Optional[int] = None) -> None:
        super().__init__(number, place, function, value)
        self.number = number
        self.place = place
        self.function = function
        self.value = value

    def __eq__(self, other: object) -> bool:
        if not isinstance(other, Refusal):
            return NotImplemented
        return (self.number, self.place) == (other.number, other.place)

    def __hash__(self) -> int:
        return hash((self.number, self.place))

    def __str__(self) -> str:
        function = self.function + ": " if self.function else ""
        value = "" if self.value is None else " (%s)" % shown(self.value)
        return "%srefusal %d at place %d: %s%s" % (function, self.number, self.place, MEANINGS.get(self.number, "no such number"), value)
