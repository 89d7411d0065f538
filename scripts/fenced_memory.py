"""Memory for one call in which each buffer lies alone between two pages that can be neither read nor written, and buffers that are claimed to be longer
than their memory is.

A buffer ends where the page after it begins, or begins where the page before it ends, so that a read or a write outside of it ends the program.
"""
import sys

from lent_memory import PAGE, Laid, Piece, packed

ROOM = 8 * PAGE
MOST_BUFFERS = 9


class NotThere(Exception):
    """An element of a claimed buffer is wanted for which no memory is promised."""


def python_length(count):
    """A count of 64 bits as a length, which has 63 in Python: a larger one is halved. Those that are drawn stay different."""
    return count if count <= sys.maxsize else count // 2


class Claimed:
    """A buffer with a count above what its memory holds. Only its first elements can be taken, as insertion takes its used cells, or filled, as outputs are."""

    def __init__(self, memory, count):
        self.memory = list(memory)
        self.count = count

    def __len__(self):
        return python_length(self.count)

    def __iter__(self):
        raise NotThere

    def first(self, part):
        if not isinstance(part, slice) or part.start is not None or part.step is not None or part.stop > len(self.memory):
            raise NotThere
        return part

    def __getitem__(self, part):
        return self.memory[self.first(part)]

    def __setitem__(self, part, values):
        self.memory[self.first(part)] = values


def memory_of(buffer):
    """The elements that are there."""
    return buffer.memory if isinstance(buffer, Claimed) else buffer


def count_of(buffer):
    """How many elements the library is told."""
    return buffer.count if isinstance(buffer, Claimed) else len(buffer)


class LaidApart(Laid):
    """One call's memory, its parts one after the other: of each buffer the piece it lies in, and where the part with its guard bytes begins and ends."""

    script = "drawn_edges.py"

    def __init__(self):
        super().__init__(bytearray(), 0, [])
        self.parts = []

    def add(self, piece, base, content, guard, at_end):
        """A part of a piece: guard bytes before the content, or after it."""
        start = len(self.image) + (len(guard) if at_end else 0)
        part = guard + content if at_end else content + guard
        piece.put(base, part)
        self.spans.append((start, start + len(content)))
        self.parts.append((piece, base, base + len(part)))
        self.image += part


class Fenced:
    """A piece of memory for each buffer of a call. Where `at_end` is not told, it is drawn for each buffer whether it lies at its piece's end."""

    def __init__(self, draw, at_end=None):
        self.draw = draw
        self.at_end = at_end
        self.pieces = [Piece(draw.bytes(ROOM)) for _ in range(MOST_BUFFERS)]

    def lay(self, function, arguments):
        """Lays the buffers of a call out, each in its piece, and fills the memory with what they hold."""
        laid, pieces = LaidApart(), iter(self.pieces)
        for parameter, argument in zip(function.parameters, arguments):
            if not parameter.size:
                laid.spans.append(None)
                laid.passed.append(argument)
                continue
            piece, content, guard = next(pieces), packed(parameter.size, argument), self.draw.bytes(2 * self.draw.below(9))
            at_end = self.draw.below(2) if self.at_end is None else self.at_end
            assert len(content) + len(guard) <= ROOM
            laid.add(piece, ROOM - len(content) - len(guard) if at_end else 0, content, guard, at_end)
            address = piece.address + (ROOM - len(content) if at_end else 0)
            count = count_of(argument)
            laid.passed += [address if count or self.draw.below(2) else None] + ([] if parameter.fixed else [count])
        return laid

    def held(self, laid):
        return b"".join(piece.held(start, end - start) for piece, start, end in laid.parts)

    def expect(self, laid, content):
        for piece, start, end in laid.parts:
            piece.expect(start, content[: end - start])
            content = content[end - start :]

    def as_expected(self):
        return all(piece.as_expected() for piece in self.pieces)
