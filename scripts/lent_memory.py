"""Memory that is lent to the library for one call, and seen whole afterwards.

All buffers of a call lie in one piece of memory with guard bytes before, between and after them, every byte of it drawn. Bytes are laid at any address,
16-bit entries at even ones. An empty buffer is a null pointer half of the time, and two `const` buffers of equal contents are now and then one.

Before and after that piece lies a page that can be neither read nor written. In every fourth call the first buffer begins where the one ends, in every
fourth the last buffer ends where the other begins, so that a read outside of it ends the program.
"""
import ctypes
import mmap
from array import array

PAGE = mmap.PAGESIZE
ROOM = 64 * PAGE


def packed(size, values):
    """Values as bytes; of a buffer that is claimed to be longer (fenced_memory.py), those that its memory holds."""
    values = getattr(values, "memory", values)
    return bytes(values) if size == 1 else array("H", values).tobytes()


def unpacked(size, content):
    return list(content) if size == 1 else array("H", bytes(content)).tolist()


class Piece:
    """A piece of memory between two pages that no call may touch, and what it must hold."""

    def __init__(self, content):
        self.whole = mmap.mmap(-1, len(content) + 2 * PAGE)
        start = ctypes.addressof(ctypes.c_char.from_buffer(self.whole))
        for page in (start, start + PAGE + len(content)):
            if ctypes.CDLL(None).mprotect(ctypes.c_void_p(page), ctypes.c_size_t(PAGE), 0) != 0:
                raise OSError("no page could be protected")
        self.address = start + PAGE
        self.expected = bytearray(content)
        self.put(0, content)

    def put(self, at, content):
        self.whole[PAGE + at : PAGE + at + len(content)] = content

    def held(self, at, size):
        return self.whole[PAGE + at : PAGE + at + size]

    def expect(self, at, content):
        """Notes what a part must hold from now on."""
        self.expected[at : at + len(content)] = content

    def as_expected(self):
        """Whether all of it holds what the calls had to leave in it, so that none of them wrote far from its buffers."""
        return self.held(0, len(self.expected)) == self.expected


class Laid:
    """One call's memory: what it held before the call, where it begins, where in it each argument's buffer lies, and what the library is passed."""

    script = "drawn.py"

    def __init__(self, image, base, spans):
        self.image = image
        self.base = base
        self.spans = spans
        self.passed = []

    def after(self, parameters, arguments):
        """What the memory must hold after the call, when the lent buffers hold these values."""
        image = bytearray(self.image)
        for parameter, values, span in zip(parameters, arguments, self.spans):
            if parameter.lent:
                image[span[0] : span[1]] = packed(parameter.size, values)
        return image

    def values(self, parameters, content):
        """The buffers in some content of the memory, as lists, with its count where it has more than its memory holds; numbers as they were passed."""
        passed, values = list(self.passed), []
        for parameter, span in zip(parameters, self.spans):
            first = passed.pop(0)
            if parameter.size:
                buffer, count = unpacked(parameter.size, content[span[0] : span[1]]), parameter.fixed or passed.pop(0)
                values.append(buffer if count == len(buffer) else (buffer, count))
            else:
                values.append(first)
        return values


class Memory:
    """The piece of memory that all calls use, one after the other, between two pages that no call may touch."""

    def __init__(self, draw):
        self.draw = draw
        self.pool = draw.bytes(2 * ROOM)
        self.piece = Piece(self.pool[:ROOM])

    def lay(self, function, arguments):
        """Lays the buffers of a call out, and fills the memory with what they hold."""
        draw, edge = self.draw, self.draw.below(4)
        spans, contents, shared, at = [], [], {}, 0
        for parameter, argument in zip(function.parameters, arguments):
            if not parameter.size:
                spans.append(None)
                continue
            content = packed(parameter.size, argument)
            span = shared.get((parameter.size, content)) if not parameter.lent and draw.below(4) == 0 else None
            if span is None:
                start = at + (0 if edge == 0 and at == 0 else 2 + draw.below(15))
                start += start % parameter.size
                at = start + len(content)
                span = start, at
                contents.append((span, content))
                if not parameter.lent:
                    shared[parameter.size, content] = span
            spans.append(span)
        if edge != 1:
            at += 2 + draw.below(15)
        at += at % max(parameter.size for parameter in function.parameters)
        start = draw.below(ROOM)
        image = bytearray(self.pool[start : start + at])
        for span, content in contents:
            image[span[0] : span[1]] = content
        laid = Laid(image, ROOM - at if edge == 1 else 0, spans)
        self.piece.put(laid.base, bytes(image))
        laid.passed = list(self.passed(laid, function.parameters, arguments))
        return laid

    def passed(self, laid, parameters, arguments):
        """The arguments as the library takes them."""
        for parameter, argument, span in zip(parameters, arguments, laid.spans):
            if span is None:
                yield argument
            else:
                yield self.piece.address + laid.base + span[0] if argument or self.draw.below(2) else None
                if not parameter.fixed:
                    yield len(argument)

    def held(self, laid):
        """What the memory of a call holds now."""
        return self.piece.held(laid.base, len(laid.image))

    def expect(self, laid, content):
        self.piece.expect(laid.base, content)

    def as_expected(self):
        return self.piece.as_expected()

    def spoil(self, laid, at, change):
        self.piece.whole[PAGE + laid.base + at] ^= change
