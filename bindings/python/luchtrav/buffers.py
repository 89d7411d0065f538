"""Integers as they lie in memory: array.array, memoryview, numpy arrays, and whatever else has the buffer protocol. Nothing here changes that memory.

A buffer must have one dimension and an integer format: b B h H i I l L q Q n N of the module `struct`, or ? for truth values, the low byte first. Its
elements may lie apart. They are copied out as bytes and cut to the wanted width many at a time, not one by one.
"""
from array import array
from typing import Any, Dict, List, Protocol, Sequence, Union

# The formats: whether an integer of each has a sign. The byte orders are those of the machine, told or not.
SIGNED = {order + code: code.islower() for order in ("", "@", "=", "<") for code in "bBhHiIlLqQnN?"}
TRUTHS = bytes([0] + [1] * 255)

# The code of `array` for integers of so many bytes, with a sign.
CODES = {1: "b", 2: "h", 4: "i", 8: "q"}


class Buffer(Protocol):
    """What has the buffer protocol, for type checkers."""

    def __buffer__(self, flags: int, /) -> memoryview: ...


class ArrayInterface(Protocol):
    """A numpy array, for type checkers whose notes on numpy tell nothing of buffers."""

    @property
    def __array_interface__(self) -> Dict[str, Any]: ...


# What callers hand over as letters, marks or entries.
Integers = Union[Sequence[int], Buffer, ArrayInterface]


def resized(content: bytes, size: int, width: int) -> bytearray:
    """Integers of `size` bytes as integers of `width` bytes: their high bytes cut off, or zeros put in their place."""
    cut = bytearray(len(content) // size * width)
    for byte in range(size if size < width else width):
        cut[byte::width] = content[byte::size]
    return cut


def fitted(content: bytes, size: int, signed: bool, width: int) -> Union[bytes, bytearray, List[int]]:
    """Integers of `size` bytes as unsigned ones of `width` bytes, or as a list of them where one does not fit."""
    # Of a wider integer the bytes that are cut off must be zeros, so that it is not negative either.
    if size > width or not signed or content[size - 1 :: size].isascii():
        cut = content if size == width else resized(content, size, width)
        if size <= width or resized(cut, width, size) == content:
            return cut
    code = CODES[size]
    return array(code if signed else code.upper(), content).tolist()


def from_buffer(values: Any, width: int) -> Union[bytes, bytearray, List[int], None]:
    """The integers of a buffer as unsigned ones of `width` bytes, low byte first, or as a list of them where one does not fit; None for what is no
    buffer. TypeError for a buffer of anything else."""
    try:
        view = memoryview(values)
    except TypeError:
        return None
    except (BufferError, ValueError) as error:
        raise TypeError("a buffer of integers is needed: %s" % error) from error
    if hasattr(values, "filled"):
        raise TypeError("a masked array would be read without its mask: fill or compress it first")
    with view:
        # In Python 3.8 and 3.9 an empty array of ctypes says that its elements have 0 bytes.
        kind, size = view.format, view.itemsize or width
        if view.ndim != 1 or kind not in SIGNED:
            raise TypeError(
                "a buffer of integers is needed, in one dimension and in the machine's byte order, not one of format %r with dimensions: %d"
                % (kind, view.ndim)
            )
        content = view.tobytes()
    return fitted(content.translate(TRUTHS) if kind[-1] == "?" else content, size, SIGNED[kind], width)
