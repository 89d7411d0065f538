"""Wrong kernels: whether the drawn inputs would find them.

    python3 scripts/wrong_kernels.py         each edit in turn, until an input shows it; exit status 1 if one is never found

Each is the plain Python with one edit, put in the library's place: it reads the lent memory, replies, and writes. The plain Python without the edit
judges it, as drawn.py does the library. An edit is what goes wrong, the module, and the text that is exchanged, which stands there once. Beside EDITS a list
may have EDGES, which leave every reply and every byte as they must be where buffers are as long as they say: they only touch memory that they need not, or
were not lent, and are judged as in drawn_edges.py. RIGHT changes nothing: of these edits, and of none, nothing must be found.
"""
import ctypes
import os
import sys
import types

sys.dont_write_bytecode = True

import header
import wrong_checks
import wrong_classes
import wrong_comparisons
import wrong_counts
import wrong_lines
import wrong_moves
import wrong_pairs
import wrong_ribbons
import wrong_runs
import wrong_windows
from drawn import called
from drawn_edges import apart, calls
from drawn_inputs import drawn_input
from drawn_values import Draw
from fenced_memory import python_length
from lent_memory import Memory, packed, unpacked

LISTS = (
    wrong_checks, wrong_ribbons, wrong_moves, wrong_comparisons, wrong_classes, wrong_lines, wrong_counts, wrong_pairs, wrong_windows, wrong_runs,
)
EDITS, EDGES, RIGHT = ([edit for listed in LISTS for edit in getattr(listed, kind, [])] for kind in ("EDITS", "EDGES", "RIGHT"))
MOST = 1000000
MOST_RIGHT = 100000
MOST_EDGES = 300
MODULES = ("checks", "ribbons", "moves", "comparisons", "lines", "class_numbers", "windows", "run_lines", "replies")


def edited(module, old, new):
    """The module replies over those before it, one of them with an edit at the one place where its text stands. An edit may use every name of the modules
    before its own."""
    right, names = {name: sys.modules[name] for name in MODULES}, {}
    try:
        for name in MODULES:
            with open(os.path.join(header.ROOT, "scripts", name + ".py")) as file:
                text = file.read()
            if name == module:
                assert text.count(old) == 1, (name, old)
                text = text.replace(old, new)
            sys.modules[name] = made = types.ModuleType(name)
            made.__dict__.update(names)
            exec(compile(text, name, "exec"), made.__dict__)
            names.update((known, value) for known, value in vars(made).items() if not known.startswith("__"))
        return sys.modules["replies"]
    finally:
        sys.modules.update(right)


class Ended(Exception):
    """A wrong kernel ended by an error."""


class Elements:
    """Lent memory as a list whose elements are touched one by one where it stands, and outside of it too, as C would."""

    def __init__(self, size, address, count):
        self.size = size
        self.address = address or 0
        self.elements = count

    def __len__(self):
        return python_length(self.elements)

    def __iter__(self):
        return (self[at] for at in range(self.elements))

    def __getitem__(self, at):
        if isinstance(at, slice):
            return [self[place] for place in range(*at.indices(len(self)))]
        return int.from_bytes(ctypes.string_at(self.address + at * self.size, self.size), "little")

    def __setitem__(self, at, value):
        places, values = (range(*at.indices(len(self))), value) if isinstance(at, slice) else ([at], [value])
        for place, value in zip(places, values):
            ctypes.memmove(self.address + place * self.size, packed(self.size, [value % 256**self.size]), self.size)

    def __radd__(self, values):
        return values + list(iter(self))

    def count(self, value):
        return list(iter(self)).count(value)

    def index(self, value):
        return list(iter(self)).index(value)


def arguments_of(function, passed, buffer):
    """The arguments as the plain Python takes them, each buffer made of its size, address and count."""
    rest = list(passed)
    return [buffer(p.size, rest.pop(0), p.fixed or rest.pop(0)) if p.size else rest.pop(0) for p in function.parameters]


def in_its_place(function, replies):
    """What is called for a function of the library: the same arguments, the same kind of reply. Lent memory is read whole, and written back."""
    struct = type(function.name, (ctypes.Structure,), {"_fields_": [(field, ctypes.c_uint64) for field in function.fields]})

    def call(*passed):
        lent = []

        def read(size, address, count):
            values = unpacked(size, ctypes.string_at(address, count * size) if count else b"")
            lent.append((size, address, count, values))
            return values

        try:
            reply = struct(*replies.plain_reply(function, arguments_of(function, passed, read)))
        except NameError:
            raise  # a fault of the edit
        except Exception as error:
            raise Ended from error
        for parameter, (size, address, count, values) in zip([p for p in function.parameters if p.size], lent):
            if parameter.lent:
                ctypes.memmove(address, packed(size, [value % 256**size for value in values]), count * size)
        return reply

    return function._replace(call=call)


def over_memory(function, replies):
    """The same, over the elements where they stand."""
    struct = type(function.name, (ctypes.Structure,), {"_fields_": [(field, ctypes.c_uint64) for field in function.fields]})
    return function._replace(call=lambda *passed: struct(*replies.plain_reply(function, arguments_of(function, passed, Elements))))


def found_after(replies, seed, most=MOST):
    """The function in which a wrong kernel is found, and the number of inputs until then, or None."""
    functions = [in_its_place(function, replies) for function in header.functions_of(None).values()]
    draw = Draw(seed)
    memory = Memory(draw)
    for at in range(most):
        function = functions[at % len(functions)]
        arguments = drawn_input(draw, function)[1]
        try:
            found = called(function, memory, arguments)[1]
        except Ended:
            found = True
        if found:
            return function.name, at + 1
    return None


def failing(replies, seed):
    """The functions in which a wrong kernel touches memory that it need not, each found by calls in a process of its own."""
    functions = [over_memory(function, replies) for function in header.functions_of(None).values()]
    return [function.name for function in functions if apart(function, lambda note: calls(function, seed, MOST_EDGES, note))[1]]


def main():
    missed = 0
    for what, module, old, new in EDITS:
        found = found_after(edited(module, old, new), "wrong: " + what)
        print("%-70s %s" % (what, "found in %s after %d inputs" % found if found else "NOT FOUND"), flush=True)
        missed += found is None
    for what, module, old, new in EDGES:
        found = failing(edited(module, old, new), "wrong: " + what)
        print("%-70s %s" % (what, "found at the edge of memory in " + ", ".join(found) if found else "NOT FOUND"), flush=True)
        missed += not found
    print("%d wrong kernels, %d not found" % (len(EDITS) + len(EDGES), missed))
    for what, module, old, new in RIGHT:
        found = found_after(edited(module, old, new), "right: " + what, MOST_RIGHT)
        print("%s: %s" % (what, "FOUND in %s after %d inputs" % found if found else "nothing found in %d inputs" % MOST_RIGHT))
        missed += found is not None
    right = failing(edited(None, "", ""), "right")
    print("no edit: " + ("FOUND at the edge of memory in " + ", ".join(right) if right else "nothing found at the edge of memory"))
    sys.exit(1 if missed or right else 0)


if __name__ == "__main__":
    main()
