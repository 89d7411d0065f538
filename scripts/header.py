"""include/luchtrav.h as data: each function with its parameters, the fields of its reply and the numbers that it can refuse with, read from the
header's own text, and the library opened by it.

A buffer of the header is two parameters, a pointer and `.._count`; here it is one, with the bytes of an element and whether it is `const`. Letter counts
are a pointer alone; here they are a buffer whose number of elements is fixed.
"""
import ctypes
import os
import re
from collections import namedtuple

ROOT = os.path.dirname(os.path.dirname(os.path.abspath(__file__)))
HEADER = os.path.join(ROOT, "include", "luchtrav.h")
LIBRARY = os.path.join(ROOT, "target", "library", "libluchtrav.so")

# size: bytes of an element, 0 for a number. lent: whether the memory is lent for writing. fixed: how many elements there always are, 0 where that is told.
Parameter = namedtuple("Parameter", "name size lent fixed")
Function = namedtuple("Function", "name parameters fields refusals call")

SIZES = {"uint8_t": 1, "uint16_t": 2}
COUNTS = 64


def fields_of(text):
    """The fields of each struct. All have 64 bits."""
    structs = {}
    for body, name in re.findall(r"typedef struct \{(.*?)\} (\w+);", text, re.S):
        declared = re.findall(r"(?:size_t|uint64_t) ([\w, ]+);", body)
        structs[name] = [field for names in declared for field in names.split(", ")]
    return structs


def parameters_of(text):
    """The parameters of one function."""
    parameters, parts = [], [" ".join(part.split()) for part in text.split(",")]
    while parts:
        part = parts.pop(0)
        buffer = re.fullmatch(r"(const )?(\w+) \*(\w+)", part)
        if buffer:
            const, element, name = buffer.groups()
            fixed = COUNTS if name.endswith("counts") else 0
            assert fixed or parts.pop(0) == "size_t %s_count" % name, part
            parameters.append(Parameter(name, SIZES[element], not const, fixed))
        else:
            parameters.append(Parameter(re.fullmatch(r"(?:size_t|uint64_t) (\w+)", part)[1], 0, False, 0))
    return parameters


def types_of(parameter):
    """The types of a parameter as the library takes it."""
    return [ctypes.c_void_p] if parameter.fixed else [ctypes.c_void_p, ctypes.c_size_t] if parameter.size else [ctypes.c_size_t]


def refusals_of(text):
    """The numbers of each function, in the order of its checks: what the comment above it says after 'Refuses'."""
    above = re.findall(r"Refuses ([\d ]+|nothing)[^*]*\*/\nluchtrav_\w+ luchtrav_(\w+)\(", text)
    return {name: [int(number) for number in said.replace("nothing", "").split()] for said, name in above}


def version():
    """LUCHTRAV_VERSION, which stands in the header alone."""
    with open(HEADER) as file:
        return re.search(r'^#define LUCHTRAV_VERSION "(.*)"$', file.read(), re.M)[1]


def functions_of(library):
    """The header's functions by name, each to be called in the library: a path, or nothing for a header without its library."""
    with open(HEADER) as file:
        text = file.read()
    refusals, text = refusals_of(text), re.sub(r"/\*.*?\*/", "", text, flags=re.S)
    structs = fields_of(text)
    opened = ctypes.CDLL(library) if library else None
    functions = {}
    for struct, name, inside in re.findall(r"(luchtrav_\w+) luchtrav_(\w+)\(([^)]*)\);", text):
        parameters, call = parameters_of(inside), None
        if opened:
            call = getattr(opened, "luchtrav_" + name)
            call.restype = type(struct, (ctypes.Structure,), {"_fields_": [(field, ctypes.c_uint64) for field in structs[struct]]})
            call.argtypes = [kind for parameter in parameters for kind in types_of(parameter)]
        functions[name] = Function(name, parameters, structs[struct], refusals[name], call)
    return functions
