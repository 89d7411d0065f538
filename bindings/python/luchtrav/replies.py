"""The structs of include/luchtrav.h. Every reply begins with a number and a place; all fields have 64 bits."""
from ctypes import Structure, c_uint64


class Done(Structure):
    number: int
    place: int
    _fields_ = [("number", c_uint64), ("place", c_uint64)]


class Move(Done):
    changed: int
    _fields_ = [("changed", c_uint64)]


class Count(Done):
    count: int
    _fields_ = [("count", c_uint64)]


class Class(Done):
    same: int
    _fields_ = [("same", c_uint64)]


class Order(Done):
    order: int
    _fields_ = [("order", c_uint64)]


class Junction(Done):
    set: int
    rows: int
    _fields_ = [("set", c_uint64), ("rows", c_uint64)]


class Value(Done):
    value: int
    _fields_ = [("value", c_uint64)]


class Line(Done):
    rank: int
    count: int
    _fields_ = [("rank", c_uint64), ("count", c_uint64)]


class Cell(Done):
    found: int
    letter: int
    row: int
    column: int
    _fields_ = [("found", c_uint64), ("letter", c_uint64), ("row", c_uint64), ("column", c_uint64)]
