"""Finds the shared library, and makes a Python call of each line of the table."""

import array
import ctypes
import operator
import os

from ._refused import Refused
from ._table import CALLS


class Joined(ctypes.Structure):
    """struct pw_joined."""

    _fields_ = [
        ("x_low", ctypes.c_uint16),
        ("y_low", ctypes.c_uint16),
        ("x_high", ctypes.c_uint16),
        ("y_high", ctypes.c_uint16),
        ("partner", ctypes.c_size_t),
    ]


KINDS = {
    "u8": ctypes.c_uint8,
    "u16": ctypes.c_uint16,
    "u32": ctypes.c_uint32,
    "i32": ctypes.c_int32,
    "size": ctypes.c_size_t,
    "joined": Joined,
}


def room(kind, length):
    """A buffer of that many elements, all 0, as a call takes it: the memory and its length. The memory has an element
    also where the length is 0, since no pointer may be null."""
    return (KINDS[kind] * max(length, 1))(), length


def numbers(values):
    """Numbers of 16 bits as a call reads them."""
    try:
        held = array.array("H", values)
    except OverflowError:
        wrong = next(v for v in values if not 0 <= v <= 65535)
        raise ValueError(f"{wrong} is not 0 to 65535") from None
    memory, length = room("u16", len(held))
    ctypes.memmove(memory, held.tobytes(), 2 * length)
    return memory, length


def octets(data):
    """Bytes, or anything that holds some, as a call reads them."""
    held = bytes(memoryview(data))
    memory, length = room("u8", len(held))
    ctypes.memmove(memory, held, length)
    return memory, length


def by_value(name, kind, value):
    """A number that is handed over by value: ctypes itself would let a number that does not fit wrap round."""
    value = operator.index(value)
    most = 2 ** (8 * ctypes.sizeof(KINDS[kind])) - 1
    if not 0 <= value <= most:
        raise ValueError(f"{name}: {value} is not 0 to {most}")
    return value


class Call:
    """One call. It takes, in the order of its line, numbers by value and memory with its length, and gives the numbers
    that the call tells, in theirs; a refusal is raised."""

    def __init__(self, name, line, function):
        self.name = name
        self.taken = []
        self.told = []
        types = []
        for word in line.split():
            parameter, kind = word.split(":")
            if kind[0] in "*+":
                self.taken.append((parameter, kind[0], kind[1:]))
                types += [ctypes.POINTER(KINDS[kind[1:]]), ctypes.c_size_t]
            elif kind[0] == ">":
                self.told.append((parameter, KINDS[kind[1:]]))
                types.append(ctypes.POINTER(KINDS[kind[1:]]))
            else:
                self.taken.append((parameter, "", kind))
                types.append(KINDS[kind])
        self.function = function
        function.restype = ctypes.c_uint32
        function.argtypes = types

    def __call__(self, *given):
        if len(given) != len(self.taken):
            raise TypeError(f"{self.name} takes {len(self.taken)} arguments, not {len(given)}")
        words = []
        for (parameter, mark, kind), value in zip(self.taken, given):
            words += value if mark else [by_value(parameter, kind, value)]
        told = [kind() for _, kind in self.told]
        refusal = self.function(*words, *map(ctypes.byref, told))
        values = [number.value for number in told]
        if refusal:
            named = dict(zip((name for name, _ in self.told), values))
            raise Refused(refusal, self.name, named.get("offset"), named.get("shots", 0))
        return values


def places():
    """Where the library is looked for, in this order."""
    named = os.environ.get("PINAREWHEMI_LIBRARY")
    if named:
        yield named
        return
    # beside this file; in the package that ./build made in this repository; where the system keeps libraries
    here = os.path.dirname(os.path.realpath(__file__))
    yield os.path.join(here, "libpinarewhemi.so")
    if here.count(os.sep) > 2:
        root = os.path.dirname(os.path.dirname(os.path.dirname(here)))
        yield os.path.join(root, "target", "package", os.uname().machine, "lib", "libpinarewhemi.so")
    # loaded where it is needed: it takes longer than all the rest
    import ctypes.util

    yield ctypes.util.find_library("pinarewhemi") or "libpinarewhemi.so"


def load():
    """The library that was found first: its place, and its calls by their names in C."""
    tried = []
    for place in places():
        if os.sep in place and not os.path.exists(place):
            tried.append(f"{place}: there is none")
            continue
        try:
            library = ctypes.CDLL(place)
        except OSError as fault:
            tried.append(f"{place}: {fault}")
            continue
        calls = {name: Call(name, line, getattr(library, name)) for name, line in CALLS.items() if hasattr(library, name)}
        if "pw_fracture" in calls:
            return place, calls
        tried.append(f"{place}: it has no pw_fracture")
    raise ImportError("no libpinarewhemi.so (./build makes it, PINAREWHEMI_LIBRARY names it):\n  " + "\n  ".join(tried))
