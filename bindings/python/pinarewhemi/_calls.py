"""Each call with lists in and plain objects out. Buffers are as large as the calls' own limits, so that 6, 7 and 14
do not come; every other refusal is raised as Refused."""

from __future__ import annotations

from typing import Iterable, List, NamedTuple, Optional, Sequence, Tuple

from . import _library
from ._table import ROOMS

Corner = Tuple[int, int]
Ring = Sequence[Corner]
Figure = Iterable[Ring]


class Rule(NamedTuple):
    """Threshold in nm, weight in thousandths of a shot for each nm of sliver length."""

    threshold: int
    weight: int


class Shot(NamedTuple):
    """A rectangle, in nm."""

    x_low: int
    y_low: int
    x_high: int
    y_high: int


class Fracture(NamedTuple):
    """What a fracture answers: the shots in their order, their cost in thousandths of a shot, their sliver length in
    nm, the cuts weighed; and, where they were asked for, the costs of all pieces as the table has them."""

    shots: List[Shot]
    cost: int
    sliver: int
    cuts: int
    costs: Optional[List[int]] = None


class Number(NamedTuple):
    """A number of a job, and the place behind it."""

    value: int
    next: int


class Header(NamedTuple):
    """What the header of a sound job says."""

    threshold: int
    weight: int
    outlines: int


class Part(NamedTuple):
    """The bytes of one outline, and where in the job they start."""

    start: int
    data: bytes


class Job(NamedTuple):
    """A whole job: its rule and its figures, each a list of rings, each a list of corners."""

    threshold: int
    weight: int
    figures: List[List[List[Corner]]]


class Boundary(NamedTuple):
    """The ring of a GDSII boundary, moved to 0; shift plus corner gives back each point."""

    corners: List[Corner]
    shift_x: int
    shift_y: int


class Plate(NamedTuple):
    """The fracture of a GDSII boundary by preset 0; the shots are moved as the corners are."""

    shots: List[Shot]
    cost: int
    sliver: int
    cuts: int
    shift_x: int
    shift_y: int


class Joining(NamedTuple):
    """For each shot of a list its partner's number, or its own where it has none; and how many flashes they take."""

    partners: List[int]
    flashes: int


class Run(NamedTuple):
    """A stretch of an edge, from low to high along it: the shot that it ends up on, from 1 (0: none), and the side of the
    figure: 1 left, 2 right, 3 bottom, 4 top, 0 no wall."""

    low: int
    high: int
    shot: int
    side: int


class Indexed(NamedTuple):
    """A job, and where each of its outlines starts."""

    job: bytes
    index: List[int]


class Salvaged(NamedTuple):
    """A sound job of the outlines before the first fault: how many were kept, how many of those declared were lost, and
    how many bytes were dropped."""

    job: bytes
    kept: int
    lost: int
    dropped: int


LIBRARY, CALLS = _library.load()

# The names of this module that its library has the calls for.
__all__ = ["Boundary", "Fracture", "Header", "Indexed", "Job", "Joining", "Number", "Part", "Plate", "Rule", "Run"]
__all__ += ["Salvaged", "Shot"]
LACKING = {}


def _over(*names):
    """A function over these calls of the library: offered where it has all of them."""

    def offered(function):
        lacks = [name for name in names if name not in CALLS]
        if lacks:
            LACKING[function.__name__] = lacks
        else:
            __all__.append(function.__name__)
        return function

    return offered


def _room(kind, limit):
    return _library.room(kind, ROOMS[limit])


def _figure(figure):
    """Corners and ring lengths as the calls take them. A ring with more corners than the length has bits for is as bad as
    one of 65535, and is refused as that."""
    corners, lengths = [], []
    for number, ring in enumerate(figure):
        count = 0
        for corner in ring:
            x, y = corner
            if not (0 <= x <= 65535 and 0 <= y <= 65535):
                raise ValueError(f"ring {number}, corner {count}: ({x}, {y}) is not within 0 to 65535")
            corners += (x, y)
            count += 1
        lengths.append(min(count, 65535))
    return _library.numbers(corners), _library.numbers(lengths)


def _flat(shots):
    """A shot list as the calls take it."""
    return _library.numbers([number for shot in shots for number in shot])


def _shots(memory, count):
    front = memory[: 4 * count]
    return [Shot(*front[at : at + 4]) for at in range(0, 4 * count, 4)]


def _pairs(numbers):
    return list(zip(numbers[0::2], numbers[1::2]))


def _entries(corners):
    """How many pieces a figure has: the entries of its cost table."""

    def pairs(lines):
        return len(lines) * (len(lines) - 1) // 2

    memory, length = corners
    return pairs(set(memory[0:length:2])) * pairs(set(memory[1:length:2]))


def _fracture(name, figure, rule, costs, limit="PW_LIST_NUMBERS"):
    corners, rings = _figure(figure)
    table, shot_list = _room("u32", "PW_TABLE_ENTRIES"), _room("u16", limit)
    count, cost, sliver, cuts = CALLS[name](corners, rings, *rule, table, shot_list)
    entries = table[0][: _entries(corners)] if costs else None
    return Fracture(_shots(shot_list[0], count), cost, sliver, cuts, entries)


@_over("pw_version")
def version() -> Tuple[int, int, int]:
    """The version of the library that was found, three numbers. Refuses nothing."""
    return tuple(CALLS["pw_version"]())


@_over("pw_preset")
def preset(number: int) -> Rule:
    """The rule of a preset, 0 to 3. Refuses: 15."""
    return Rule(*CALLS["pw_preset"](number))


@_over("pw_fracture")
def fracture(figure: Figure, threshold: int, weight: int, *, costs: bool = False) -> Fracture:
    """Fractures a figure, a list of rings, each a list of corners (x, y), by straight cuts. Refuses: 1 to 5."""
    return _fracture("pw_fracture", figure, (threshold, weight), costs)


@_over("pw_fracture_default")
def fracture_default(figure: Figure, *, costs: bool = False) -> Fracture:
    """The same by the default rule, preset 1. Refuses: 2 to 5."""
    return _fracture("pw_fracture_default", figure, (), costs)


@_over("pw_fracture_pinwheel")
def fracture_pinwheel(figure: Figure, threshold: int, weight: int, *, costs: bool = False) -> Fracture:
    """The same by straight cuts and pinwheels. Refuses: 1 to 5."""
    return _fracture("pw_fracture_pinwheel", figure, (threshold, weight), costs)


@_over("pw_fracture_divided")
def fracture_divided(
    figure: Figure, threshold: int, weight: int, largest: int, *, costs: bool = False
) -> Fracture:
    """By straight cuts, then each shot divided so that no side is above the largest. The costs are those before
    division. Refuses: 1, 19, 2 to 5."""
    return _fracture("pw_fracture_divided", figure, (threshold, weight, largest), costs, "PW_DIVIDED_NUMBERS")


@_over("pw_fracture_pinwheel_divided")
def fracture_pinwheel_divided(
    figure: Figure, threshold: int, weight: int, largest: int, *, costs: bool = False
) -> Fracture:
    """By straight cuts and pinwheels, then divided. Refuses: 1, 19, 2 to 5."""
    return _fracture("pw_fracture_pinwheel_divided", figure, (threshold, weight, largest), costs, "PW_DIVIDED_NUMBERS")


@_over("pw_cuts")
def cuts(figure: Figure) -> int:
    """How many cuts the fracture of a figure will weigh, by any rule. Refuses: 2 to 5."""
    return CALLS["pw_cuts"](*_figure(figure))[0]


@_over("pw_number")
def number(data, at: int = 0) -> Number:
    """The number of a job that starts at a place, of any range. Refuses: 8, 9, 10, with the byte at fault."""
    value, behind, _ = CALLS["pw_number"](_library.octets(data), at)
    return Number(value, behind)


@_over("pw_job_check")
def job_check(job) -> Header:
    """Checks a whole job. Refuses: 12, 8 to 11, with the byte at fault."""
    return Header(*CALLS["pw_job_check"](_library.octets(job))[:3])


@_over("pw_job_outline")
def job_outline(job, k: int) -> Part:
    """Outline k of a job, from 0; the whole job is checked first. Refuses: 12, 8 to 11, 13."""
    start, length, _ = CALLS["pw_job_outline"](_library.octets(job), k)
    return Part(start, bytes(job)[start : start + length])


@_over("pw_unpack")
def unpack(part) -> List[List[Corner]]:
    """The figure of such a part, a list of rings. Refuses: 8 to 11."""
    corners, lengths = _room("u16", "PW_CORNER_NUMBERS"), _room("u16", "PW_RING_LENGTHS")
    _, count, _ = CALLS["pw_unpack"](_library.octets(part), corners, lengths)
    rings, at = [], 0
    for length in lengths[0][:count]:
        rings.append(_pairs(corners[0][at : at + 2 * length]))
        at += 2 * length
    return rings


@_over("pw_write_header")
def write_header(threshold: int, weight: int, outlines: int) -> bytes:
    """The header of a job. Refuses: 1, 10."""
    out = _room("u8", "PW_HEADER_BYTES")
    (written,) = CALLS["pw_write_header"](threshold, weight, outlines, out)
    return bytes(out[0][:written])


@_over("pw_write_outline")
def write_outline(figure: Figure) -> bytes:
    """A figure as an outline of a job. Refuses: 2."""
    out = _room("u8", "PW_OUTLINE_BYTES")
    (written,) = CALLS["pw_write_outline"](*_figure(figure), out)
    return bytes(out[0][:written])


@_over("pw_job_check", "pw_job_outline", "pw_unpack")
def read_job(job) -> Job:
    """A whole job: its rule and all its figures. Refuses: 12, 8 to 11."""
    job = bytes(job)
    threshold, weight, outlines = job_check(job)
    return Job(threshold, weight, [unpack(job_outline(job, k).data) for k in range(outlines)])


@_over("pw_job_check", "pw_write_header", "pw_write_outline")
def write_job(threshold: int, weight: int, figures: Iterable[Figure]) -> bytes:
    """A whole job of figures, which is read back as they are. Refuses: 2, 1, 10, 12."""
    outlines = [write_outline(figure) for figure in figures]
    job = write_header(threshold, weight, len(outlines)) + b"".join(outlines)
    job_check(job)
    return job


@_over("pw_gdsii_read")
def gdsii_read(element) -> Boundary:
    """Reads one boundary element of a GDSII stream. Refuses: 8 (with the offset of the record cut short), 16, 17, 18, 2
    to 5."""
    corners = _room("u16", "PW_CORNER_NUMBERS")
    count, shift_x, shift_y, _ = CALLS["pw_gdsii_read"](_library.octets(element), corners)
    return Boundary(_pairs(corners[0][: 2 * count]), shift_x, shift_y)


@_over("pw_gdsii_fracture")
def gdsii_fracture(element) -> Plate:
    """Reads such an element and fractures it by preset 0. Refuses as gdsii_read."""
    table, shot_list = _room("u32", "PW_TABLE_ENTRIES"), _room("u16", "PW_LIST_NUMBERS")
    count, cost, sliver, weighed, shift_x, shift_y, _ = CALLS["pw_gdsii_fracture"](
        _library.octets(element), table, shot_list
    )
    return Plate(_shots(shot_list[0], count), cost, sliver, weighed, shift_x, shift_y)


@_over("pw_join")
def join(shots: Iterable[Sequence[int]]) -> Joining:
    """Joins the shots of a list in pairs, for a writer that exposes an L in one flash. Refuses: 21."""
    shots = _flat(shots)
    table = _library.room("joined", shots[1] // 4)
    (flashes,) = CALLS["pw_join"](shots, table)
    return Joining([entry.partner for entry in table[0][: table[1]]], flashes)


@_over("pw_edge")
def edge(figure: Figure, edge: int, shots: Iterable[Sequence[int]]) -> List[Run]:
    """Which shots of a list one edge ends up on: edge number e runs from corner number e, counted over all rings, to the
    next corner of its ring. Refuses: 2 to 5, 21, 23."""
    shots = _flat(shots)
    runs = _library.room("size", ROOMS["PW_EDGE_NUMBERS"] + 2 * shots[1])
    (count,) = CALLS["pw_edge"](*_figure(figure), edge, shots, runs)
    front = runs[0][: 4 * count]
    return [Run(*front[at : at + 4]) for at in range(0, 4 * count, 4)]


@_over("pw_index_open")
def index_open(job) -> List[int]:
    """Where each outline of a job starts. Refuses: 12, 8 to 11."""
    index = _room("u16", "PW_INDEX_ENTRIES")
    count, _ = CALLS["pw_index_open"](_library.octets(job), index)
    return index[0][:count]


def _changed(name, *given):
    index, out = _room("u16", "PW_INDEX_ENTRIES"), _room("u8", "PW_JOB_BYTES")
    written, count, _ = CALLS[name](*given, index, out)
    return Indexed(bytes(out[0][:written]), index[0][:count])


@_over("pw_index_append")
def index_append(job, figure: Figure) -> Indexed:
    """The job with a figure more at its end, and its index. Refuses: 12, 8 to 11, 2, 20, 12."""
    return _changed("pw_index_append", _library.octets(job), *_figure(figure))


@_over("pw_index_remove")
def index_remove(job, k: int) -> Indexed:
    """The job without outline k, and its index. Refuses: 12, 8 to 11, 13."""
    return _changed("pw_index_remove", _library.octets(job), k)


@_over("pw_index_pick")
def index_pick(job, index: Sequence[int], k: int) -> Part:
    """The outline that entry k of an index points at; nothing before it is read. Refuses: 12, 13, 8 to 10."""
    held = _library.numbers(list(index))
    start, length, _ = CALLS["pw_index_pick"](_library.octets(job), held, held[1], k)
    return Part(start, bytes(job)[start : start + length])


@_over("pw_salvage")
def salvage(job) -> Salvaged:
    """Keeps the outlines of a job before its first fault. Refuses: 12, 8 to 10 of the header."""
    out = _room("u8", "PW_JOB_BYTES")
    written, kept, lost, dropped, _ = CALLS["pw_salvage"](_library.octets(job), out)
    return Salvaged(bytes(out[0][:written]), kept, lost, dropped)


@_over("pw_cif_write")
def cif_write(shots: Iterable[Sequence[int]]) -> bytes:
    """A shot list as a CIF text. Refuses: 21."""
    shots = _flat(shots)
    # 28 bytes, and at most 29 for each shot
    out = _library.room("u8", 28 + 29 * (shots[1] // 4 + 1))
    (written,) = CALLS["pw_cif_write"](shots, out)
    return bytes(out[0][:written])


@_over("pw_cif_read")
def cif_read(text) -> List[Shot]:
    """The shots of such a text. Refuses: 22, with the offset of the first line at fault."""
    text = _library.octets(text)
    # a shot has a line of at least 11 bytes
    shots = _library.room("u16", 4 * (text[1] // 11 + 1))
    count, _ = CALLS["pw_cif_read"](text, shots)
    return _shots(shots[0], count)
