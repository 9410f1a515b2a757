"""One figure to its shots, through the library: fast, since a layer has many. A figure is its rings, each the numbers
x, y, x, y, .. of its corners in whole nm, moved so that its frame begins at 0, 0."""

import ctypes
from typing import NamedTuple, Tuple

from pinarewhemi import Refusal, Refused
from pinarewhemi._calls import CALLS
from pinarewhemi._table import ROOMS

# A figure whose sizes are not whole nm: no call is asked, so no refusal of the library has this number.
OFF_GRID = 0
WIDEST = 65535


class Answer(NamedTuple):
    """What became of a figure. refused is None where it was fractured, else a refusal's number, or OFF_GRID; shots are
    four numbers each, one after the other; sides are the charged stretches of slivers, x, y, x, y each; parts is 0
    where the figure was fractured as a whole, by the proved library, else of how many parts it was made up."""

    refused: object = None
    shots: Tuple[int, ...] = ()
    cost: int = 0
    sliver: int = 0
    cuts: int = 0
    sides: Tuple[Tuple[int, int, int, int], ...] = ()
    parts: int = 0


class Fracturer:
    """The rule, the mode, and the buffers that every call is lent anew. Raises Refused where the rule or the largest
    side is not one."""

    def __init__(self, threshold, weight, largest=None, pinwheels=False):
        self.threshold, self.weight, self.largest, self.pinwheels = threshold, weight, largest, pinwheels
        whole = "pw_fracture_pinwheel" if pinwheels else "pw_fracture"
        name = whole if largest is None else whole + "_divided"
        for needed in (whole, name):
            if needed not in CALLS:
                raise ImportError(f"the library has no {needed}")
        self._whole = CALLS[whole].function
        self._asked = CALLS[name].function
        self._rule = (threshold, weight)
        self._words = self._rule if largest is None else (threshold, weight, largest)
        self._table = (ctypes.c_uint32 * ROOMS["PW_TABLE_ENTRIES"])()
        self._room = ROOMS["PW_LIST_NUMBERS"] if largest is None else ROOMS["PW_DIVIDED_NUMBERS"]
        self._list = (ctypes.c_uint16 * self._room)()
        self._corners = (ctypes.c_uint16 * ROOMS["PW_CORNER_NUMBERS"])()
        self._lengths = (ctypes.c_uint16 * ROOMS["PW_RING_LENGTHS"])()
        self._told = [ctypes.c_uint32() for _ in range(4)]
        # behind the rule every call is lent the same
        lent = [ctypes.byref(number) for number in self._told]
        self._lent = (self._table, ROOMS["PW_TABLE_ENTRIES"], self._list, self._room, *lent)
        refused = self._call(self._asked, self._words, ((0, 0, 9, 0, 9, 9, 0, 9),))
        if refused:
            raise Refused(refused, name)

    def _call(self, function, words, rings):
        corners = rings[0] if len(rings) == 1 else [number for ring in rings for number in ring]
        lengths = [min(len(ring) // 2, WIDEST) for ring in rings]
        given, beside = self._corners, self._lengths
        if len(corners) > len(given):
            given = (ctypes.c_uint16 * len(corners))()
        if len(lengths) > len(beside):
            beside = (ctypes.c_uint16 * len(lengths))()
        given[: len(corners)] = corners
        beside[: len(lengths)] = lengths
        return function(given, len(corners), beside, len(lengths), *words, *self._lent)

    def whole(self, rings):
        """The shots of a figure before division, and the cuts weighed; None where it is refused."""
        if self._call(self._whole, self._rule, rings):
            return None
        return tuple(self._list[: 4 * self._told[0].value]), self._told[3].value

    def answer(self, rings):
        """The answer for a figure whose frame begins at 0, 0."""
        if max(map(max, rings)) > WIDEST:
            return Answer(int(Refusal.EXTENT))
        refused = self._call(self._asked, self._words, rings)
        if refused:
            return Answer(int(refused))
        count, cost, sliver, cuts = [number.value for number in self._told]
        shots = tuple(self._list[: 4 * count])
        sides = ()
        if sliver:
            whole = shots
            if self.largest is not None:
                # a dividing line is not exposed: what is charged are the sides before division
                whole, _ = self.whole(rings)
            sides, length = charged_sides(rings, whole, self.threshold)
            if length != sliver:
                raise AssertionError("the charged sides are not as long as the sliver that the library tells")
        return Answer(None, shots, cost, sliver, cuts, sides)


def _walls(rings):
    """The upright edges and the level ones, each its place and its stretch from low to high."""
    upright, level = [], []
    for ring in rings:
        x, y = ring[-2], ring[-1]
        numbers = iter(ring)
        for to_x, to_y in zip(numbers, numbers):
            if x == to_x:
                upright.append((x, y, to_y) if y < to_y else (x, to_y, y))
            else:
                level.append((y, x, to_x) if x < to_x else (y, to_x, x))
            x, y = to_x, to_y
    return upright, level


def _exposed(walls, near, far, low, high):
    """What of the walls at two places lies between low and high: (place, start, end) in rising order."""
    found = [
        (place, start if low < start else low, end if end < high else high)
        for place, start, end in walls
        if (place == near or place == far) and start < high and low < end
    ]
    if len(found) > 1:
        found.sort()
    return found


def _length(stretches):
    return sum(end - start for _, start, end in stretches)


def charged_sides(rings, shots, threshold):
    """The exposed stretches of the two longer sides of each shot that is a sliver (docs/SCOPE.md, "Pieces, slivers,
    cost"), and their length. The figure is merged, so a side of a shot is exposed exactly where an edge of the figure
    lies on it."""
    upright, level = _walls(rings)
    sides, total = [], 0
    numbers = iter(shots)
    for left, bottom, right, top in zip(numbers, numbers, numbers, numbers):
        width, height = right - left, top - bottom
        if width >= threshold and height >= threshold:
            continue
        standing = _exposed(upright, left, right, bottom, top) if height >= width else ()
        lying = _exposed(level, bottom, top, left, right) if width >= height else ()
        tall, wide = _length(standing), _length(lying)
        # of a square the pair with more wall is charged, the upright one where both have as much
        if wide > tall:
            sides += [(start, y, end, y) for y, start, end in lying]
            total += wide
        else:
            sides += [(x, start, x, end) for x, start, end in standing]
            total += tall
    return tuple(sides), total
