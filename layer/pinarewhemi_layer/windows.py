"""Layers with little hierarchy, window by window: less memory at once, and work for several processes.

A window merges what touches it or a margin around it. A figure no longer than the margin, either way, whose frame has
its lower left corner in the window is whole there, since whatever touches it touches the margin: the window owns it. Of
a longer figure every window that it touches gives the piece it has (which is longer than the margin too, or it would be
the whole figure); all pieces together, merged, are the long figures, whole. So no figure is cut, none is lost, and none
comes twice, whatever the windows and the margin are."""

import array
import math
import os
from typing import NamedTuple

from . import files, klayout_db
from .core import MOST, Layer, index_of, prepare, prune, rings_of, top_of

# Flat shapes to a window, and below how many times the hierarchical count a layer has little hierarchy. KLayout merges many
# small windows faster than few large ones; but each distinct form is handed over once for each task, so a task has several of
# them, as long as there are some tasks for each worker.
SHAPES, LITTLE = 4096, 4
WINDOWS, TASKS = 16, 8
# Below so many windows the command does them itself: it is done before workers have begun.
FEW = 8
# How many forms a process keeps the rings of.
KEPT = 65536


class Source(NamedTuple):
    """What a worker needs to know to have the layer: the file, as it was when the command read it."""

    path: str
    stamp: tuple
    layer: Layer
    cell: object


class Window(NamedTuple):
    """Its sides, and the margin, in database units. The left and the bottom side belong to it."""

    left: int
    bottom: int
    right: int
    top: int
    margin: int


class Pieces(NamedTuple):
    """What the windows of a task give: the distinct forms, (form, x, y) one after the other for each place, and the
    pieces of long figures, where they stand. Forms and pieces are polygons, between processes their rings."""

    forms: list
    places: array.array
    long: list


def source_of(path, layer, cell):
    found = os.stat(path)
    return Source(os.path.abspath(path), (found.st_size, found.st_mtime_ns), layer, cell)


# The layer that this process holds: the source, and layout, top cell and layer index.
_held = {}


def hold(source, layout, top, index):
    """This process, and those that it forks, have the layer already."""
    _held.clear()
    _held[source] = layout, top, index


def opened(db, source):
    """The prepared layer of a source, read where this process does not hold it."""
    if source not in _held:
        if source_of(source.path, source.layer, source.cell) != source:
            raise RuntimeError(f"{source.path} is another file here")
        layout = files.read(db, source.path, source.layer)
        top = top_of(db, layout, source.cell)
        index = index_of(db, layout, top, source.layer)
        prune(db, layout, top)
        prepare(db, layout, top)
        hold(source, layout, top, index)
    return _held[source]


def open_ahead(source):
    """Has this process hold the layer of a source: the work of a worker before the first window."""
    opened(klayout_db.find(), source)


def polygon_of(db, rings):
    """The polygon of rings, hull first."""
    pairs = [[db.Point(x, y) for x, y in zip(ring[0::2], ring[1::2])] for ring in rings]
    polygon = db.Polygon(pairs[0])
    for hole in pairs[1:]:
        polygon.insert_hole(hole)
    return polygon


def box_of(db, *sides):
    """The box of sides of which some may lie outside of what KLayout has room for."""
    return db.Box(*[max(-MOST, min(side, MOST)) for side in sides])


def merged_in(db, held, window):
    """The merged figures that touch a window or its margin, whole or not."""
    layout, top, index = held
    left, bottom, right, above, margin = window
    around = box_of(db, left - margin, bottom - margin, right + margin, above + margin)
    region = db.Region(db.RecursiveShapeIterator(layout, top, index, around, False))
    region.min_coherence = True
    return region.merged()


# The rings of forms that this process met: most windows of a layer have the same ones.
_rings = {}


def kept_rings(form):
    """The rings of a form, reckoned once."""
    rings = _rings.get(form)
    if rings is None:
        if len(_rings) >= KEPT:
            _rings.clear()
        rings = _rings[form] = tuple(map(tuple, rings_of(form)))
    return rings


def take(task):
    """What some windows have: the work of a worker. `task` is a source and the windows."""
    forms, places, long = found(task)
    return Pieces([kept_rings(form) for form in forms], places, [rings_of(piece) for piece in long])


def taken(db, pieces):
    """What workers took, as polygons again: those of a form once."""
    known = {}
    for forms, places, long in pieces:
        for rings in forms:
            if rings not in known:
                known[rings] = polygon_of(db, rings)
        yield Pieces([known[rings] for rings in forms], places, [polygon_of(db, rings) for rings in long])


def found(task):
    """What some windows have, as polygons: for the same process."""
    source, planned = task
    db = klayout_db.find()
    held = opened(db, source)
    numbers, forms, places, long = {}, [], array.array("q"), []
    for window in planned:
        left, bottom, right, above, margin = window
        box = box_of(db, left, bottom, right, above)
        for polygon in merged_in(db, held, window).each():
            frame = polygon.bbox()
            if max(frame.width(), frame.height()) > margin:
                if frame.touches(box):
                    long.append(polygon)
                continue
            x, y = frame.left, frame.bottom
            if left <= x < right and bottom <= y < above:
                form = polygon.move(-x, -y)
                number = numbers.get(form)
                if number is None:
                    number = numbers[form] = len(forms)
                    forms.append(form)
                places.extend((number, x, y))
    return Pieces(forms, places, long)


def counts(db, layout, copies, index):
    """How many shapes the layer has, flat and as the hierarchy has them."""
    held = {cell: layout.cell(cell).shapes(index).size() for cell in copies}
    return sum(copies[cell] * held[cell] for cell in copies), sum(held.values())


def usual_length(db, layout, copies, index):
    """Nine shapes in ten are no longer than this, by the first thousand of each cell."""
    lengths = []
    for cell in copies:
        for number, shape in enumerate(layout.cell(cell).shapes(index).each()):
            if number == 1000:
                break
            box = shape.bbox()
            lengths.append(max(box.width(), box.height()))
    return sorted(lengths)[len(lengths) * 9 // 10] if lengths else 1


def plan(db, layout, top, copies, index):
    """The windows over a layer, row by row: by the layer alone, so the same for any number of workers."""
    box = top.bbox_per_layer(index)
    flat, _ = counts(db, layout, copies, index)
    number = max(1, math.ceil(flat / SHAPES))
    columns = max(1, min(number, round(math.sqrt(number * (box.width() + 1) / (box.height() + 1)))))
    rows = math.ceil(number / columns)
    wide, high = box.width() // columns + 1, box.height() // rows + 1
    margin = max(1, min(8 * usual_length(db, layout, copies, index), min(wide, high) // 8))
    return [
        Window(left, bottom, left + wide, bottom + high, margin)
        for bottom in range(box.bottom, box.bottom + rows * high, high)
        for left in range(box.left, box.left + columns * wide, wide)
    ]


def tasks_of(source, planned, workers):
    """The windows in tasks for so many workers, in their order."""
    several = max(1, min(WINDOWS, len(planned) // (TASKS * workers)))
    return [(source, planned[first : first + several]) for first in range(0, len(planned), several)]


def gather_windows(db, top, pieces, gathered, more):
    """Gathers what the tasks gave, in their order, all in the top cell; `more` is called behind each task."""
    index = top.cell_index()
    gathered.copies[index] = 1
    places = gathered.places[index] = array.array("q")
    region = db.Region()
    for forms, standing, long in pieces:
        numbers = [gathered.number(form) for form in forms]
        first = len(places)
        places.extend(standing)
        places[first::3] = array.array("q", map(numbers.__getitem__, standing[0::3]))
        for piece in long:
            region.insert(piece)
        more()
    region.min_coherence = True
    for polygon in region.merged().each():
        frame = polygon.bbox()
        x, y = frame.left, frame.bottom
        places.extend((gathered.number(polygon.move(-x, -y)), x, y))
