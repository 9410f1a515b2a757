"""A layer of a layout to shots: the core, the same in the command, in `klayout -b -r` and in KLayout's window. `db` is
klayout.db or pya.

In steps, which the command takes one by one to spread them over workers:

    prepare   magnified and oddly turned instances flattened, 1 nm a whole number of database units
    merged    the layer merged, hierarchy kept, on a working layer
    gather    each distinct figure once, and where it stands in which cell
    answer    each distinct figure through the library
    place     the shots, charged sides and what is beyond our limits into the cells
"""

import array
import collections
import fractions
from typing import NamedTuple

from pinarewhemi import Refusal

from .figures import OFF_GRID, Answer, Fracturer

# Where things go, by data type: shots, charged sides of slivers, what is beyond our limits.
SHOTS, SIDES, BEYOND = 1, 2, 9
MOST = 2**31 - 1
# How often what was merged is merged again.
MERGINGS = 6


class Told(Exception):
    """Why a layer is not done, in one line for the user."""


class Layer(NamedTuple):
    """The number and data type of a layer."""

    number: int
    datatype: int = 0

    def __str__(self):
        return f"{self.number}/{self.datatype}"


class Gathered:
    """The figures of a layer: the distinct ones, moved to 0, 0, in the order in which they came, and by cell where they
    stand: form, x, y of each, one after the other. copies is how often a cell's content is placed below the top."""

    def __init__(self):
        self.forms = []
        self.numbers = {}
        self.places = {}
        self.copies = {}

    def number(self, form):
        """The number of a form, which is new or not. The key is KLayout's normal form: a merged polygon, moved to 0, 0."""
        number = self.numbers.get(form)
        if number is None:
            number = self.numbers[form] = len(self.forms)
            self.forms.append(form)
        return number

    def standing(self):
        """How often each form stands on the layer, over the hierarchy."""
        total = [0] * len(self.forms)
        for cell, figures in self.places.items():
            for form, often in collections.Counter(figures[0::3]).items():
                total[form] += often * self.copies[cell]
        return total


class Done:
    """What was done: for each distinct figure its answer, its corners and rings and how often it stands; and the totals
    over the layer."""

    def __init__(self, layer, gathered, answers):
        self.layer = layer
        self.forms = gathered.forms
        self.answers = answers
        self.copies = gathered.standing()
        self.figures = sum(self.copies)
        self.shots = self.cost = self.sliver = self.cuts = 0
        self.refused = collections.Counter()
        self.parted = collections.Counter()
        for answer, copies in zip(answers, self.copies):
            if answer.refused is not None:
                self.refused[answer.refused] += copies
                continue
            shots = len(answer.shots) // 4
            self.shots += copies * shots
            self.cost += copies * answer.cost
            self.sliver += copies * answer.sliver
            self.cuts += copies * answer.cuts
            if answer.parts:
                self.parted.update(figures=copies, shots=copies * shots, cost=copies * answer.cost)

    def line(self):
        """The totals in one line."""
        words = [f"layer {self.layer} figures {self.figures} distinct {len(self.forms)}"]
        words.append(f"shots {self.shots} cost {self.cost} sliver {self.sliver} beyond {sum(self.refused.values())}")
        words += [f"{name_of(number)} {count}" for number, count in sorted(self.refused.items())]
        if self.parted:
            words.append("unproved figures {figures} shots {shots} cost {cost}".format(**self.parted))
        return " ".join(words)


def name_of(refused):
    """How a line speaks of a refusal."""
    return "off-grid" if refused == OFF_GRID else f"refused-{refused}"


def units_of(db, layout):
    """The database unit as a fraction of 1 nm: (units, scale), where the layout, scaled up by `scale`, has `units`
    database units to the nm."""
    unit = fractions.Fraction(layout.dbu * 1000).limit_denominator(10000)
    if unit <= 0 or abs(float(unit) - layout.dbu * 1000) > 1e-9 * layout.dbu * 1000:
        raise Told(f"the database unit of {layout.dbu:g} um is neither a whole part nor a whole multiple of 1 nm")
    return unit.denominator, unit.numerator


def flatten_complex(db, layout, top):
    """Instances that are magnified or turned by an odd angle become shapes of the cell that they are in, from the top
    down, so that each point is rounded once; a cell that stood nowhere else is gone. How many were flattened."""
    count = 0
    within = {top.cell_index(), *top.called_cells()}
    for index in [index for index in layout.each_cell_top_down() if index in within]:
        cell = layout.cell(index)
        found = [instance for instance in cell.each_inst() if instance.is_complex()]
        if not found:
            continue
        count += len(found)
        aside = layout.create_cell("pinarewhemi")
        for instance in found:
            aside.insert(instance.cell_inst)
        for instance in found:
            instance.delete()
        aside.flatten(False)
        cell.move_shapes(aside)
        aside.delete()
    # below the top all had a parent before: what has none now is what was flattened
    for index in within - {top.cell_index()}:
        if layout.is_valid_cell_index(index) and layout.cell(index).is_top():
            layout.prune_cell(index, -1)
    return count


def prune(db, layout, top):
    """Cells that the top does not call are gone."""
    within = {top.cell_index(), *top.called_cells()}
    others = [cell.cell_index() for cell in layout.each_cell() if cell.cell_index() not in within]
    if others:
        layout.delete_cells(others)


def prepare(db, layout, top):
    """Makes the layout one in which every figure below the top has its true size: magnified and oddly turned instances
    are shapes, and 1 nm is a whole number of database units, which is given back. What is scaled is the whole layout,
    since all of it has one unit. Given back beside it: how often each cell's content is placed below the top."""
    units, scale = units_of(db, layout)
    if scale > 1:
        for box in (cell.bbox() for cell in layout.top_cells()):
            if not box.empty() and scale * max(map(abs, (box.left, box.bottom, box.right, box.top))) > MOST:
                raise Told(f"with a database unit of {layout.dbu:g} um the layout is too large for whole nm in 32 bits")
    copies, odd = survey(db, layout, top)
    if odd:
        flatten_complex(db, layout, top)
        copies, _ = survey(db, layout, top)
    if scale > 1:
        # not scale_and_snap: that takes one tree, and KLayout (0.28.5) does not undo it
        layout.transform(db.ICplxTrans(float(scale)))
        layout.dbu = 0.001 / units
    return units, copies


def survey(db, layout, top):
    """How often each cell's content is placed below the top, in the order from the top down, and how many instances are
    magnified or turned by an odd angle. In one walk, since a chip has many instances."""
    within = {top.cell_index(), *top.called_cells()}
    copies = {index: 0 for index in layout.each_cell_top_down() if index in within}
    copies[top.cell_index()] = 1
    odd = 0
    for index, often in copies.items():
        for instance in layout.cell(index).each_inst():
            copies[instance.cell_index] += often * instance.size()
            if instance.is_complex():
                odd += 1
    return copies, odd


def merged_once(db, layout, top, layer):
    """A working layer with the figures of a layer, merged by KLayout cell by cell, each in the cell that holds all of
    it. Figures that touch in a corner only are two."""
    store = db.DeepShapeStore()
    # whole figures: KLayout's splitting (0.28.5) does not give back the area of some that have many windows
    store.max_vertex_count = 0
    store.max_area_ratio = 0.0
    region = db.Region(top.begin_shapes_rec(layer), store)
    region.min_coherence = True
    region.merge()
    work, cells = layout.insert_layer(db.LayerInfo()), layout.cells()
    layout.insert(top.cell_index(), work, region)
    if layout.cells() != cells:
        raise Told("KLayout's merging cell by cell made cells of its own: --windows takes the other road")
    return work


def held(db, layout, cells, layer, merge=False):
    """How many figures each cell has on a layer and what area they have together; merged within the cell, if asked."""
    found = {}
    for index in cells:
        region = db.Region(layout.cell(index).shapes(layer))
        region.min_coherence = True
        region = region.merged() if merge else region
        region.merged_semantics = False
        found[index] = region.count(), region.area()
    return found


def merged(db, layout, top, layer, cells):
    """A working layer with the merged figures. KLayout (0.28.5) leaves, of some figures that it makes up across cells,
    parts behind in the cells below, which would be exposed twice: so where any was made up, what it gave is merged
    again until that changes nothing."""
    work = merged_once(db, layout, top, layer)
    before = held(db, layout, cells, work)
    if before == held(db, layout, cells, layer, True):
        return work
    for _ in range(MERGINGS):
        again = merged_once(db, layout, top, work)
        after = held(db, layout, cells, again)
        layout.delete_layer(work)
        if after == before:
            return again
        work, before = again, after
    raise Told("KLayout's merging cell by cell does not settle on this layer: --windows takes the other road")


def gather(db, layout, work, copies, gathered, show=None):
    """Gathers the distinct figures of a merged layer and where they stand, hierarchy kept: in the cells of which `copies`
    says how often each is placed. The working layer is gone then."""
    gathered.copies = copies
    total = sum(layout.cell(index).shapes(work).size() for index in gathered.copies)
    done = 0
    for index in gathered.copies:
        figures = array.array("q")
        for shape in layout.cell(index).shapes(work).each():
            polygon = shape.polygon
            frame = polygon.bbox()
            x, y = frame.left, frame.bottom
            figures.extend((gathered.number(polygon.move(-x, -y)), x, y))
            done += 1
            if show and done % 4096 == 0:
                show("figures", done, total)
        if figures:
            gathered.places[index] = figures
    layout.delete_layer(work)


def rings_of(form):
    """The rings of a polygon, hull first, as lists x, y, x, y, ..."""
    rings = [numbers_of(form.each_point_hull())]
    for hole in range(form.holes()):
        rings.append(numbers_of(form.each_point_hole(hole)))
    return rings


def numbers_of(points):
    """The numbers x, y, x, y, .. of points."""
    numbers = []
    for point in points:
        numbers += point.x, point.y
    return numbers


def answer(fracturer, form, units, beyond=None):
    """The answer for one form. With `beyond`, a right-angled figure that the library refuses is made up of parts."""
    rings = rings_of(form)
    if units > 1:
        if any(number % units for ring in rings for number in ring):
            return Answer(OFF_GRID)
        rings = [[number // units for number in ring] for ring in rings]
    given = fracturer.answer(rings)
    if beyond and given.refused in (Refusal.LENGTH, Refusal.EXTENT) and form.is_rectilinear():
        return beyond(fracturer, rings) or given
    return given


def answers(fracturer, forms, units, beyond=None, show=None):
    """The answers for all forms, in their order."""
    given = []
    for form in forms:
        given.append(answer(fracturer, form, units, beyond))
        if show and len(given) % 1024 == 0:
            show("distinct", len(given), len(forms))
    return given


class Placing:
    """Puts the answers for what was gathered into the cells: boxes and paths where a figure stands, or, where that is
    fewer elements, a cell of its shots that is placed. Of both there may be more later. The layers are new ones, unless
    those that were there are kept."""

    def __init__(self, db, layout, layer, units, gathered, given, keep):
        self.db, self.layout, self.units, self.gathered, self.given = db, layout, units, gathered, given
        infos = [db.LayerInfo(layer.number, datatype) for datatype in (SHOTS, SIDES, BEYOND)]
        self.layers = [layout.layer(info) if keep else layout.insert_layer(info) for info in infos]
        self.cells = {}
        self.begun = {}
        # the sides from 0, 0 by their extent: moving one takes half the time of a new one
        self.sides = {}

    def into(self, index):
        """The placing into one cell."""
        if index not in self.begun:
            self.begun[index] = CellPlacing(self, self.layout.cell(index))
        return self.begun[index]

    def more(self):
        """Places what was gathered since the last time, all of which is answered."""
        for index, figures in self.gathered.places.items():
            self.into(index).more(figures)

    def all(self, show=None):
        """Places everything that was not placed yet."""
        total = sum(map(len, self.gathered.places.values())) // 3
        done = 0
        for index, figures in self.gathered.places.items():
            cell = self.into(index)
            cell.more(figures)
            cell.end()
            del self.begun[index]
            done += len(figures) // 3
            if show:
                show("placed", done, total)

    def worth(self, form, copies):
        """Whether placing a cell of its shots takes fewer elements than drawing them for each copy."""
        answer = self.given[form]
        elements = len(answer.shots) // 4 + len(answer.sides) if answer.refused is None else 1
        return elements + copies < elements * copies

    def shapes_of(self, cell):
        """The shapes of a cell on our layers."""
        return [cell.shapes(layer) for layer in self.layers]

    def cell_of(self, form):
        """The cell with the shots of a form, at 0, 0."""
        if form not in self.cells:
            cell = self.layout.create_cell(f"PINAREWHEMI_{form}")
            self.draw(form, 0, 0, *self.shapes_of(cell))
            self.cells[form] = cell.cell_index()
        return self.cells[form]

    def draw(self, form, x, y, shots, sides, beyond):
        """The elements of a form whose frame begins at x, y."""
        answer, units = self.given[form], self.units
        if answer.refused is not None:
            beyond.insert_polygon(self.gathered.forms[form].moved(x, y))
            return
        numbers, box, insert = iter(answer.shots), self.db.Box, shots.insert_box
        for left, bottom, right, top in zip(numbers, numbers, numbers, numbers):
            insert(box(x + units * left, y + units * bottom, x + units * right, y + units * top))
        insert = sides.insert_path
        for a, b, c, d in answer.sides:
            insert(self.side(c - a, d - b).moved(x + units * a, y + units * b))

    def side(self, wide, high):
        """The path along a side of that extent in nm, from 0, 0."""
        found = self.sides.get((wide, high))
        if found is None:
            ends = [self.db.Point(), self.db.Point(self.units * wide, self.units * high)]
            found = self.sides[wide, high] = self.db.Path(ends, 0)
        return found


class CellPlacing:
    """The placing into one cell, as figures come: those of a form wait until there are so many that a cell of its shots
    is worth it, or to the end. So it does not matter how many come at a time."""

    def __init__(self, placing, cell):
        self.placing, self.cell = placing, cell
        self.placed, self.waiting, self.done = {}, {}, 0

    def more(self, figures):
        """Places what a list of form, x, y has beyond what it had the last time."""
        self.put(figures[self.done :] if self.done else figures)
        self.done = len(figures)

    def put(self, figures):
        """Places figures of which a cell of shots is placed here; the others wait."""
        db, placed, insert = self.placing.db, self.placed, self.cell.insert
        # one instance, turn and shift for all: new ones each time take thrice the time
        shift, turn = db.Vector(), db.Trans()
        instance = db.CellInstArray(0, turn)
        numbers = iter(figures)
        for form, x, y in zip(numbers, numbers, numbers):
            index = placed.get(form)
            if index is None:
                self.wait(form, x, y)
                continue
            shift.x, shift.y = x, y
            turn.disp = shift
            instance.trans = turn
            instance.cell_index = index
            insert(instance)

    def wait(self, form, x, y):
        """One more of a form of which no cell of shots is placed here: with it, that may be worth it."""
        waiting = self.waiting.setdefault(form, [])
        waiting += (form, x, y)
        if self.placing.worth(form, len(waiting) // 3):
            self.placed[form] = self.placing.cell_of(form)
            self.put(self.waiting.pop(form))

    def end(self):
        """Draws those that still wait."""
        shapes = self.placing.shapes_of(self.cell)
        for figures in self.waiting.values():
            numbers = iter(figures)
            for form, x, y in zip(numbers, numbers, numbers):
                self.placing.draw(form, x, y, *shapes)


def refuse_taken(db, layout, top, layer):
    """What is kept must not mix with what we write."""
    within = [top.cell_index(), *top.called_cells()]
    for datatype in (SHOTS, SIDES, BEYOND):
        index = layout.find_layer(layer.number, datatype)
        if index is not None and any(layout.cell(cell).shapes(index).size() for cell in within):
            raise Told(f"there are shapes on {layer.number}/{datatype} already, where ours would go")


def drop_layers(db, layout, kept):
    """All layers but some are gone; the cells stay."""
    for index in layout.layer_indexes():
        if index not in kept:
            layout.delete_layer(index)


def top_of(db, layout, name=None):
    """The cell of that name, or the only top cell."""
    if name is not None:
        cell = layout.cell(name)
        if cell is None:
            raise Told(f"there is no cell {name}")
        return cell
    tops = layout.top_cells()
    if len(tops) != 1:
        names = ", ".join(sorted(cell.name for cell in tops)[:5]) + (", .." if len(tops) > 5 else "")
        raise Told(f"it has {len(tops)} top cells ({names}): --cell names one" if tops else "it has no cell")
    return tops[0]


def index_of(db, layout, top, layer):
    """The index of the layer to read, which has to hold something."""
    index = layout.find_layer(layer.number, layer.datatype)
    if index is None or top.begin_shapes_rec(index).at_end():
        raise Told(f"there is nothing on layer {layer}")
    return index


def fracture_layer(
    db, layout, layer, threshold, weight, cell=None, largest=None, pinwheels=False, beyond=None, keep=True, show=None
):
    """Fractures a layer of a layout below one cell, in place: shots on L/1, charged sides of slivers on L/2, what is
    beyond our limits on L/9. The cell is the one of that name, or the only top cell. Magnified and oddly turned
    instances below it become shapes; where 1 nm is not a whole number of database units, the whole layout gets a finer
    unit. Other trees of cells stay, and show the shots of cells that they share with this one. The layers that were
    there stay; with keep off all of them go, in the whole layout. Gives what was done. Raises Told and
    pinarewhemi.Refused."""
    fracturer = Fracturer(threshold, weight, largest, pinwheels)
    layer = Layer(*layer)
    top = top_of(db, layout, cell)
    index = index_of(db, layout, top, layer)
    if keep:
        refuse_taken(db, layout, top, layer)
    units, copies = prepare(db, layout, top)
    gathered = Gathered()
    gather(db, layout, merged(db, layout, top, index, copies), copies, gathered, show)
    given = answers(fracturer, gathered.forms, units, beyond, show)
    placing = Placing(db, layout, layer, units, gathered, given, keep)
    if not keep:
        drop_layers(db, layout, placing.layers)
    placing.all(show)
    return Done(layer, gathered, given)
