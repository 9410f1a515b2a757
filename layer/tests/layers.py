"""Layers that KLayout makes for the tests: what a mask shop meets, small."""

import random


def polygon(db, *numbers):
    return db.Polygon([db.Point(x, y) for x, y in zip(numbers[0::2], numbers[1::2])])


def comb(db, teeth, pitch, tooth, height, back):
    """A bar with teeth: 4 corners and 4 more for each tooth but the last."""
    region = db.Region(db.Box(0, 0, pitch * (teeth - 1) + tooth, back))
    for tooth_number in range(teeth):
        left = pitch * tooth_number
        region.insert(db.Box(left, 0, left + tooth, height))
    return region.merged()


def gate_lines(db, cell, layer):
    """Upright lines with hammer heads, some narrower than the threshold."""
    shapes = cell.shapes(layer)
    for number in range(12):
        left = 130 * number
        width = (18, 24, 25, 40)[number % 4]
        shapes.insert(db.Box(left, 0, left + width, 900))
        if number % 3 == 0:
            shapes.insert(db.Box(left - 20, 900, left + width + 20, 960))


def contacts(db, cell, layer):
    """Squares in rows; two of them touch in a corner only."""
    shapes = cell.shapes(layer)
    for x in range(6):
        for y in range(5):
            shapes.insert(db.Box(100 * x, 100 * y, 100 * x + 40, 100 * y + 40))
    shapes.insert(db.Box(40, 40, 80, 80))


def windows(db, cell, layer):
    """Frames with one and with three windows, and one whose window has an island; they are written key-holed."""
    shapes = cell.shapes(layer)
    plate = db.Region(db.Box(0, 0, 400, 300))
    for hole in (db.Box(20, 20, 100, 280), db.Box(120, 30, 200, 100), db.Box(220, 50, 380, 250)):
        plate -= db.Region(hole)
    shapes.insert(plate)
    frame = db.Region(db.Box(500, 0, 700, 200)) - db.Region(db.Box(520, 15, 680, 190))
    frame += db.Region(db.Box(560, 60, 640, 140))
    shapes.insert(frame)


def combs(db, cell, layer):
    """Combs of 2 to 9 teeth, of which the largest has over 32 corners."""
    for number, teeth in enumerate((2, 3, 5, 8, 9)):
        shapes = comb(db, teeth, 50, 20, 200, 30)
        cell.shapes(layer).insert(shapes.moved(600 * number, 0))


def skylines(db, cell, layer, seed, count):
    """Random outlines of unions of boxes."""
    chance = random.Random(seed)
    for number in range(count):
        region = db.Region()
        for _ in range(chance.randint(1, 5)):
            left, bottom = chance.randint(0, 60), chance.randint(0, 60)
            region.insert(db.Box(left, bottom, left + chance.randint(5, 70), bottom + chance.randint(5, 70)))
        cell.shapes(layer).insert(region.moved(150 * (number % 10), 150 * (number // 10)))


ORIENTATIONS = [(turn, mirrored) for turn in range(4) for mirrored in (False, True)]


def make(db, orientations=ORIENTATIONS):
    """The test chip: cells of each sort, placed in rows, arrays and all eight orientations, with rails across, one
    instance magnified, one turned by 30 degrees, and paths; layer 4/0. Layer 7/0 holds something else."""
    layout = db.Layout()
    layer, other = layout.layer(4, 0), layout.layer(7, 0)
    top = layout.create_cell("TOP")
    cells = {}
    for sort in (gate_lines, contacts, windows, combs):
        cells[sort.__name__] = layout.create_cell(sort.__name__.upper())
        sort(db, cells[sort.__name__], layer)
    cells["skylines"] = layout.create_cell("SKYLINES")
    skylines(db, cells["skylines"], layer, 25, 60)
    pair = layout.create_cell("PAIR")
    pair.insert(db.CellInstArray(cells["gate_lines"].cell_index(), db.Trans(0, 0)))
    pair.insert(db.CellInstArray(cells["contacts"].cell_index(), db.Trans(2000, 0)))
    pair.shapes(other).insert(db.Box(0, 0, 3000, 1000))
    at = 0
    for cell in [*cells.values(), pair]:
        for number, (turn, mirrored) in enumerate(orientations):
            place = db.Trans(turn, mirrored, 10000 * number, 8000 * at)
            top.insert(db.CellInstArray(cell.cell_index(), place))
        at += 1
    rows = db.CellInstArray(pair.cell_index(), db.Trans(0, 60000), db.Vector(4000, 0), db.Vector(0, 1500), 7, 4)
    top.insert(rows)
    # rails through the rows: one is wider than a figure may be, the others take up what they touch
    top.shapes(layer).insert(db.Box(-100, 60200, 70000, 60240))
    top.shapes(layer).insert(db.Box(3900, 61900, 4100, 61950))
    top.shapes(layer).insert(db.Box(30000, 61900, 30100, 61950))
    top.shapes(layer).insert(db.Path([db.Point(0, 70000), db.Point(500, 70000), db.Point(500, 70400)], 30))
    top.shapes(layer).insert(polygon(db, 0, 72000, 100, 72000, 50, 72100))
    skylines_index = cells["skylines"].cell_index()
    top.insert(db.CellInstArray(skylines_index, db.ICplxTrans(2.0, 0, False, 0, 75000)))
    top.insert(db.CellInstArray(skylines_index, db.ICplxTrans(1.0, 30, False, 20000, 75000)))
    pair.insert(db.CellInstArray(cells["contacts"].cell_index(), db.ICplxTrans(3.0, 90, True, 3500, 1200)))
    top.shapes(other).insert(db.Box(0, 0, 1000, 1000))
    return layout


def tangle(db, seed):
    """Cells that overlap and touch each other, in arrays, orientations and twice as large, three to five levels deep. In
    some, KLayout's merging cell by cell (0.28.5) leaves parts of figures behind; in one its splitting gives other area."""
    chance = random.Random(seed)
    layout = db.Layout()
    layer, cells = layout.layer(4, 0), []
    for number in range(chance.randint(2, 5)):
        cell = layout.create_cell(f"C{number}")
        for _ in range(chance.randint(0, 6)):
            x, y = chance.randrange(300), chance.randrange(300)
            cell.shapes(layer).insert(db.Box(x, y, x + chance.randint(5, 80), y + chance.randint(5, 80)))
        children = chance.randint(0, 4)
        for _ in range(children if cells else 0):
            tangled(db, cell, cells, chance)
        cells.append(cell)
    top = layout.create_cell("TOP")
    for cell in cells:
        for _ in range(2):
            place = db.Trans(chance.randrange(4), chance.random() < 0.5, chance.randrange(-900, 900), chance.randrange(-900, 900))
            top.insert(db.CellInstArray(cell.cell_index(), place))
    return layout


def tangled(db, cell, cells, chance):
    """One of the cells in another: an array, magnified, or as it is."""
    turn, mirrored = chance.randrange(4), chance.random() < 0.5
    place = db.Trans(turn, mirrored, chance.randrange(-300, 600), chance.randrange(-300, 600))
    child = chance.choice(cells).cell_index()
    sort = chance.random()
    if sort < 0.3:
        across, up = db.Vector(chance.randint(40, 400), 0), db.Vector(0, chance.randint(40, 400))
        cell.insert(db.CellInstArray(child, place, across, up, chance.randint(1, 4), chance.randint(1, 3)))
    elif sort < 0.4:
        turn, mirrored = 90 * chance.randrange(4), chance.random() < 0.5
        cell.insert(db.CellInstArray(child, db.ICplxTrans(2.0, turn, mirrored, chance.randrange(300), chance.randrange(300))))
    else:
        cell.insert(db.CellInstArray(child, place))
