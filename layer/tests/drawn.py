"""Figures as layouts have them, one at a time: for the measurements of what our shots cost beside KLayout's."""

from . import layers


def wire(db, chance):
    """A wire of one to four stretches, each at a right angle to the one before."""
    x = y = 0
    points = [db.Point(x, y)]
    for number in range(chance.randint(1, 4)):
        length = chance.choice((-1, 1)) * chance.randint(80, 500)
        x, y = (x + length, y) if number % 2 else (x, y + length)
        points.append(db.Point(x, y))
    return db.Region(db.Path(points, chance.choice((20, 22, 28, 32, 46, 60))))


def gate(db, chance):
    """A line with a head at one end or both, wider by some nm each way."""
    width, length = chance.randint(18, 45), chance.randint(200, 900)
    region = db.Region(db.Box(0, 0, width, length))
    for bottom in (length, -60)[: chance.randint(1, 2)]:
        region.insert(db.Box(-chance.randint(5, 30), bottom, width + chance.randint(5, 30), bottom + 60))
    return region


def corrected(db, chance):
    """A line whose edges were moved stretch by stretch for the optics, by up to 6 nm."""
    width, bottom, region = chance.randint(28, 60), 0, db.Region()
    for _ in range(chance.randint(2, 7)):
        top = bottom + chance.randint(40, 150)
        region.insert(db.Box(-chance.randint(0, 6), bottom, width + chance.randint(0, 6), top))
        bottom = top
    return region


def contact(db, chance):
    """A square with serifs at its corners."""
    side, serif, out = chance.randint(40, 90), chance.randint(12, 18), chance.randint(4, 8)
    region = db.Region(db.Box(0, 0, side, side))
    for x in (-out, side + out - serif):
        for y in (-out, side + out - serif):
            region.insert(db.Box(x, y, x + serif, y + serif))
    return region


def comb(db, chance):
    """A bar with teeth."""
    teeth, tooth = chance.randint(2, 7), chance.randint(18, 40)
    return layers.comb(db, teeth, tooth + chance.randint(20, 60), tooth, chance.randint(100, 300), chance.randint(20, 50))


def plate(db, chance):
    """A plate with one to three windows in a row, no two as high."""
    count, high = chance.randint(1, 3), chance.randint(100, 300)
    region = db.Region(db.Box(0, 0, 120 * count, high))
    for number in range(count):
        left, bottom = 120 * number + chance.randint(12, 50), chance.randint(12, 40)
        region -= db.Region(db.Box(left, bottom, left + chance.randint(20, 60), high - chance.randint(12, 40)))
    return region


def frame(db, chance):
    """Four bars around a window, each with a width of its own and out over the next by some nm: where each does, in one
    direction, no straight cut goes through without parting a bar."""
    side, window = chance.randint(120, 300), chance.randint(40, 100)
    low, high = window, window + side
    widths = [chance.randint(15, 60) for _ in range(4)]
    outs = [chance.choice((0, 0, chance.randint(5, 40))) for _ in range(4)]
    region = db.Region(db.Box(low - widths[3], low - widths[0], high + outs[0], low))
    region.insert(db.Box(high, low - widths[0], high + widths[1], high + outs[1]))
    region.insert(db.Box(low - outs[2], high, high + widths[1], high + widths[2]))
    region.insert(db.Box(low - widths[3], low - outs[3], low, high + widths[2]))
    return region


def bars(db, chance):
    """Four to eight bars that cross and meet each other, with many corners and now and then a window."""
    region = db.Region()
    for _ in range(chance.randint(4, 8)):
        x, y, long, wide = chance.randrange(300), chance.randrange(300), chance.randint(60, 250), chance.randint(8, 50)
        across, up = (long, wide) if chance.random() < 0.5 else (wide, long)
        region.insert(db.Box(x, y, x + across, y + up))
    return region


SORTS = (wire, gate, corrected, contact, comb, plate, frame)


def crossing(db, chance):
    """Bars that are one figure."""
    return drawn(db, chance, (bars,))


def drawn(db, chance, sorts=SORTS):
    """A figure of one of the sorts in any orientation, in one piece and within the limits of the library."""
    while True:
        region = chance.choice(sorts)(db, chance)
        region.min_coherence = True
        found = list(region.merged().each())
        if len(found) == 1 and found[0].num_points() <= 32:
            return found[0].transformed(db.Trans(chance.randrange(4), chance.random() < 0.5, 0, 0))
