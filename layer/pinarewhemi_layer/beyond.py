"""Right-angled figures beyond the limits of the library (over 32 corners or 8 rings, wider than 65,535 nm): unproved, and
counted apart. Taken is the cheapest, by our rule and the walls of the whole figure, of KLayout's three decompositions
and of parts that the library fractures each on its own."""

from .figures import WIDEST, Answer, charged_sides

# The corners of a part, and its longest side: what the library takes.
CORNERS = 32


def of(db):
    """The function that makes an answer from a fracturer and the rings of such a figure, in nm, at 0, 0."""
    modes = (db.Polygon.TD_simple, db.Polygon.TD_htrapezoids, db.Polygon.TD_vtrapezoids)

    def parted(fracturer, rings):
        polygon = db.Polygon(points(db, rings[0]))
        for hole in rings[1:]:
            polygon.insert_hole(points(db, hole))
        made = [decomposed(polygon, mode) for mode in modes]
        made.append(of_parts(db, fracturer, polygon))
        weighed = [weigh(fracturer, rings, *one) for one in made if one is not None and exact(db, polygon, one[0])]
        return min(weighed, key=lambda answer: answer.cost, default=None)

    return parted


def points(db, ring):
    return [db.Point(x, y) for x, y in zip(ring[0::2], ring[1::2])]


def exact(db, polygon, shots):
    """Whether the shots are the figure and share no area: KLayout's splitting (0.28.5) errs on some figures with many
    windows."""
    region = db.Region()
    numbers = iter(shots)
    for sides in zip(numbers, numbers, numbers, numbers):
        region.insert(db.Box(*sides))
    region.merged_semantics = False
    return region.area() == polygon.area() and (region ^ db.Region(polygon)).is_empty()


def decomposed(polygon, mode):
    """KLayout's decomposition, which for a right-angled figure is rectangles: the shots, their number as that of the
    parts, and no cut that was weighed."""
    shots = []
    for piece in polygon.decompose_trapezoids(mode):
        box = piece.bbox()
        shots += (box.left, box.bottom, box.right, box.top)
    return shots, len(shots) // 4, 0


def of_parts(db, fracturer, polygon):
    """The shots of parts that are small enough for the library, how many parts they are, and the cuts weighed. None
    where a part is refused all the same."""
    shots, count, cuts = [], 0, 0
    for part in small_parts(db, polygon):
        frame = part.bbox()
        x, y = frame.left, frame.bottom
        here = part.moved(-x, -y)
        rings = [[n for point in here.each_point_hull() for n in (point.x, point.y)]]
        rings += [[n for point in here.each_point_hole(k) for n in (point.x, point.y)] for k in range(here.holes())]
        done = fracturer.whole(rings)
        if done is None:
            return None
        numbers = iter(done[0])
        for left, bottom, right, top in zip(numbers, numbers, numbers, numbers):
            shots += (x + left, y + bottom, x + right, y + top)
        count += 1
        cuts += done[1]
    return shots, count, cuts


def small_parts(db, polygon):
    """The parts, in an order that the figure alone decides: by tiles where it is too wide, then by KLayout."""
    frame = polygon.bbox()
    whole = db.Region(polygon)
    for left in range(frame.left, frame.right, WIDEST):
        for bottom in range(frame.bottom, frame.top, WIDEST):
            tile = whole
            if max(frame.width(), frame.height()) > WIDEST:
                tile = whole & db.Region(db.Box(left, bottom, left + WIDEST, bottom + WIDEST))
            tile.break_(CORNERS, 0.0)
            tile.merged_semantics = False
            yield from tile.each()


def divide(shots, largest):
    """Each shot by a largest side, as the library divides: the fewest parts that fit, longer ones first."""
    given = []
    numbers = iter(shots)
    for left, bottom, right, top in zip(numbers, numbers, numbers, numbers):
        across, along = lines(left, right, largest), lines(bottom, top, largest)
        for low, high in zip(along, along[1:]):
            for start, end in zip(across, across[1:]):
                given += (start, low, end, high)
    return given


def lines(low, high, largest):
    count = -(-(high - low) // largest)
    length, longer = divmod(high - low, count)
    return [low + number * length + min(number, longer) for number in range(count + 1)]


def weigh(fracturer, rings, shots, parts, cuts):
    """The answer of a list of shots, weighed by the rule. No shot is wider than a shot can be."""
    sides, sliver = charged_sides(rings, shots, fracturer.threshold)
    shots = divide(shots, fracturer.largest or WIDEST)
    cost = 1000 * (len(shots) // 4) + fracturer.weight * sliver
    return Answer(None, tuple(shots), cost, sliver, cuts, sides, parts)
