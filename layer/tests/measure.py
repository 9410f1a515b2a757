"""Measures the command against what KLayout does alone, and against itself: time and memory of one run, reading and
writing included on both sides. A row of the table each, to be run one by one:

    PYTHONPATH=layer:bindings/python /usr/bin/python3 layer/tests/measure.py [--figures 10000,100000,1000000] [--runs N] ROW ..

Without a ROW it names them; `all` is every one. Printed is a line of a Markdown table for each row and number of figures.
The sides of all rows over one layer run in turn, as often as --runs says (else twice), and the fewest seconds of each
count; beside the seconds of the clock stand those of the processors and their ratio, which other work on the machine
changes less, and the load when the rows were done.
Every road is a process of its own, and so is the making of its layer: this one stays small. Memory is the peak (VmHWM)
of the largest process; where there are several, in brackets how many and the sum of their peaks, in which pages that
they share count more than once.

`quality` is the tables of docs/LAYER.md: cost, shots and sliver against KLayout's decompositions, figure by figure."""

import contextlib
import os
import random
import subprocess
import sys
import tempfile
import time
from typing import NamedTuple

HERE = os.path.abspath(__file__)
COMMAND = os.path.join(os.path.dirname(os.path.dirname(HERE)), "pinarewhemi-layer")
RULE = 25, 40
# How often memory is looked at, in seconds.
LOOK = 0.05


def database():
    """KLayout, where it is needed: a process that measures others does not load it."""
    from pinarewhemi_layer import klayout_db

    return klayout_db.find()


# The layers.


def figure(db, chance):
    """A union of boxes in one piece, in a square of 140 nm."""
    while True:
        region = db.Region()
        for _ in range(chance.randint(1, 5)):
            left, bottom = chance.randrange(70), chance.randrange(70)
            region.insert(db.Box(left, bottom, left + chance.randint(8, 70), bottom + chance.randint(8, 70)))
        found = list(region.merged().each())
        if len(found) == 1:
            return found[0]


def new_figure(db, chance, seen):
    """A figure that was not seen, wherever it stood."""
    while True:
        drawn = figure(db, chance)
        form = drawn.moved(-drawn.bbox().left, -drawn.bbox().bottom)
        if form not in seen:
            seen.add(form)
            return drawn


def five_to_a_cell(db, layout, layer, distinct, chance):
    """Cells with five figures each, 150 nm apart, no two of all alike."""
    cells, seen = [], set()
    for number in range(max(1, distinct // 5)):
        cell = layout.create_cell(f"C{number}")
        for column in range(5):
            cell.shapes(layer).insert(new_figure(db, chance, seen).moved(150 * column, 0))
        cells.append(cell)
    return cells


def in_cells(db, layout, top, layer, count, distinct):
    """`distinct` figures, five to a cell, placed `count` times in all eight orientations."""
    cells = five_to_a_cell(db, layout, layer, distinct, random.Random(count + distinct))
    columns = max(1, round((count / 5) ** 0.5))
    for number in range(count // 5):
        place = db.Trans(number % 8 % 4, number % 8 > 3, 1600 * (number % columns), 1600 * (number // columns))
        top.insert(db.CellInstArray(cells[number % len(cells)].cell_index(), place))


def make_cells(db, layout, top, layer, count):
    in_cells(db, layout, top, layer, count, min(1000, count))


def make_distinct(db, layout, top, layer, count):
    in_cells(db, layout, top, layer, count, count // 10)


def make_flat(db, layout, top, layer, count):
    in_cells(db, layout, top, layer, count, min(1000, count))
    top.flatten(True)


def make_rails(db, layout, top, layer, count):
    """1,000 distinct figures in cells that stand in rows of 200; a rail goes through each row, made up of a piece of
    each cell: over 65,535 nm long, and 4 corners for each of its teeth, which four cells in five have."""
    cells = five_to_a_cell(db, layout, layer, min(1000, count), random.Random(count))
    for number, cell in enumerate(cells):
        cell.shapes(layer).insert(db.Box(0, -60, 800, -20))
        if number % 5:
            cell.shapes(layer).insert(db.Box(300, -110, 340, -60))
    for number in range(count // 5):
        row, column = divmod(number, 200)
        mirrored = (number * 5 + row) % 3 == 0
        place = db.Trans(2, True, 800 * column + 800, 400 * row) if mirrored else db.Trans(0, False, 800 * column, 400 * row)
        top.insert(db.CellInstArray(cells[(7 * number + row) % len(cells)].cell_index(), place))


def make_many_lines(db, layout, top, layer, count):
    """Distinct outlines of 12 to 16 lines each way: 11 to 15 columns, no two as high."""
    chance = random.Random(count)
    columns = max(1, round(count**0.5))
    for number in range(count):
        x, right, corners = 0, chance.randint(11, 15), []
        for high in chance.sample(range(20, 400), right):
            corners += [db.Point(x, high)]
            x += chance.randint(8, 60)
            corners += [db.Point(x, high)]
        polygon = db.Polygon([db.Point(0, 0), *corners, db.Point(x, 0)])
        top.shapes(layer).insert(polygon.moved(1000 * (number % columns), 500 * (number // columns)))


MAKERS = {maker.__name__[5:]: maker for maker in (make_cells, make_distinct, make_flat, make_rails, make_many_lines)}


def make(sort, count, path):
    """Writes a layer."""
    db = database()
    layout = db.Layout()
    top, layer = layout.create_cell("TOP"), layout.layer(4, 0)
    MAKERS[sort](db, layout, top, layer, int(count))
    layout.write(path)


# What KLayout does alone.


def klayout_deep(given, out, decompose=True):
    """KLayout reads, merges deep, decomposes (or not), writes."""
    db = database()
    layout = db.Layout()
    layout.read(given)
    top, store = layout.top_cell(), db.DeepShapeStore()
    region = db.Region(top.begin_shapes_rec(layout.find_layer(4, 0)), store)
    region.merge()
    if decompose:
        region = region.decompose_trapezoids_to_region()
    layout.insert(top.cell_index(), layout.layer(4, 1), region)
    layout.delete_layer(layout.find_layer(4, 0))
    layout.write(out)


def klayout_merged(given, out):
    klayout_deep(given, out, False)


def klayout_flat(given, out):
    """KLayout reads, merges flat, decomposes, writes."""
    db = database()
    layout = db.Layout()
    layout.read(given)
    top = layout.top_cell()
    region = db.Region(top.begin_shapes_rec(layout.find_layer(4, 0))).merged()
    top.shapes(layout.layer(4, 1)).insert(region.decompose_trapezoids_to_region())
    layout.delete_layer(layout.find_layer(4, 0))
    layout.write(out)


def klayout_tiles(given, out, threads=1):
    """KLayout's TilingProcessor, 64 tiles."""
    db = database()
    layout = db.Layout()
    layout.read(given)
    top = layout.top_cell()
    box = top.bbox()
    tiles = db.TilingProcessor()
    tiles.input("drawn", layout, top.cell_index(), layout.find_layer(4, 0))
    tiles.output("shots", layout, top.cell_index(), layout.layer(4, 1))
    tiles.tile_size(box.width() * layout.dbu / 8, box.height() * layout.dbu / 8)
    tiles.tile_border(2, 2)
    tiles.threads = threads
    tiles.queue("_output(shots, drawn.merged.decompose_trapezoids_to_region)")
    tiles.execute("tiles")
    layout.delete_layer(layout.find_layer(4, 0))
    layout.write(out)


def klayout_tiles_2(given, out):
    klayout_tiles(given, out, 2)


ROADS = {road.__name__: road for road in (klayout_deep, klayout_merged, klayout_flat, klayout_tiles, klayout_tiles_2)}


def count_shots(path):
    """Prints how many shots a file has on 4/1, over the hierarchy."""
    db = database()
    layout = db.Layout()
    layout.read(path)
    region = db.Region(layout.top_cell().begin_shapes_rec(layout.find_layer(4, 1)))
    region.merged_semantics = False
    print(region.count())


# Measuring.


def below(process):
    """A process and all that it started (Linux)."""
    found = [process]
    for one in found:
        with contextlib.suppress(OSError):
            for task in os.listdir(f"/proc/{one}/task"):
                with open(f"/proc/{one}/task/{task}/children") as file:
                    found += map(int, file.read().split())
    return found


def look(peaks, processes):
    """Keeps the peak of the memory of each process, in MB."""
    for process in processes:
        with contextlib.suppress(OSError):
            with open(f"/proc/{process}/status") as file:
                for line in file:
                    if line.startswith("VmHWM:"):
                        peaks[process] = int(line.split()[1]) * 1.024e-3


class Measured(NamedTuple):
    """A run: seconds by the clock, seconds of processors, and the peak of each process in MB, the largest first."""

    seconds: float
    worked: float
    peaks: list

    def better(self, other):
        """The fewest seconds of two runs, by the clock and of processors, and the peaks of the larger one."""
        return Measured(min(self.seconds, other.seconds), min(self.worked, other.worked), max(self.peaks, other.peaks))


def worked_by(processes):
    """The seconds of processors that some processes took so far."""
    ticks = 0
    for process in processes:
        with open(f"/proc/{process}/stat") as file:
            ticks += sum(map(int, file.read().rpartition(")")[2].split()[11:13]))
    return ticks / os.sysconf("SC_CLK_TCK")


def measured(words, beside=()):
    """A run, and processes beside it that work for it."""
    peaks, before = {}, worked_by(beside)
    began = time.monotonic()
    # as users have it: what was compiled once is kept
    around = {name: value for name, value in os.environ.items() if name != "PYTHONDONTWRITEBYTECODE"}
    child = subprocess.Popen([sys.executable, *words], stdout=subprocess.DEVNULL, env=around)
    ended = 0
    while not ended:
        look(peaks, [*below(child.pid), *beside])
        time.sleep(LOOK)
        ended, status, used = os.wait4(child.pid, os.WNOHANG)
    took = time.monotonic() - began
    child.returncode = os.waitstatus_to_exitcode(status)
    if child.returncode not in (0, 1):
        raise SystemExit(f"{' '.join(words)} ended with {child.returncode}")
    worked = used.ru_utime + used.ru_stime + worked_by(beside) - before
    # the kernel's own number, of the largest of the command and what it started: looking may have missed the last rise
    peaks[child.pid] = max(peaks.get(child.pid, 0), used.ru_maxrss * 1.024e-3 if len(peaks) == 1 else 0)
    return Measured(took, worked, sorted(peaks.values(), reverse=True))


def megabytes(peaks):
    return f"{peaks[0]:.0f}" + (f" ({len(peaks)}: {sum(peaks):.0f})" if len(peaks) > 1 else "")


HEAD = (
    "figures", "layer", "ours", "against", "ours, s", "theirs, s", "time", "goal", "of processors, s",
    "ours, MB", "theirs, MB", "memory", "goal", "load",
)


def load():
    """How many processes wanted a processor in the last minute, ours among them."""
    return f"{os.getloadavg()[0]:.1f}"


def print_row(*words):
    print("| " + " | ".join(map(str, words)) + " |", flush=True)


def print_head(words):
    print_row(*words)
    print("|" + "---|" * len(words), flush=True)


class Row(NamedTuple):
    """A row of the table: the sort of its layer and what that is, both sides, what the other one is, and the goals for
    time and memory. A side is a road of KLayout's alone by its name, or the words of our command beside file and rule."""

    sort: str
    layer: str
    ours: tuple
    theirs: object
    against: str
    time_goal: str
    memory_goal: str = "said"

    def print(self, count, mine, other):
        print_row(
            f"{count:,}", self.layer, " ".join(self.ours) or "1 worker", self.against,
            f"{mine.seconds:.2f}", f"{other.seconds:.2f}", f"{mine.seconds / other.seconds:.2f}", self.time_goal,
            f"{mine.worked:.2f}, {other.worked:.2f}, {mine.worked / other.worked:.2f}",
            megabytes(mine.peaks), megabytes(other.peaks), f"{mine.peaks[0] / other.peaks[0]:.2f}", self.memory_goal, load(),
        )


def run_side(side, given, out, dask):
    """A run of a side. `dask` is the address of a scheduler and its workers, for the words that ask for one."""
    if isinstance(side, str):
        return measured([HERE, "road", side, given, out])
    words = [COMMAND, given, "--layer", "4/0", "--rule", *map(str, RULE), "--out", out, *side]
    return measured([*words, dask[0]], dask[1]) if "--scheduler" in side else measured(words)


def run_rows(rows, count, runs, folder):
    """The rows of one layer: all their sides in turn, so often, and of each the best."""
    given, out = os.path.join(folder, "in.oas"), os.path.join(folder, "out.oas")
    measured([HERE, "make", rows[0].sort, str(count), given])
    sides = dict.fromkeys(side for row in rows for side in (row.ours, row.theirs))
    with contextlib.ExitStack() as around:
        dask = around.enter_context(two_dask_workers(folder)) if any("--scheduler" in side for side in sides) else None
        for _ in range(runs):
            for side, before in sides.items():
                one = run_side(side, given, out, dask)
                sides[side] = one.better(before or one)
    for row in rows:
        row.print(count, sides[row.ours], sides[row.theirs])


@contextlib.contextmanager
def two_dask_workers(folder):
    """A scheduler and two workers on the loopback, ready: the address, and the workers' processes."""
    import distributed

    file, quiet = os.path.join(folder, "scheduler.json"), {"stdout": subprocess.DEVNULL, "stderr": subprocess.DEVNULL}
    start = [sys.executable, "-m", "distributed.cli.dask_scheduler", "--host", "127.0.0.1", "--port", "0", "--no-dashboard"]
    running = [subprocess.Popen([*start, "--scheduler-file", file], **quiet)]
    try:
        worker = [sys.executable, "-m", "distributed.cli.dask_worker", "--scheduler-file", file, "--nthreads", "1"]
        worker += ["--no-nanny", "--no-dashboard", "--host", "127.0.0.1", "--local-directory", folder]
        running += [subprocess.Popen(worker, **quiet) for _ in range(2)]
        client = distributed.Client(scheduler_file=file, timeout=30, set_as_default=False)
        client.wait_for_workers(2, timeout=30)
        address = client.scheduler.address
        client.close()
        yield address, [process.pid for process in running[1:]]
    finally:
        for process in running:
            process.kill()
            process.wait()
        os.unlink(file)


DEEP, MERGED = "KLayout deep, decompose_trapezoids_to_region", "KLayout reads, merges deep, writes; nothing fractured"
FLAT, POOL = ("--windows",), ("--windows", "--workers", "2")
WHEELS = ("--pinwheels", "--workers")
ROWS = {
    "cells": Row("cells", "1,000 distinct, in cells", (), "klayout_deep", DEEP, "1/5", "1/5"),
    "merged": Row("cells", "1,000 distinct, in cells", (), "klayout_merged", MERGED, "1.15", "1.2"),
    "rails": Row("rails", "rails across cells", ("--beyond",), "klayout_deep", DEEP, "0.7", "0.6"),
    "distinct": Row("distinct", "a tenth distinct, in cells", (), "klayout_deep", DEEP, "0.7", "0.6"),
    "flat": Row("flat", "flat", FLAT, "klayout_tiles", "TilingProcessor, 1 thread", "0.9"),
    "flat-2": Row("flat", "flat", POOL, "klayout_tiles_2", "TilingProcessor, 2 threads", "0.8"),
    "windows": Row("flat", "flat", POOL, FLAT, "1 worker", "0.65"),
    "pinwheels": Row("many_lines", "distinct, 12 to 16 lines each way", (*WHEELS, "2"), (*WHEELS, "1"), "1 worker", "0.6"),
    "dask": Row("flat", "flat", ("--windows", "--scheduler"), POOL, "a pool of two", "1.15"),
}


def tiles(count, folder):
    """The shots that tiles add at their borders, and that windows do not."""
    given, out = os.path.join(folder, "in.oas"), os.path.join(folder, "out.oas")
    measured([HERE, "make", "flat", str(count), given])
    command = [COMMAND, given, "--layer", "4/0", "--rule", *map(str, RULE), "--out", out]
    found = []
    for whole, parted in (([HERE, "road", "klayout_flat", given, out], [HERE, "road", "klayout_tiles", given, out]),
                          ([*command, "--hierarchy"], [*command, "--windows"])):
        for words in (whole, parted):
            measured(words)
            counted = subprocess.run([sys.executable, HERE, "shots", out], stdout=subprocess.PIPE, text=True, check=True)
            found.append(int(counted.stdout))
    for name, whole, parted in (("KLayout, 64 tiles", *found[:2]), ("ours, windows", *found[2:])):
        print_row(f"{count:,}", "flat", name, f"{whole:,}", f"{parted:,}", f"{parted - whole:,}", f"{100 * (parted / whole - 1):.3f} %")


TILES_HEAD = ("figures", "layer", "shots of", "in one piece", "in parts", "more", "in %")


class Weighed(NamedTuple):
    """Shots of a figure as our rule weighs them."""

    cost: int
    shots: int
    sliver: int


def weighed(drawn, rings, mode):
    """One of KLayout's decompositions of a figure, of right angles and so into rectangles."""
    from pinarewhemi_layer.figures import charged_sides

    boxes = [piece.bbox() for piece in drawn.decompose_trapezoids(mode)]
    shots = [number for box in boxes for number in (box.left, box.bottom, box.right, box.top)]
    _, sliver = charged_sides(rings, shots, RULE[0])
    return Weighed(1000 * len(boxes) + RULE[1] * sliver, len(boxes), sliver)


def our_own(rings, fracturer):
    done = fracturer.answer(rings)
    return None if done.refused is not None else Weighed(done.cost, len(done.shots) // 4, done.sliver)


MODES = "KLayout, simple", "KLayout, horizontal", "KLayout, vertical"
CHEAPEST, WHEELED = "KLayout, the cheapest of these", "ours, pinwheels too"


def compare(count, drawing):
    """Ours, each of KLayout's decompositions, the cheapest of these figure by figure and our pinwheels: what they are
    together over some figures, and the figures on which theirs is cheaper than our straight cuts."""
    from pinarewhemi_layer.core import rings_of
    from pinarewhemi_layer.figures import Fracturer

    db, chance, straight, wheels = database(), random.Random(7), Fracturer(*RULE), Fracturer(*RULE, pinwheels=True)
    totals, wins, compared = {}, [], 0
    for _ in range(count):
        drawn = drawing(db, chance)
        drawn = drawn.moved(-drawn.bbox().left, -drawn.bbox().bottom)
        rings = rings_of(drawn)
        found = {"ours": our_own(rings, straight)}
        if found["ours"] is None:
            continue
        compared += 1
        found.update((name, weighed(drawn, rings, mode)) for mode, name in enumerate(MODES))
        found[CHEAPEST] = min(found[name] for name in MODES)
        found[WHEELED] = our_own(rings, wheels)
        for name, one in found.items():
            totals[name] = Weighed(*map(sum, zip(one, totals.get(name, (0, 0, 0)))))
        if found[CHEAPEST].cost < found["ours"].cost:
            wins.append((sum(map(len, rings)) // 2, len(rings), found))
    return totals, wins, compared


def print_quality(title, count, drawing):
    """The tables of such a comparison."""
    totals, wins, compared = compare(count, drawing)
    print(f"\n{title}: {compared:,} figures\n")
    print_head(("", "shots", "sliver, nm", "cost", "ours costs less by", "its sliver by"))
    ours = totals["ours"]
    for name, (cost, shots, sliver) in totals.items():
        less = "", ""
        if name != "ours":
            less = f"{100 * (1 - ours.cost / cost):.1f} %", f"{100 * (1 - ours.sliver / sliver):.1f} %" if sliver else ""
        print_row(name, f"{shots:,}", f"{sliver:,}", f"{cost:,}", *less)
    dearer = sum(found[WHEELED].cost > found[CHEAPEST].cost for _, _, found in wins)
    print(f"\ntheirs is cheaper on {len(wins)} of {compared:,} figures, on {dearer} of them than our pinwheels too")
    if wins:
        print()
        print_head(("corners", "rings", "ours", "theirs", "ours, pinwheels too"))
    for corners, rings, found in sorted(wins, key=lambda win: win[2][CHEAPEST].cost - win[2]["ours"].cost)[:10]:
        shown = (found[name] for name in ("ours", CHEAPEST, WHEELED))
        print_row(corners, rings, *(f"{one.cost:,} ({one.shots} shots, {one.sliver} nm)" for one in shown))


def quality():
    """The tables of docs/LAYER.md: small random figures, such as layouts have, and bars that cross."""
    from tests.drawn import crossing, drawn

    print_quality("Unions of one to five boxes of 8 to 70 nm", 2000, figure)
    print_quality("Figures as layouts have them", 4000, drawn)
    print_quality("Bars that cross", 10000, crossing)


# What a process of its own does for another.
INSIDE = {"make": make, "road": lambda road, *files: ROADS[road](*files), "shots": count_shots}


def main(words):
    if words[:1] and words[0] in INSIDE:
        INSIDE[words[0]](*words[1:])
        return
    counts, runs, rows = None, 2, []
    words = iter(words)
    for word in words:
        if word == "--figures":
            counts = [int(number) for number in next(words, "").split(",")]
        elif word == "--runs":
            runs = int(next(words, ""))
        else:
            rows.append(word)
    known = [*ROWS, "tiles", "quality"]
    if not rows or not set(rows) <= {*known, "all"}:
        raise SystemExit(f"{__doc__}\n\nThe rows: {', '.join(known)}, all")
    rows = known if "all" in rows else rows
    with tempfile.TemporaryDirectory() as folder:
        if set(rows) & set(ROWS):
            print_head(HEAD)
        asked = [ROWS[name] for name in rows if name in ROWS]
        for count in counts or [10000]:
            for sort in dict.fromkeys(row.sort for row in asked):
                run_rows([row for row in asked if row.sort == sort], count, runs, folder)
        if "tiles" in rows:
            print()
            print_head(TILES_HEAD)
            for count in counts or [10000]:
                tiles(count, folder)
    if "quality" in rows:
        quality()


if __name__ == "__main__":
    main(sys.argv[1:])
