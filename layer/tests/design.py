"""The numbers that the design of the tool rests on, measured anew: what one step of it takes. The trial that settled the
design had the numbers in brackets (aarch64, one ring, windows as key-holed rings).

    PYTHONPATH=layer:bindings/python /usr/bin/python3 layer/tests/design.py"""

import concurrent.futures
import multiprocessing
import os
import random
import sys
import tempfile
import time

sys.path.insert(0, os.path.dirname(os.path.dirname(os.path.abspath(__file__))))

import pinarewhemi
from pinarewhemi_layer import beyond, jobs, klayout_db
from pinarewhemi_layer.core import rings_of
from pinarewhemi_layer.figures import Fracturer

from tests import measure

RULE = measure.RULE
db = klayout_db.find()


def least(function, runs=5):
    """The fewest seconds of some runs."""
    best = None
    for _ in range(runs):
        began = time.perf_counter()
        function()
        took = time.perf_counter() - began
        best = took if best is None else min(best, took)
    return best


def each(function, things):
    """A run of a function over things, and how long one takes, in us."""

    def run():
        for thing in things:
            function(thing)

    return 1e6 * least(run) / len(things)


def some_figures(count):
    chance, seen = random.Random(1), set()
    return [measure.new_figure(db, chance, seen) for _ in range(count)]


def keys(figures):
    """The key of a figure: KLayout's normal form, or its points in Python."""
    numbers = {}

    def by_klayout(figure):
        corner = figure.bbox().p1
        numbers.setdefault(figure.moved(-corner.x, -corner.y), 0)

    def by_points(figure):
        rings = rings_of(figure)
        x, y = min(rings[0][0::2]), min(rings[0][1::2])
        numbers.setdefault(tuple(tuple(n - (y if k % 2 else x) for k, n in enumerate(ring)) for ring in rings), 0)

    print(f"key: {each(by_klayout, figures):.1f} us by KLayout's form, {each(by_points, figures):.1f} by points (3.6, 12.6)")


def calls(figures):
    """A figure through the library by ctypes, and through a job: picked by an index, or outline by outline."""
    straight = Fracturer(*RULE)
    rings = [rings_of(figure.moved(-figure.bbox().left, -figure.bbox().bottom)) for figure in figures]
    whole = each(lambda figure: straight._call(straight._asked, straight._words, figure), rings)
    given, beside = straight._corners, straight._lengths

    def only(figure):
        straight._asked(given, count, beside, len(figure), *straight._words, *straight._lent)

    bare = 0
    for figure in rings:
        straight._call(straight._asked, straight._words, figure)
        count = sum(map(len, figure))
        bare += 1e6 * least(lambda: only(figure), 3)
    answered = each(straight.answer, rings)
    fitting = [figure for figure in rings if jobs.job_fits(figure)]
    bundle = jobs.pack(*RULE, [jobs.outline_of(figure) for figure in fitting])
    by_index = 1e6 * least(lambda: jobs.fracture_bundle(((*RULE, None, False), bundle))) / len(fitting)

    def by_outlines():
        for job in bundle:
            for number in range(pinarewhemi.job_check(job).outlines):
                figure = pinarewhemi.unpack(pinarewhemi.job_outline(job, number).data)
                straight.answer([[n for corner in ring for n in corner] for ring in figure])

    one_by_one = 1e6 * least(by_outlines, 2) / len(fitting)
    print(f"a figure by ctypes: {whole:.1f} us, {bare / len(rings):.1f} of it the call with all at hand (4.4, 1.3)")
    print(f"  with its charged sides and as an answer: {answered:.1f} us")
    print(f"  out of jobs: {by_index:.1f} us by the index, {one_by_one:.1f} outline by outline (the latter 9.2)")


def nothing(task):
    return task


def tasks():
    """What a task costs that does nothing: in Python's pool, and in dask."""
    context = multiprocessing.get_context("fork")
    with concurrent.futures.ProcessPoolExecutor(2, context) as pool:
        list(pool.map(nothing, range(100)))
        pooled = 1e6 * least(lambda: list(pool.map(nothing, range(2000), chunksize=50)), 3) / 2000
        single = 1e6 * least(lambda: list(pool.map(nothing, range(2000))), 3) / 2000
    with tempfile.TemporaryDirectory() as folder, measure.two_dask_workers(folder) as (address, _):
        import distributed

        client = distributed.Client(address, set_as_default=False)
        client.gather(client.map(nothing, range(100), pure=False))
        spread = 1e3 * least(lambda: client.gather(client.map(nothing, range(500), pure=False)), 3) / 500
        client.close()
    print(f"a task: {pooled:.0f} us in Python's pool, 50 at a time ({single:.0f} one by one), {spread:.1f} ms in dask (16 us, 1.5 ms)")


def rails():
    """How much of a layer with rails is beyond our limits, and what parts alone would cost."""
    layout = db.Layout()
    top, layer = layout.create_cell("TOP"), layout.layer(4, 0)
    measure.make_rails(db, layout, top, layer, 100000)
    region = db.Region(top.begin_shapes_rec(layer)).merged()
    straight = Fracturer(*RULE)
    large = [figure for figure in region.each() if figure.num_points() > 32 or figure.bbox().width() > 65535]
    share = 100 * len(large) / region.count()
    area = 100 * sum(figure.area() for figure in large) / region.area()
    most = max(figure.num_points() for figure in large)
    print(f"rails: {share:.2f} % of the figures, {area:.0f} % of the area, up to {most} corners (0.1 %, 16 %, 664)")
    totals = {}
    for figure in large[:20]:
        figure = figure.moved(-figure.bbox().left, -figure.bbox().bottom)
        rings = rings_of(figure)
        made = {"parts alone": [beyond.of_parts(db, straight, figure)]}
        made["KLayout's cheapest"] = [beyond.decomposed(figure, mode) for mode in range(3)]
        for name, ways in made.items():
            best = min((beyond.weigh(straight, rings, *way) for way in ways), key=lambda answer: answer.cost)
            shots, cost = totals.get(name, (0, 0))
            totals[name] = shots + len(best.shots) // 4, cost + best.cost
    told = "; ".join(f"{name} {shots} shots, cost {cost}" for name, (shots, cost) in totals.items())
    print(f"  of 20: {told} (parts alone had 22 % more shots and 4 % more cost)")


def merging():
    """The share of merging, by stages of a run."""
    for sort, count, road in (("cells", 1000000, "--hierarchy"), ("flat", 100000, "--windows")):
        with tempfile.TemporaryDirectory() as folder:
            given, out = os.path.join(folder, "in.oas"), os.path.join(folder, "out.oas")
            measure.measured([measure.HERE, "make", sort, str(count), given])
            from pinarewhemi_layer import command

            words = [given, "--layer", "4/0", "--rule", *map(str, RULE), "--out", out, road]
            began, stages = time.perf_counter(), []
            command.run(command.parser().parse_args(words), lambda stage, *_: stages.append((stage, time.perf_counter() - began)))
            ended = time.perf_counter() - began
            starts = {}
            for stage, at in stages:
                starts.setdefault(stage, at)
            told = ", ".join(f"{stage} from {at:.2f} s" for stage, at in starts.items())
            print(f"{sort}, {count:,} figures: {told}, done at {ended:.2f} s")


if __name__ == "__main__":
    figures = some_figures(1000)
    keys(figures)
    calls(figures)
    rails()
    tasks()
    merging()
