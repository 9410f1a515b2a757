"""End to end: layers that KLayout made through the command, read back by KLayout."""

import contextlib
import csv
import io
import itertools
import os
import pty
import resource
import shutil
import signal
import subprocess
import sys
import tempfile
import time
import unittest
from contextlib import redirect_stderr, redirect_stdout

import pinarewhemi
from pinarewhemi_layer import command, klayout_db
from pinarewhemi_layer.core import Told, fracture_layer, rings_of

from . import layers

db = klayout_db.find()
ROOT = os.path.dirname(os.path.dirname(os.path.dirname(os.path.abspath(__file__))))
COMMAND = [sys.executable, os.path.join(ROOT, "layer", "pinarewhemi-layer")]


def region_of(layout, cell, number, datatype):
    """The shapes of a layer, flat and as they are."""
    region = db.Region()
    index = layout.find_layer(number, datatype)
    if index is not None:
        region = db.Region(cell.begin_shapes_rec(index))
        region.merged_semantics = False
    return region


def expected(layout, cell, layer, fracture):
    """The totals of a layer by another road: merged flat by KLayout, each figure through the binding's own call.
    How many figures, shots, cost, sliver, and how many were refused by what number."""
    region = db.Region(cell.begin_shapes_rec(layout.find_layer(*layer)))
    region.min_coherence = True
    totals, refused = [0, 0, 0, 0], {}
    for figure in region.merged().each():
        totals[0] += 1
        box = figure.bbox()
        if max(box.width(), box.height()) > 65535:
            refused[18] = refused.get(18, 0) + 1
            continue
        rings = [list(zip(ring[0::2], ring[1::2])) for ring in rings_of(figure.moved(-box.left, -box.bottom))]
        try:
            done = fracture(rings)
        except pinarewhemi.Refused as no:
            refused[int(no.number)] = refused.get(int(no.number), 0) + 1
            continue
        totals[1:] = totals[1] + len(done.shots), totals[2] + done.cost, totals[3] + done.sliver
    return totals, refused


class WithFolder(unittest.TestCase):
    def setUp(self):
        self.folder = tempfile.mkdtemp()
        self.addCleanup(shutil.rmtree, self.folder)

    def path(self, name):
        return os.path.join(self.folder, name)

    def stored(self, layout, name):
        layout.write(self.path(name))
        return self.path(name)

    def run_command(self, *words):
        """Status, standard output, standard error of the command, run in this process."""
        out, err = io.StringIO(), io.StringIO()
        before = {number: signal.getsignal(number) for number in (signal.SIGINT, signal.SIGTERM, signal.SIGHUP)}
        try:
            with redirect_stdout(out), redirect_stderr(err):
                status = command.main(list(map(str, words)))
        finally:
            for number, action in before.items():
                signal.signal(number, action)
        return status, out.getvalue(), err.getvalue()

    def check(self, layout, out, line, fracture, cell="TOP"):
        """The file `out` and the line of totals are those of the layer 4/0 of the layout."""
        found = db.Layout()
        found.read(out)
        top, read = found.cell(cell), layout.cell(cell)
        shots, beyond = region_of(found, top, 4, 1), region_of(found, top, 4, 9)
        # merged by KLayout, flat: where slanted figures cross, its merging rounds their corners, on any road
        drawn = db.Region(read.begin_shapes_rec(layout.find_layer(4, 0))).merged()
        self.assertTrue(((shots + beyond) ^ drawn).is_empty(), "shots and what is beyond are not the layer")
        both = (shots + beyond).merged()
        self.assertEqual(shots.area() + beyond.merged().area(), both.area(), "shots share area")
        self.assertTrue(all(shot.is_box() for shot in shots.each()), "a shot is no rectangle")
        totals, refused = expected(layout, read, (4, 0), fracture)
        told = dict(zip(line.split()[0::2], line.split()[1::2]))
        names = ("figures", "shots", "cost", "sliver")
        self.assertEqual([int(told[name]) for name in names], totals)
        self.assertEqual({int(name[8:]): int(n) for name, n in told.items() if name.startswith("refused-")}, refused)
        self.assertEqual(int(told["beyond"]), sum(refused.values()))
        self.assertEqual(shots.count(), totals[1])
        edges = db.Edges()
        sides = found.find_layer(4, 2)
        length = 0
        if sides is not None:
            paths = top.begin_shapes_rec(sides)
            while not paths.at_end():
                ends = list(paths.shape().path.transformed(paths.trans()).each_point())
                self.assertEqual((paths.shape().path_width, len(ends)), (0, 2))
                edges.insert(db.Edge(*ends))
                length += db.Edge(*ends).length()
                paths.next()
        self.assertEqual(length, totals[3], "the charged sides are not as long as the sliver")
        self.assertTrue((edges - drawn.edges()).is_empty(), "a charged side is not a wall of the figure")
        return found


class EndToEnd(WithFolder):
    def test_the_chip(self):
        """GDSII and OASIS, in and out; the totals are those of a flat merge and the binding's own call."""
        layout = layers.make(db)
        flat = None
        for ending in ("gds", "oas"):
            given = self.stored(layers.make(db), f"in.{ending}")
            out = self.path(f"out.{ending}")
            status, line, said = self.run_command(given, "--layer", "4/0", "--rule", 25, 40, "--out", out)
            self.assertEqual((status, said), (1, ""), "three figures are refused, and nothing else is said")
            found = self.check(layout, out, line, lambda rings: pinarewhemi.fracture(rings, 25, 40))
            self.assertIsNone(found.find_layer(4, 0))
            self.assertIsNone(found.find_layer(7, 0))
            self.assertTrue({cell.name for cell in layout.each_cell()} <= {cell.name for cell in found.each_cell()})
            self.assertFalse([name for name in os.listdir(self.folder) if name.startswith(".")])
            if flat is not None:
                self.assertEqual(line, flat, "GDSII and OASIS give other totals")
            flat = line

    def test_pinwheels_and_largest(self):
        """Beside each other in one orientation: the shots of a turned copy are those of its cell, turned, and where two
        lists cost the same, dividing them may not."""
        layout = layers.make(db, layers.ORIENTATIONS[:1])
        given = self.stored(layout, "in.oas")
        roads = {
            ("--pinwheels",): lambda rings: pinarewhemi.fracture_pinwheel(rings, 25, 40),
            ("--largest", 200): lambda rings: pinarewhemi.fracture_divided(rings, 25, 40, 200),
            ("--largest", 300, "--pinwheels"): lambda rings: pinarewhemi.fracture_pinwheel_divided(rings, 25, 40, 300),
        }
        for words, fracture in roads.items():
            with self.subTest(words):
                status, line, _ = self.run_command(
                    given, "--layer", "4/0", "--rule", 25, 40, "--out", self.path("out.oas"), *words
                )
                self.assertEqual(status, 1)
                self.check(layout, self.path("out.oas"), line, fracture)

    def test_every_figure_fractured(self):
        """Nothing beyond: status 0, and an empty threshold leaves no side charged."""
        layout = db.Layout()
        layers.contacts(db, layout.create_cell("TOP"), layout.layer(4, 0))
        given = self.stored(layout, "in.gds")
        status, line, said = self.run_command(given, "--layer", 4, "--rule", 0, 0, "--out", self.path("out.gds"))
        self.assertEqual((status, said), (0, ""))
        self.assertEqual(line, "layer 4/0 figures 31 distinct 1 shots 31 cost 31000 sliver 0 beyond 0\n")
        self.check(layout, self.path("out.gds"), line, lambda rings: pinarewhemi.fracture(rings, 0, 0))

    def test_hierarchy_is_kept(self):
        """A cell placed 10,000 times is fractured once and its shots stand once."""
        layout = db.Layout()
        cell, top = layout.create_cell("A"), layout.create_cell("TOP")
        layers.combs(db, cell, layout.layer(4, 0))
        top.insert(db.CellInstArray(cell.cell_index(), db.Trans(), db.Vector(5000, 0), db.Vector(0, 500), 100, 100))
        given = self.stored(layout, "in.oas")
        status, line, _ = self.run_command(
            given, "--layer", 4, "--rule", 25, 40, "--out", self.path("out.oas"), "--report", self.path("r.csv")
        )
        self.assertEqual(status, 1)
        self.assertIn("figures 50000 distinct 5 ", line)
        self.assertIn("beyond 10000 refused-2 10000", line)
        found = db.Layout()
        found.read(self.path("out.oas"))
        self.assertLess(sum(c.shapes(found.find_layer(4, 1)).size() for c in found.each_cell()), 30)
        self.assertEqual([i.cell_inst.size() for i in found.cell("TOP").each_inst()], [10000])
        with open(self.path("r.csv"), newline="") as report:
            lines = list(csv.DictReader(report))
        self.assertEqual([int(row["copies"]) for row in lines], [10000] * 5)
        self.assertEqual(sorted(int(row["corners"]) for row in lines), [8, 12, 20, 32, 36])
        self.assertEqual([row["refused"] for row in lines if int(row["corners"]) == 36], ["2"])
        shots = sum(int(row["copies"]) * int(row["shots"] or 0) for row in lines)
        self.assertIn(f"shots {shots} ", line)

    def test_copies_in_one_cell_are_placed(self):
        """Where a figure stands often in one cell, its shots are a cell of their own, and it reads back the same."""
        layout = db.Layout()
        top = layout.create_cell("TOP")
        for x in range(40):
            top.shapes(layout.layer(4, 0)).insert(layers.comb(db, 3, 50, 20, 200, 30).moved(300 * x, 7 * x))
        given = self.stored(layout, "in.gds")
        status, line, _ = self.run_command(given, "--layer", 4, "--rule", 25, 40, "--out", self.path("out.gds"))
        self.assertEqual(status, 0)
        found = self.check(layout, self.path("out.gds"), line, lambda rings: pinarewhemi.fracture(rings, 25, 40))
        self.assertEqual(found.cells(), 2)
        self.assertEqual(found.cell("TOP").child_instances(), 40)

    def test_keep_and_cell(self):
        """What is kept is IN's, and a cell is taken with what it calls."""
        layout = layers.make(db)
        given = self.stored(layers.make(db), "in.oas")
        out = self.path("out.oas")
        words = (given, "--layer", "4/0", "--rule", 25, 40, "--out", out, "--keep", "--cell", "PAIR")
        status, line, _ = self.run_command(*words)
        self.assertEqual(status, 0)
        found = self.check(layout, out, line, lambda rings: pinarewhemi.fracture(rings, 25, 40), cell="PAIR")
        self.assertIsNone(found.cell("TOP"))
        for number in (4, 7):
            kept = region_of(found, found.cell("PAIR"), number, 0)
            self.assertTrue((kept ^ region_of(layout, layout.cell("PAIR"), number, 0)).is_empty())
            self.assertFalse(kept.is_empty())
        again = self.run_command(out, "--layer", "4/0", "--rule", 25, 40, "--out", self.path("2.oas"), "--keep")
        self.assertEqual(again[0], 2)
        self.assertIn("there are shapes on 4/1 already", again[2])

    def test_the_layer_that_shots_go_to(self):
        """A layer L/1 may be read too, where nothing is kept."""
        layout = db.Layout()
        layers.contacts(db, layout.create_cell("TOP"), layout.layer(4, 1))
        given = self.stored(layout, "in.gds")
        status, line, _ = self.run_command(given, "--layer", "4/1", "--rule", 25, 40, "--out", self.path("out.gds"))
        self.assertEqual(status, 0)
        self.assertIn("figures 31 distinct 1 shots 31 ", line)

    def test_same_bytes_again(self):
        given = self.stored(layers.make(db), "in.oas")
        for ending in ("gds", "oas"):
            held = []
            for out in (self.path(f"1.{ending}"), self.path(f"2.{ending}")):
                self.run_command(given, "--layer", 4, "--rule", 25, 40, "--out", out)
                with open(out, "rb") as file:
                    held.append(file.read())
            self.assertEqual(*held)


class Trees(unittest.TestCase):
    """A layout with several trees of cells, fractured in place below one of them."""

    def made(self, dbu=0.001):
        layout = db.Layout()
        layout.dbu = dbu
        layer = layout.layer(4, 0)
        shared, odd, below = layout.create_cell("SHARED"), layout.create_cell("ODD"), layout.create_cell("BELOW")
        layers.contacts(db, shared, layer)
        layers.combs(db, below, layer)
        odd.insert(db.CellInstArray(below.cell_index(), db.Trans(1, False, 50, 60)))
        for name, place in (("A", db.Trans(0, False, 0, 0)), ("B", db.Trans(1, True, 700, 300))):
            top = layout.create_cell(name)
            top.insert(db.CellInstArray(shared.cell_index(), place, db.Vector(1000, 0), db.Vector(0, 900), 2, 3))
            top.shapes(layer).insert(db.Box(5000, 0, 5030, 400))
        layout.cell("A").insert(db.CellInstArray(odd.cell_index(), db.ICplxTrans(2.0, 0, False, 9000, 0)))
        return layout

    def test_others_stay(self):
        """Cell by cell, the other tree is drawn as it was, also where the unit becomes finer; and it can be next."""
        for dbu, scale in ((0.001, 1), (0.005, 5)):
            before, layout = self.made(dbu), self.made(dbu)
            with self.assertRaisesRegex(Told, "it has 2 top cells"):
                fracture_layer(db, layout, (4, 0), 25, 40)
            done = fracture_layer(db, layout, (4, 0), 25, 40, cell="A")
            self.assertEqual((done.figures, round(layout.dbu, 9)), (6 * 31 + 1 + 5, 0.001))
            # what stood nowhere but magnified is shapes now, and no tree of its own
            self.assertEqual(sorted(cell.name for cell in layout.top_cells()), ["A", "B"])
            for name in ("A", "B"):
                drawn = region_of(before, before.cell(name), 4, 0).transformed(db.ICplxTrans(float(scale)))
                self.assertTrue((region_of(layout, layout.cell(name), 4, 0) ^ drawn).is_empty())
            shots = region_of(layout, layout.cell("A"), 4, 1) + region_of(layout, layout.cell("A"), 4, 9)
            self.assertTrue((shots ^ region_of(layout, layout.cell("A"), 4, 0)).is_empty())
            # the cell that both call has its shots already
            with self.assertRaisesRegex(Told, "there are shapes on 4/1 already"):
                fracture_layer(db, layout, (4, 0), 25, 40, cell="B")


class Units(WithFolder):
    """Database units other than 1 nm."""

    def one(self, dbu, *figures):
        layout = db.Layout()
        layout.dbu = dbu
        top = layout.create_cell("TOP")
        for numbers in figures:
            top.shapes(layout.layer(4, 0)).insert(layers.polygon(db, *numbers))
        return layout

    def line(self, layout, *words):
        given = self.stored(layout, "in.oas")
        out = self.path("out.oas")
        status, line, said = self.run_command(given, "--layer", 4, "--rule", 25, 40, "--out", out, *words)
        found = db.Layout()
        if os.path.exists(out):
            found.read(out)
        return status, line + said, found

    def test_half_nanometres(self):
        """Sizes in whole nm are fractured wherever they stand; others are beyond, and kept."""
        l = (0, 0, 200, 0, 200, 40, 120, 40, 120, 160, 0, 160)
        odd = (1000, 0, 1201, 0, 1201, 40, 1120, 40, 1120, 160, 1000, 160)
        status, line, found = self.line(self.one(0.0005, [n + 3001 for n in l], odd))
        self.assertEqual(line, "layer 4/0 figures 2 distinct 2 shots 2 cost 5200 sliver 80 beyond 1 off-grid 1\n")
        self.assertEqual((status, round(found.dbu, 9)), (1, 0.0005))
        shots = sorted(shape.box.to_s() for shape in found.top_cell().shapes(found.layer(4, 1)).each())
        self.assertEqual(shots, ["(3001,3001;3121,3161)", "(3121,3001;3201,3041)"])
        self.assertEqual(found.top_cell().shapes(found.layer(4, 9)).size(), 1)

    def test_five_nanometres(self):
        """Scaled up to 1 nm, so that a divided shot has a place."""
        status, line, found = self.line(self.one(0.005, (0, 0, 87, 0, 87, 9, 0, 9)), "--largest", 217)
        self.assertEqual((status, round(found.dbu, 9)), (0, 0.001))
        self.assertIn("shots 3 cost 3000 ", line)
        shots = sorted(shape.box.to_s() for shape in found.top_cell().shapes(found.layer(4, 1)).each())
        self.assertEqual(shots, ["(0,0;145,45)", "(145,0;290,45)", "(290,0;435,45)"])

    def test_told(self):
        status, line, _ = self.line(self.one(0.00123456789, (0, 0, 87, 0, 87, 9, 0, 9)))
        self.assertEqual(status, 2)
        self.assertRegex(line, r"^pinarewhemi-layer: .*in\.oas: the database unit of 0\.00123457 um is neither .*\n$")


class Forms(unittest.TestCase):
    def test_a_form_stands_for_its_copies(self):
        """What a figure moved to 0, 0 is fractured into is, moved back, what the library gives where it stands."""
        layout = db.Layout()
        top = layout.create_cell("TOP")
        layers.skylines(db, top, layout.layer(4, 0), 3, 100)
        compared = 0
        for figure in db.Region(top.begin_shapes_rec(0)).merged().each():
            box = figure.bbox()
            there = [list(zip(r[0::2], r[1::2])) for r in rings_of(figure)]
            here = [[(x - box.left, y - box.bottom) for x, y in ring] for ring in there]
            try:
                at_place, at_zero = pinarewhemi.fracture(there, 25, 40), pinarewhemi.fracture(here, 25, 40)
            except pinarewhemi.Refused:
                continue
            x, y = box.left, box.bottom
            self.assertEqual(at_place.shots, [(a + x, b + y, c + x, d + y) for a, b, c, d in at_zero.shots])
            self.assertEqual(at_place[1:], at_zero[1:])
            compared += 1
        self.assertGreater(compared, 100)

    def test_turned_copies_cost_the_same(self):
        """In all eight orientations the cost is the same. (Shots and sliver need not be: where so many shots more cost
        what so much sliver less saves, the tie order decides, and it does not turn with the figure.)"""
        layout = db.Layout()
        top = layout.create_cell("TOP")
        layers.skylines(db, top, layout.layer(4, 0), 4, 60)
        compared = 0
        for figure in db.Region(top.begin_shapes_rec(0)).merged().each():
            told = []
            for turn, mirrored in layers.ORIENTATIONS:
                turned = figure.transformed(db.Trans(turn, mirrored, 0, 0))
                box = turned.bbox()
                rings = rings_of(turned.moved(-box.left, -box.bottom))
                try:
                    done = pinarewhemi.fracture([list(zip(r[0::2], r[1::2])) for r in rings], 25, 40)
                except pinarewhemi.Refused:
                    break
                told.append(done.cost)
            else:
                self.assertEqual(told, told[:1] * 8)
                compared += 1
        self.assertGreater(compared, 60)


class Faults(WithFolder):
    """Everything that goes wrong is one line, a status, and no file."""

    def fails(self, *words, status=2, says=""):
        ended, line, said = self.run_command(*words)
        self.assertEqual((ended, line), (status, ""), said)
        self.assertRegex(said, r"^pinarewhemi-layer: [^\n]+\n$")
        self.assertIn(says, said)
        self.assertFalse([name for name in os.listdir(self.folder) if "out" in name or name.startswith(".")])

    def test_told_in_a_line(self):
        layout = db.Layout()
        layers.contacts(db, layout.create_cell("TOP"), layout.layer(4, 0))
        given = self.stored(layout, "in.gds")
        layout.create_cell("OTHER")
        two = self.stored(layout, "two.gds")
        with open(self.path("noise.gds"), "wb") as noise:
            noise.write(bytes(range(256)) * 8)
        rule = ("--rule", 25, 40)
        out = ("--out", self.path("out.gds"))
        self.fails(self.path("none.gds"), "--layer", 4, *rule, *out, says="none.gds: No such file or directory")
        self.fails(self.folder, "--layer", 4, *rule, *out, says="not a file")
        self.fails(self.path("noise.gds"), "--layer", 4, *rule, *out, says="noise.gds: cannot be read: ")
        self.fails(given, "--layer", "5/0", *rule, *out, says="in.gds: there is nothing on layer 5/0")
        self.fails(given, "--layer", 4, *rule, *out, "--cell", "NONE", says="in.gds: there is no cell NONE")
        self.fails(two, "--layer", 4, *rule, *out, says="two.gds: it has 2 top cells (OTHER, TOP): --cell names one")
        self.fails(given, "--layer", 4, "--rule", 1001, 40, *out, status=1, says="refused 1: ")
        self.fails(given, "--layer", 4, *rule, *out, "--largest", 199, status=1, says="refused 19: ")
        self.fails(given, "--layer", 4, *rule, "--out", self.path("out.txt"), says="has to end in .gds or .oas")
        self.fails(given, "--layer", 4, *rule, "--out", self.path("no/out.gds"), says="there is no folder")
        self.fails(given, "--layer", 4, *rule, *out, "--report", self.path("no/r.csv"), says="there is no folder")
        self.fails(given, "--layer", 4, *rule, *out, "--report", self.path("./out.gds"), says="out.gds are one file")
        self.fails(given, "--layer", 4, *rule, *out, "--report", self.folder, says="it is a folder")
        for path in ("/dev/null", self.path("pipe")):
            if path != "/dev/null":
                os.mkfifo(path)
            self.fails(given, "--layer", 4, *rule, *out, "--report", path, says="it is there, and no regular file")
            self.assertFalse(os.path.isfile(path))

    def test_links(self):
        """An output that is a symbolic link stays one: the file that it leads to is written, beside which it was aside."""
        given = self.stored(layers.make(db), "in.oas")
        os.mkdir(self.path("far"))
        for name, target in (("out.oas", "far/there.gz"), ("r.csv", "far/r")):
            with open(self.path(target), "w") as file:
                file.write("as it was")
            os.symlink(target, self.path(name))
        words = (given, "--layer", 4, "--rule", 25, 40)
        self.assertEqual(self.run_command(*words, "--out", self.path("out.oas"), "--report", self.path("r.csv"))[0], 1)
        self.assertEqual(self.run_command(*words, "--out", self.path("2.oas"), "--report", self.path("2.csv"))[0], 1)
        for name, target, plain in (("out.oas", "far/there.gz", "2.oas"), ("r.csv", "far/r", "2.csv")):
            self.assertTrue(os.path.islink(self.path(name)))
            with open(self.path(target), "rb") as ours, open(self.path(plain), "rb") as file:
                self.assertEqual(ours.read(), file.read())
        self.assertEqual(sorted(os.listdir(self.path("far"))), ["r", "there.gz"])

    def test_standard_output(self):
        """The line of totals cannot be printed: that is told of standard output, not of a file."""
        given = self.stored(layers.make(db), "in.oas")
        words = [*COMMAND, given, "--layer", "4", "--rule", "25", "40", "--out", self.path("out.oas")]
        closed = ["/bin/sh", "-c", 'exec "$@" >&-', "sh", *words]
        for run, output, says in ((words, "/dev/full", "No space left on device"), (closed, "/dev/null", "it is closed")):
            with open(output, "w") as file:
                ended = subprocess.run(run, stdout=file, stderr=subprocess.PIPE, text=True)
            self.assertEqual((ended.returncode, ended.stderr), (2, f"pinarewhemi-layer: standard output: {says}\n"))

    def test_no_library(self):
        around = {**os.environ, "PINAREWHEMI_LIBRARY": self.path("none.so")}
        words = ["in.gds", "--layer", "4", "--rule", "25", "40", "--out", self.path("out.gds")]
        ended = subprocess.run(COMMAND + words, env=around, capture_output=True, text=True)
        self.assertEqual((ended.returncode, ended.stdout), (2, ""))
        self.assertRegex(ended.stderr, r"^pinarewhemi-layer: no libpinarewhemi\.so [^\n]*\n$")

    def test_words(self):
        """Words that are wrong or lacking, each beside all others as they should be."""
        good = {"--layer": ["4/0"], "--rule": ["25", "40"], "--out": ["out.gds"]}
        for word, given, says in (
            ("--layer", ["4/x"], "argument --layer: '4/x' is not a layer as 4/0"),
            ("--layer", ["4/"], "argument --layer: '4/' is not a layer as 4/0"),
            ("--layer", None, "the following arguments are required: --layer"),
            ("--rule", ["25"], "argument --rule: expected 2 arguments"),
            ("--rule", ["2.5", "40"], "argument --rule: '2.5' is not a whole number"),
            ("--rule", None, "the following arguments are required: --rule"),
            ("--out", None, "the following arguments are required: --out"),
            ("--largest", ["1e3"], "argument --largest: '1e3' is not a whole number"),
            ("--workers", ["0"], "argument --workers: '0' is not 1 to 256"),
            ("--workers", ["257"], "argument --workers: '257' is not 1 to 256"),
            ("--sideways", [], "unrecognized arguments: --sideways"),
        ):
            words = ["in.gds"]
            for name, values in {**good, word: given}.items():
                words += [name, *values] if values is not None else []
            with self.assertRaises(SystemExit) as ended, redirect_stderr(io.StringIO()) as said:
                command.main(words)
            self.assertEqual(ended.exception.code, 2)
            self.assertEqual(said.getvalue().splitlines()[-1], f"pinarewhemi-layer: error: {says}")
        for pair in (["--windows", "--hierarchy"], ["--workers", "2", "--scheduler", "tcp://127.0.0.1:9"]):
            with self.assertRaises(SystemExit) as ended, redirect_stderr(io.StringIO()) as said:
                command.main(["in.gds", "--layer", "4/0", "--rule", "25", "40", "--out", "out.gds", *pair])
            self.assertEqual(ended.exception.code, 2)
            self.assertIn(": not allowed with argument ", said.getvalue())

    def test_cut_files(self):
        """A file that was cut is told. (An OASIS file ends in a record that is padded to 256 bytes: where the cut is in
        the padding nothing is lost, and what comes out is what comes of the whole file.)"""
        layout = db.Layout()
        cell, top = layout.create_cell("A"), layout.create_cell("TOP")
        layers.combs(db, cell, layout.layer(4, 0))
        top.insert(db.CellInstArray(cell.cell_index(), db.Trans()))
        out = self.path("out.gds")
        for ending in ("gds", "oas"):
            with open(self.stored(layout, f"in.{ending}"), "rb") as file:
                whole = file.read()
            told = 0
            for length in sorted({*range(0, len(whole), max(1, len(whole) // 80)), *range(len(whole) - 6, len(whole) + 1)}):
                with open(self.path(f"cut.{ending}"), "wb") as file:
                    file.write(whole[:length])
                words = (self.path(f"cut.{ending}"), "--layer", 4, "--rule", 25, 40, "--out", out)
                status, line, said = self.run_command(*words)
                if length == len(whole) or (ending == "oas" and length > len(whole) - 250 and status == 1):
                    self.assertEqual(line, "layer 4/0 figures 5 distinct 5 shots 22 cost 266800 sliver 6120 beyond 1 refused-2 1\n")
                    os.unlink(out)
                    continue
                self.assertEqual((status, line), (2, ""), f"{ending} cut to {length} of {len(whole)}: {line}{said}")
                self.assertRegex(said, r"^pinarewhemi-layer: [^\n]+\n$")
                self.assertFalse(os.path.exists(out))
                told += 1
            self.assertGreater(told, 40)

    def test_full_disk(self):
        """Where writing fails in the middle, no file is left, and one that was there is as it was."""
        given = self.stored(layers.make(db), "in.oas")
        out = self.path("out.gds")
        with open(out, "w") as file:
            file.write("as it was")

        def little_room():
            resource.setrlimit(resource.RLIMIT_FSIZE, (4096, 4096))

        words = [given, "--layer", "4", "--rule", "25", "40", "--out", out]
        ended = subprocess.run(COMMAND + words, preexec_fn=little_room, capture_output=True, text=True)
        self.assertEqual((ended.returncode, ended.stdout), (2, ""), ended.stderr)
        self.assertRegex(ended.stderr, r"^pinarewhemi-layer: [^\n]*out\.gds: cannot be written: [^\n]+\n$")
        self.assertEqual(sorted(os.listdir(self.folder)), ["in.oas", "out.gds"])
        with open(out) as file:
            self.assertEqual(file.read(), "as it was")

    def test_interrupted(self):
        """Ctrl-C at any time: a whole file or none, and nothing beside it."""
        layout = db.Layout()
        top = layout.create_cell("TOP")
        layers.skylines(db, top, layout.layer(4, 0), 5, 1500)
        given = self.stored(layout, "in.gds")
        words = [given, "--layer", "4", "--rule", "25", "40", "--out", self.path("out.gds")]
        began = time.monotonic()
        self.assertIn(subprocess.run(COMMAND + words, capture_output=True).returncode, (0, 1))
        took = time.monotonic() - began
        with open(self.path("out.gds"), "rb") as file:
            whole = file.read()
        stopped = 0
        for step in range(10):
            os.unlink(self.path("out.gds")) if os.path.exists(self.path("out.gds")) else None
            running = started(words)
            time.sleep(took * (0.1 + 0.1 * step))
            running.send_signal(signal.SIGINT)
            _, said = running.communicate()
            left = sorted(os.listdir(self.folder))
            if running.returncode in (0, 1):
                self.assertEqual(left, ["in.gds", "out.gds"])
                with open(self.path("out.gds"), "rb") as file:
                    self.assertEqual(file.read(), whole)
            else:
                self.assertIn(running.returncode, (-signal.SIGINT, 130), said)
                self.assertEqual(left, ["in.gds"])
                stopped += 1
        self.assertGreater(stopped, 0)

    def test_interrupted_with_workers(self):
        """Ctrl-C while two workers work: they end too, and no half file is left."""
        layout = db.Layout()
        top = layout.create_cell("TOP")
        layers.skylines(db, top, layout.layer(4, 0), 5, 14000)
        given = self.stored(layout, "in.gds")
        words = [given, "--layer", "4", "--rule", "25", "40", "--out", self.path("out.gds"), "--windows", "--workers", "2"]
        running = started(words)
        workers = []
        while len(workers) < 2 and running.poll() is None:
            workers = children(running.pid)
            time.sleep(0.001)
        self.assertEqual(len(workers), 2)
        time.sleep(0.05)
        running.send_signal(signal.SIGINT)
        said = running.communicate()
        self.assertEqual(running.returncode, -signal.SIGINT, said)
        self.assertEqual(os.listdir(self.folder), ["in.gds"])
        until = time.monotonic() + 5
        while any(map(lives, workers)) and time.monotonic() < until:
            time.sleep(0.01)
        self.assertFalse([worker for worker in workers if lives(worker)])

    def test_ignored_stays_ignored(self):
        """What was ignored when the command began (nohup, a job in the background) does not end it."""
        layout = db.Layout()
        top = layout.create_cell("TOP")
        layers.skylines(db, top, layout.layer(4, 0), 5, 500)
        given = self.stored(layout, "in.gds")
        words = [given, "--layer", "4", "--rule", "25", "40", "--out", self.path("out.gds")]
        for number in (signal.SIGINT, signal.SIGHUP):
            for more in ([], ["--windows", "--workers", "2"]):
                running = subprocess.Popen(
                    COMMAND + words + more,
                    stdout=subprocess.PIPE,
                    stderr=subprocess.PIPE,
                    text=True,
                    preexec_fn=lambda: signal.signal(number, signal.SIG_IGN),
                )
                while running.poll() is None:
                    for process in (running.pid, *children(running.pid)):
                        with contextlib.suppress(ProcessLookupError):
                            os.kill(process, number)
                    time.sleep(0.01)
                line, said = running.communicate()
                self.assertEqual((running.returncode, said), (0, ""))
                self.assertRegex(line, "^layer 4/0 figures ")


def started(words):
    """The command, which Ctrl-C ends also where these tests run in the background and it would be ignored."""
    return subprocess.Popen(
        COMMAND + words,
        stdout=subprocess.PIPE,
        stderr=subprocess.PIPE,
        text=True,
        preexec_fn=lambda: signal.signal(signal.SIGINT, signal.SIG_DFL),
    )


def children(process):
    """The processes that a process started (Linux)."""
    try:
        with open(f"/proc/{process}/task/{process}/children") as file:
            return [int(word) for word in file.read().split()]
    except OSError:
        return []


def lives(process):
    """Whether a process is there and no mere entry of one that has ended."""
    try:
        with open(f"/proc/{process}/stat") as file:
            return file.read().rpartition(")")[2].split()[0] not in "ZX"
    except OSError:
        return False


class Terminal(WithFolder):
    def test_bar(self):
        """On a terminal the stages are shown, and nothing of them is in the line of totals."""
        try:
            import tqdm  # noqa: F401
        except ImportError:
            self.skipTest("LEFT OUT: tqdm is not installed (Debian: apt-get install python3-tqdm)")
        given = self.stored(layers.make(db), "in.oas")
        words = [given, "--layer", "4", "--rule", "25", "40", "--out", self.path("out.oas")]
        ours, theirs = pty.openpty()
        running = subprocess.Popen(COMMAND + words, stdout=subprocess.PIPE, stderr=theirs, text=True)
        os.close(theirs)
        shown = b""
        # until its last writer has ended: Linux tells that by EIO, others by an empty read
        with contextlib.suppress(OSError):
            while more := os.read(ours, 65536):
                shown += more
        os.close(ours)
        shown, line = shown.decode(), running.communicate()[0]
        self.assertEqual(running.returncode, 1)
        self.assertRegex(line, r"^layer 4/0 figures 3470 [^\n]*\n$")
        for stage in ("reading", "merging", "placed", "writing"):
            self.assertIn(f"\r{stage}: ", shown)


class Inside(WithFolder):
    def test_core_inside_klayout(self):
        """The same core in `klayout -b -r`, over pya: the same totals."""
        program = shutil.which("klayout")
        if not program:
            self.skipTest("there is no program klayout")
        given = self.stored(layers.make(db), "in.oas")
        outside = fracture_layer(db, layers.make(db), (4, 0), 25, 40).line()
        with open(self.path("inside.py"), "w") as script:
            script.write(
                "import sys\n"
                f"sys.path[:0] = [{os.path.join(ROOT, 'layer')!r}, {os.path.join(ROOT, 'bindings', 'python')!r}]\n"
                "import pya\n"
                "from pinarewhemi_layer import fracture_layer, klayout_db\n"
                "assert klayout_db.find() is pya\n"
                "layout = pya.Layout()\n"
                f"layout.read({given!r})\n"
                "print(fracture_layer(pya, layout, (4, 0), 25, 40).line())\n"
            )
        around = {**os.environ, "HOME": self.folder, "QT_QPA_PLATFORM": "offscreen"}
        ended = subprocess.run([program, "-b", "-r", self.path("inside.py")], env=around, capture_output=True, text=True)
        self.assertEqual(ended.returncode, 0, ended.stderr)
        self.assertEqual(ended.stdout.strip().splitlines()[-1], outside)

    def test_drc_script(self):
        """The DRC script of docs/LAYER.md as it stands there: what it writes is what is beyond the limits."""
        program = shutil.which("klayout")
        if not program:
            self.skipTest("there is no program klayout")
        with open(os.path.join(ROOT, "docs", "LAYER.md")) as document:
            lines = document.read().partition("**From a DRC script**")[2].splitlines()[2:]
        script = list(itertools.takewhile(lambda line: line.startswith("    "), lines))
        self.assertGreater(len(script), 4)
        with open(self.path("beyond.drc"), "w") as file:
            file.write("".join(line[4:] + "\n" for line in script))
        self.stored(layers.make(db), "chip.gds")
        os.symlink(os.path.join(ROOT, "layer"), self.path("layer"))
        around = {**os.environ, "HOME": self.folder, "QT_QPA_PLATFORM": "offscreen"}
        words = [program, "-b", "-r", "beyond.drc"]
        ended = subprocess.run(words, cwd=self.folder, env=around, capture_output=True, text=True)
        self.assertEqual(ended.returncode, 0, ended.stderr)
        beyond = []
        for name in ("beyond.gds", "shots.oas"):
            found = db.Layout()
            found.read(self.path(name))
            beyond.append(region_of(found, found.top_cell(), 4, 9).merged())
        self.assertGreater(beyond[0].count(), 90)
        self.assertTrue((beyond[0] ^ beyond[1]).is_empty())

    def test_undone_in_the_window(self):
        """In KLayout's window, without a screen: fractured, the slivers in red, and undone in one step; where there are
        several top cells, fractured below the shown one, and the others stay."""
        program = shutil.which("klayout")
        if not program:
            self.skipTest("there is no program klayout")
        given = self.stored(layers.make(db), "in.oas")
        with open(self.path("window.py"), "w") as script:
            script.write(
                "import os, sys\n"
                f"sys.path[:0] = [{os.path.join(ROOT, 'layer')!r}, {os.path.join(ROOT, 'bindings', 'python')!r}]\n"
                "import pya\n"
                "from pinarewhemi_layer import window\n"
                "main = pya.MainWindow.instance()\n"
                f"main.load_layout({given!r}, 1)\n"
                "view = main.current_view()\n"
                "layout = view.active_cellview().layout()\n"
                "def seen():\n"
                "    return [(cell.name, cell.child_instances(), [cell.shapes(i).size() for i in layout.layer_indexes()])\n"
                "            for cell in layout.each_cell()]\n"
                "before = seen()\n"
                "print(window.fracture_shown(pya, view, (4, 0), 25, 40).line())\n"
                "looks = {p.source_datatype: p.frame_color & 0xffffff for p in view.each_layer() if p.source_layer == 4}\n"
                "between = seen()\n"
                "main.call_menu('cm_undo')\n"
                "print(between != before, seen() == before, looks[2] == 0xff0000)\n"
                "layout.create_cell('OTHER')\n"
                "print(window.fracture_shown(pya, view, (4, 0), 25, 40).line())\n"
                "print(sorted(cell.name for cell in layout.top_cells()))\n"
                "sys.stdout.flush()\n"
                "os._exit(0)\n"
            )
        around = {**os.environ, "HOME": self.folder, "QT_QPA_PLATFORM": "offscreen"}
        words = [program, "-z", "-nc", "-rx", "-e", "-r", self.path("window.py")]
        ended = subprocess.run(words, env=around, capture_output=True, text=True, timeout=60)
        outside = fracture_layer(db, layers.make(db), (4, 0), 25, 40).line()
        told = [outside, "True True True", outside, "['OTHER', 'TOP']"]
        self.assertEqual(ended.stdout.strip().splitlines()[-4:], told, ended.stderr)


if __name__ == "__main__":
    unittest.main()
