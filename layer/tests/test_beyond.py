"""Figures beyond the limits: with --beyond the right-angled ones are fractured too, and counted apart."""

import unittest

import pinarewhemi
from pinarewhemi_layer import beyond
from pinarewhemi_layer.core import fracture_layer, rings_of
from pinarewhemi_layer.figures import Fracturer, charged_sides

from . import layers
from .test_layer import WithFolder, db, region_of


class Beyond(WithFolder):
    def test_the_chip(self):
        """Only slanted figures stay beyond; shots and they are the layer exactly and share no area; the line adds up."""
        layout = layers.make(db)
        given = self.stored(layers.make(db), "in.oas")
        drawn = db.Region(layout.cell("TOP").begin_shapes_rec(layout.find_layer(4, 0))).merged()
        lines = {}
        for words in ((), ("--largest", 500), ("--pinwheels",), ("--windows",), ("--windows", "--workers", 2)):
            out = self.path("out.oas")
            status, line, said = self.run_command(given, "--layer", 4, "--rule", 25, 40, "--out", out, "--beyond", *words)
            self.assertEqual((status, said), (1, ""))
            found = db.Layout()
            found.read(out)
            top = found.cell("TOP")
            shots, left = region_of(found, top, 4, 1), region_of(found, top, 4, 9)
            self.assertTrue(((shots + left) ^ drawn).is_empty())
            self.assertEqual(shots.area() + left.merged().area(), drawn.area())
            self.assertTrue(left.rectilinear().is_empty())
            widest = max(max(shot.bbox().width(), shot.bbox().height()) for shot in shots.each())
            self.assertLessEqual(widest, 500 if "--largest" in words else 65535)
            before, unproved = line.split(" unproved ")
            told = dict(zip(before.split()[0::2], map(str, before.split()[1::2])))
            self.assertEqual(int(told["shots"]), shots.count())
            self.assertEqual(int(told["cost"]), 1000 * int(told["shots"]) + 40 * int(told["sliver"]))
            self.assertEqual(unproved.split()[:2], ["figures", "10"])
            lines[words] = line
        self.assertEqual(lines["--windows",], lines["--windows", "--workers", 2])

    def test_tangles(self):
        """Cells that overlap each other: every figure once, whole, however KLayout merges and splits."""
        for seed in (1647, 1889, 1987, *range(12)):
            layout = layers.tangle(db, seed)
            top = layout.cell("TOP")
            drawn = db.Region(top.begin_shapes_rec(layout.find_layer(4, 0)))
            drawn.min_coherence = True
            drawn = drawn.merged()
            if drawn.is_empty():
                continue
            done = fracture_layer(db, layout, (4, 0), 25, 40, beyond=beyond.of(db))
            shots = region_of(layout, top, 4, 1)
            self.assertTrue((shots ^ drawn).is_empty(), seed)
            self.assertEqual((shots.area(), shots.count(), done.figures), (drawn.area(), done.shots, drawn.count()), seed)
            self.assertFalse(done.refused)

    def test_cheapest(self):
        """No decomposition of KLayout's costs less by our rule than what is taken."""
        fracturer = Fracturer(25, 40)
        cheaper = 0
        for teeth, tooth in ((9, 20), (12, 30), (40, 24), (40, 26)):
            (comb,) = layers.comb(db, teeth, 60, tooth, 200, 24).each()
            rings = rings_of(comb)
            self.assertEqual(fracturer.answer(rings).refused, 2)
            taken = beyond.of(db)(fracturer, rings)
            self.assertEqual(taken.cost, 1000 * (len(taken.shots) // 4) + 40 * taken.sliver)
            for mode in range(3):
                theirs = [n for piece in comb.decompose_trapezoids(mode) for n in self.sides(piece.bbox())]
                sides, sliver = charged_sides(rings, theirs, 25)
                self.assertEqual(sliver, sum(abs(c - a) + abs(d - b) for a, b, c, d in sides))
                cost = 1000 * (len(theirs) // 4) + 40 * sliver
                self.assertLessEqual(taken.cost, cost)
                cheaper += taken.cost < cost
        self.assertGreater(cheaper, 0)

    def test_divided_as_the_library_does(self):
        layout = db.Layout()
        top = layout.create_cell("TOP")
        layers.skylines(db, top, layout.layer(4, 0), 8, 40)
        for figure in db.Region(top.begin_shapes_rec(0)).merged().each():
            box = figure.bbox()
            large = figure.moved(-box.left, -box.bottom).transformed(db.ICplxTrans(7.0))
            rings = [list(zip(ring[0::2], ring[1::2])) for ring in rings_of(large)]
            whole = [n for shot in pinarewhemi.fracture(rings, 25, 40).shots for n in shot]
            divided = [n for shot in pinarewhemi.fracture_divided(rings, 25, 40, 203).shots for n in shot]
            self.assertEqual(beyond.divide(whole, 203), divided)

    @staticmethod
    def sides(box):
        return box.left, box.bottom, box.right, box.top


if __name__ == "__main__":
    unittest.main()
