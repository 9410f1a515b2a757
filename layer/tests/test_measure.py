"""The measurements compare like with like: each road of KLayout's alone gives the layer that ours is given, and what is
compared figure by figure is weighed by one rule."""

import os
import random
import unittest

from pinarewhemi_layer.core import rings_of
from pinarewhemi_layer.figures import Fracturer

from . import drawn, measure
from .test_layer import WithFolder, db, region_of

COUNT = 100


class Roads(WithFolder):
    def test_same_layer(self):
        """Every sort of layer through every road: the union of what comes out is the layer."""
        for sort in measure.MAKERS:
            given, out = self.path("in.oas"), self.path("out.oas")
            measure.make(sort, COUNT, given)
            layout = db.Layout()
            layout.read(given)
            wanted = region_of(layout, layout.top_cell(), 4, 0).merged()
            self.assertGreaterEqual(wanted.count(), COUNT // 10)
            for name, road in measure.ROADS.items():
                road(given, out)
                found = db.Layout()
                found.read(out)
                shots = region_of(found, found.top_cell(), 4, 1)
                self.assertTrue((shots ^ wanted).is_empty(), (sort, name))
                self.assertEqual(shots.area(), wanted.area(), (sort, name))
                os.unlink(out)

    def test_distinct(self):
        """Where figures are said to be distinct they are."""
        layout = db.Layout()
        top, layer = layout.create_cell("TOP"), layout.layer(4, 0)
        measure.in_cells(db, layout, top, layer, COUNT, COUNT)
        forms = set()
        for cell in layout.each_cell():
            for shape in cell.shapes(layer).each():
                box = shape.polygon.bbox()
                forms.add(shape.polygon.moved(-box.left, -box.bottom))
        self.assertEqual(len(forms), COUNT)

    def test_measured(self):
        """A run has its seconds and its memory; one that fails is told."""
        given = self.path("in.oas")
        one = measure.measured([measure.HERE, "make", "cells", "100", given])
        self.assertTrue(os.path.exists(given))
        self.assertTrue(0 < one.worked < 60 and 0 < one.seconds < 60, one)
        self.assertTrue(10 < one.peaks[0] < 2000, one)
        with self.assertRaises(SystemExit):
            measure.measured(["-c", "import sys; sys.exit(7)"])


class Quality(unittest.TestCase):
    def test_weighed(self):
        """Pinwheels never cost more than straight cuts, the cheapest is none of the three that costs more, and where
        theirs is cheaper than ours is where it is said."""
        for drawing in (measure.figure, drawn.drawn, drawn.crossing):
            totals, wins, compared = measure.compare(200, drawing)
            self.assertEqual(compared, 200)
            self.assertLessEqual(totals[measure.WHEELED].cost, totals["ours"].cost)
            self.assertLessEqual(totals[measure.CHEAPEST].cost, min(totals[name].cost for name in measure.MODES))
            for one in totals.values():
                self.assertEqual(one.cost, 1000 * one.shots + measure.RULE[1] * one.sliver)
            for _, _, found in wins:
                self.assertLess(found[measure.CHEAPEST].cost, found["ours"].cost)
                self.assertLessEqual(found[measure.WHEELED].cost, found["ours"].cost)

    def test_every_sort(self):
        """Each sort of figure is drawn, and is fractured."""
        chance, fracturer = random.Random(3), Fracturer(*measure.RULE)
        for sort in (*drawn.SORTS, drawn.bars):
            figure = drawn.drawn(db, chance, (sort,))
            figure = figure.moved(-figure.bbox().left, -figure.bbox().bottom)
            self.assertIsNotNone(measure.our_own(rings_of(figure), fracturer), sort.__name__)


if __name__ == "__main__":
    unittest.main()
