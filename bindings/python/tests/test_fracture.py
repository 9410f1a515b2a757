"""Fractures: the rows of docs/SCOPE.md with shots, cost, sliver length and cuts; refusals; what does not fit."""

import threading
import unittest

import pinarewhemi as pw

from .drawings import B, B_SHOTS, CORNERED, FRAME, FRAME_SHOTS, L, L_SHOTS, SLANTED, UNIT, UNTURNED, box, stairs


class Fractures(unittest.TestCase):
    def holds(self, figure, rule, shots, cost, sliver):
        done = pw.fracture(figure, *rule)
        self.assertEqual(([tuple(shot) for shot in done.shots], done.cost, done.sliver), (shots, cost, sliver))
        return done

    def refused(self, number, call, *given):
        with self.assertRaises(pw.Refused) as caught:
            call(*given)
        self.assertEqual(caught.exception.number, number)
        return caught.exception

    def test_rows(self):
        self.holds(L, (25, 40), L_SHOTS, 5200, 80)
        self.holds(L, (20, 40), L_SHOTS, 2000, 0)
        self.holds(B, (25, 40), B_SHOTS, 3000, 0)
        self.holds(B, (25, 11), B_SHOTS, 3000, 0)
        for weight, cost in ((10, 3000), (9, 2900)):
            self.holds(B, (25, weight), [(0, 0, 200, 200), (200, 50, 210, 150)], cost, 100)
        self.holds([box(0, 0, 100, 24)], (25, 40), [(0, 0, 100, 24)], 9000, 200)
        self.holds([box(0, 0, 100, 24)], (24, 40), [(0, 0, 100, 24)], 1000, 0)
        self.holds(CORNERED, (0, 40), [(0, 0, 10, 10), (10, 10, 20, 20)], 2000, 0)

    def test_flecks(self):
        self.holds([box(0, 0, 10, 10)], (25, 40), [(0, 0, 10, 10)], 1800, 20)
        self.holds([box(0, 0, 10, 10)], (11, 40), [(0, 0, 10, 10)], 1800, 20)
        self.holds([box(0, 0, 10, 10)], (10, 40), [(0, 0, 10, 10)], 1000, 0)
        self.holds([box(0, 0, 10, 20)], (25, 40), [(0, 0, 10, 20)], 2600, 40)
        self.holds(CORNERED, (25, 40), [(0, 0, 10, 10), (10, 10, 20, 20)], 3600, 40)
        kept_whole = [[(15, 0), (0, 0), (0, 20), (15, 20), (15, 0), (30, 0), (30, 20), (15, 20)]]
        self.assertEqual(self.holds(kept_whole, (25, 100), [(0, 0, 30, 20)], 7000, 60).cuts, 0)

    def test_rings(self):
        for figure in (FRAME, FRAME[::-1], [FRAME[0][::-1], FRAME[1]]):
            self.holds(figure, (25, 40), FRAME_SHOTS, 4000, 0)
            self.holds(figure, (40, 40), FRAME_SHOTS, 21600, 440)
        squares = [box(10 * k, 0, 10 * k + 5, 5) for k in range(8)]
        self.holds(squares, (0, 40), [(10 * k, 0, 10 * k + 5, 5) for k in range(8)], 8000, 0)
        self.holds([box(0, 0, 10, 10), box(10, 0, 20, 10)], (0, 40), [(0, 0, 20, 10)], 1000, 0)

    def test_cuts(self):
        rows = [
            (L, 4), (B, 13), (FRAME, 32), (CORNERED, 6), ([box(0, 0, 10, 10), box(50, 50, 60, 60)], 32), ([UNIT], 0),
            (stairs(), 104888),
        ]
        for figure, weighed in rows:
            self.assertEqual(pw.cuts(figure), weighed)
            self.assertEqual(pw.fracture(figure, 25, 40).cuts, weighed)
            self.assertEqual(pw.fracture_default(figure).cuts, weighed)

    def test_costs(self):
        self.assertIsNone(pw.fracture(L, 25, 40).costs)
        self.assertEqual(pw.fracture(L, 25, 40, costs=True).costs, [3400, 1000, 1000, 6600, 5200, 1000, 4200, 4200, 0])
        self.assertEqual(
            pw.fracture_default(L, costs=True).costs, [1000, 1000, 1000, 1000, 2000, 1000, 1000, 1000, 0]
        )
        # 3 x lines and 4 y lines; the frame and the nose
        costs = pw.fracture(B, 25, 40, costs=True).costs
        self.assertEqual((len(costs), costs[8], costs[15]), (18, 3000, 5000))
        self.assertEqual(len(pw.fracture(stairs(), 25, 40, costs=True).costs), 14400)

    def test_default_is_preset_1(self):
        self.assertEqual([tuple(pw.preset(n)) for n in range(4)], [(25, 40), (10, 100), (5, 200), (50, 20)])
        for figure, cost, sliver, shots in (
            (L, 2000, 0, 2), (B, 2000, 0, 2), ([box(0, 0, 100, 24)], 1000, 0, 1), ([box(0, 0, 100, 9)], 21000, 200, 1),
        ):
            done = pw.fracture_default(figure)
            self.assertEqual((done.cost, done.sliver, len(done.shots)), (cost, sliver, shots))
            self.assertEqual(done, pw.fracture(figure, *pw.preset(1)))

    def test_refusals(self):
        self.refused(15, pw.preset, 4)
        for call in (lambda figure: pw.fracture(figure, 25, 40), pw.fracture_default, pw.cuts):
            self.refused(2, call, [])
            self.refused(2, call, [UNIT[:3]])
            self.refused(2, call, [UNIT] * 9)
            self.refused(2, call, [UNIT * 9])
            self.refused(2, call, [UNIT * 20000])
            self.refused(2, call, [UNIT * 7, UNTURNED])
            self.refused(2, call, [SLANTED, UNIT[:3]])
            self.refused(3, call, [SLANTED])
            self.refused(3, call, [UNTURNED, SLANTED])
            self.refused(4, call, [UNTURNED])
            self.refused(5, call, [UNIT * 2])
            self.refused(5, call, [UNIT, UNIT])
        self.refused(1, pw.fracture, [SLANTED], 1001, 40)
        self.refused(1, pw.fracture, L, 25, 1001)
        self.refused(1, pw.fracture, L, 2**32 - 1, 0)

    def test_exception(self):
        refused = self.refused(pw.Refusal.SLANTED, pw.fracture, [SLANTED], 25, 40)
        self.assertEqual((refused.offset, refused.shots, refused.call), (None, 0, "pw_fracture"))
        self.assertEqual(str(refused), "refused 3: an edge changes both coordinates")

    def test_numbers_that_do_not_fit(self):
        for corner in ((65536, 0), (0, -1)):
            with self.assertRaises(ValueError):
                pw.fracture([[corner, (10, 0), (10, 10), (0, 10)]], 25, 40)
        for threshold in (-1, 2**32):
            with self.assertRaises(ValueError):
                pw.fracture(L, threshold, 40)
        with self.assertRaises(TypeError):
            pw.fracture(L, 25.0, 40)
        with self.assertRaises(TypeError):
            pw.fracture([[(0.5, 0), (10, 0), (10, 10), (0.5, 10)]], 25, 40)

    def test_any_iterable(self):
        self.assertEqual(pw.fracture((iter(ring) for ring in FRAME), 25, 40), pw.fracture(FRAME, 25, 40))

    def test_threads(self):
        done = []
        figures = [L, B, FRAME, stairs()] * 8
        threads = [threading.Thread(target=lambda f=f: done.append((f, pw.fracture(f, 25, 40)))) for f in figures]
        for thread in threads:
            thread.start()
        for thread in threads:
            thread.join()
        self.assertEqual(len(done), len(figures))
        for figure, answer in done:
            self.assertEqual(answer, pw.fracture(figure, 25, 40))


if __name__ == "__main__":
    unittest.main()
