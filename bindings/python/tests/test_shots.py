"""Joining, edges, CIF."""

import unittest

import pinarewhemi as pw

from .drawings import B, B_SHOTS, CORNERED, FRAME, FRAME_SHOTS, L, L_SHOTS, SLANTED, UNIT, box


class Shots(unittest.TestCase):
    def refused(self, number, offset, call, *given):
        with self.assertRaises(pw.Refused) as caught:
            call(*given)
        self.assertEqual((caught.exception.number, caught.exception.offset), (number, offset))

    def test_join(self):
        for shots, partners, flashes in (
            (L_SHOTS, [1, 0], 1),
            (B_SHOTS, [1, 0, 2], 2),
            ([(0, 0, 10, 10), (10, 10, 20, 20)], [0, 1], 2),
            ([(0, 0, 10, 30), (10, 10, 20, 20)], [0, 1], 2),
            ([(0, 0, 10, 10), (10, 0, 20, 10), (20, 0, 30, 10)], [1, 0, 2], 2),
            ([], [], 0),
        ):
            self.assertEqual(pw.join(shots), (partners, flashes))
        self.assertEqual(pw.join(pw.fracture(L, 25, 40).shots).flashes, 1)
        for bad in ([(0, 0, 10)], [(0, 0, 0, 10)], [(0, 0, 10, 10), (5, 5, 5, 6)]):
            self.refused(21, None, pw.join, bad)

    def test_edge(self):
        rows = [
            (L, L_SHOTS, ["0 60 1 3, 60 100 2 3", "0 20 2 2", "60 100 2 4", "20 80 1 2", "0 60 1 4", "0 80 1 1"]),
            (B, B_SHOTS, ["0 200 1 3", "0 50 1 2", "200 210 2 3", "50 150 2 2", "200 210 2 4", "150 200 3 2", "0 200 3 4",
                          "0 50 1 1, 50 150 2 1, 150 200 3 1"]),
            (FRAME, FRAME_SHOTS, ["0 30 1 3, 30 70 2 3, 70 100 4 3", "0 100 4 2", "0 30 1 4, 30 70 3 4, 70 100 4 4",
                                  "0 100 1 1", "30 70 2 4", "30 70 4 1", "30 70 3 3", "30 70 1 2"]),
            (CORNERED, [(0, 0, 10, 10), (10, 10, 20, 20)], ["0 10 1 3", "0 10 1 2, 10 20 2 1"]),
            (L, [], ["0 100 0 3"]),
            (L, [(0, 0, 100, 80)], ["0 100 1 3"]),
        ]  # fmt: skip
        for figure, shots, edges in rows:
            for edge, runs in enumerate(edges):
                told = ", ".join(" ".join(map(str, run)) for run in pw.edge(figure, edge, shots))
                self.assertEqual(told, runs)
        touching = [box(0, 0, 20, 20), box(20, 5, 30, 15)]
        self.assertEqual(pw.edge(touching, 1, touching_shots()), [(0, 5, 1, 2), (5, 15, 0, 0), (15, 20, 1, 2)])
        # far more runs than a fracture's list makes
        comb = [(0, y, 60, y + 1) for y in range(0, 80, 2)]
        self.assertEqual(len(pw.edge(L, 5, comb)), 80)

    def test_edge_refusals(self):
        for edge in (6, 2**63):
            self.refused(23, None, pw.edge, L, edge, L_SHOTS)
        self.refused(21, None, pw.edge, L, 6, [(0, 0, 60)])
        self.refused(3, None, pw.edge, [SLANTED], 6, [(0, 0, 60)])
        self.refused(5, None, pw.edge, [UNIT, UNIT], 0, [])

    @unittest.skipUnless(hasattr(pw, "cif_write"), "the library has no CIF")
    def test_cif(self):
        square = b"DS 1 1 20;\nL NM;\nB 20 20 10 10;\nDF;\nC 1;\nE\n"
        self.assertEqual(pw.cif_write([(0, 0, 10, 10)]), square)
        text = pw.cif_write(L_SHOTS)
        self.assertEqual((len(text), text[17:50]), (61, b"B 120 160 60 80;\nB 80 40 160 20;\n"))
        self.assertEqual((len(pw.cif_write([])), len(pw.cif_write([(0, 0, 65535, 65535)]))), (28, 57))
        for shots in ([], L_SHOTS, FRAME_SHOTS, [(65534, 0, 65535, 1)], [(0, 0, 1, 1)] * 500, [(0, 0, 65535, 65535)] * 500):
            self.assertEqual(pw.cif_read(pw.cif_write(shots)), shots)
        for bad in ([(0, 0, 10)], [(0, 0, 0, 10)], [(10, 0, 0, 10)], [(0, 0, 10, 10), (5, 5, 5, 6)]):
            self.refused(21, None, pw.cif_write, bad)
        for broken, at in (
            (text[:-1], 59), (text + b"\n", 61), (b"", 0), (text.replace(b"20;\nL", b"10;\nL"), 0),
            (text.replace(b"\n", b"\r\n"), 0), (text.replace(b"B 120", b"B 0120"), 17), (text.replace(b"B 120", b"B 121"), 17),
            (text.replace(b"160 20;", b"131032 20;"), 34), (text.replace(b"C 1;\n", b""), 54),
        ):
            self.refused(22, at, pw.cif_read, broken)


def touching_shots():
    return [(0, 0, 20, 20), (20, 5, 30, 15)]


if __name__ == "__main__":
    unittest.main()
