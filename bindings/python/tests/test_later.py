"""Pinwheels, the largest shot, index and salvage: each where the library has the call."""

import unittest
from unittest import mock

import pinarewhemi as pw

from .drawings import B, FRAME, FRAME_PART, JOGS, L, L_PART, THREE, UNIT, UNIT_PART, UNTURNED, W1, W2, box


def needs(name):
    return unittest.skipUnless(hasattr(pw, name), f"the library has no pw_{name}")


def told(done):
    return [tuple(shot) for shot in done.shots], done.cost, done.sliver


class Later(unittest.TestCase):
    def refused(self, number, offset, call, *given):
        with self.assertRaises(pw.Refused) as caught:
            call(*given)
        self.assertEqual((caught.exception.number, caught.exception.offset), (number, offset))

    def test_what_is_lacking_says_so(self):
        """As a library that lacks calls would have it, and a name that no library has."""
        with mock.patch.dict(pw._calls.LACKING, mirror=["pw_mirror", "pw_turn"]):
            with self.assertRaisesRegex(AttributeError, "has no pw_mirror, pw_turn$"):
                pw.mirror
        with self.assertRaisesRegex(AttributeError, "no attribute 'fracture_by_hand'"):
            pw.fracture_by_hand

    @needs("fracture_pinwheel")
    def test_pinwheel(self):
        by_wheel = [(40, 0, 70, 60), (70, 0, 110, 20), (10, 60, 100, 100), (100, 20, 110, 80)]
        self.assertEqual(told(pw.fracture_pinwheel(W2, 25, 40)), (by_wheel, 10800, 170))
        self.assertEqual(pw.fracture_pinwheel(W2, 25, 40).cuts, 158)
        by_wheel = [(10, 0, 50, 20), (50, 0, 80, 60), (10, 20, 20, 80), (20, 60, 110, 100)]
        self.assertEqual(told(pw.fracture_pinwheel(W1, 25, 40)), (by_wheel, 10800, 170))
        for figure in (W1, W2):
            self.assertEqual(pw.fracture_pinwheel(figure, 25, 0), pw.fracture(figure, 25, 0))
        self.assertEqual((pw.fracture(JOGS, 25, 40).cost, pw.fracture_pinwheel(JOGS, 25, 40).cost), (5000, 4000))
        self.assertEqual(pw.fracture_pinwheel(JOGS, 25, 40).cuts, 544)
        for call in (pw.fracture, pw.fracture_pinwheel):
            entries = call(W2, 25, 40, costs=True).costs
            self.assertEqual(len(entries), 100)
        self.refused(1, None, pw.fracture_pinwheel, [UNTURNED], 1001, 40)
        self.refused(4, None, pw.fracture_pinwheel, [UNTURNED], 25, 40)

    @needs("fracture_divided")
    def test_divided(self):
        divided = [(0, 0, 200, 50), (0, 50, 105, 150), (105, 50, 210, 150), (0, 150, 200, 200)]
        self.assertEqual(told(pw.fracture_divided(B, 25, 40, 200)), (divided, 4000, 0))
        self.assertEqual(pw.fracture_divided(B, 25, 40, 210), pw.fracture(B, 25, 40))
        bar = pw.fracture_divided([box(0, 0, 500, 20)], 25, 40, 200, costs=True)
        self.assertEqual(told(bar), ([(0, 0, 167, 20), (167, 0, 334, 20), (334, 0, 500, 20)], 43000, 1000))
        self.assertEqual(bar.costs, [41000])
        six = [(5, 7, 139, 108), (139, 7, 273, 108), (273, 7, 407, 108), (5, 108, 139, 209), (139, 108, 273, 209), (273, 108, 407, 209)]
        self.assertEqual(told(pw.fracture_divided([box(5, 7, 407, 209)], 25, 40, 200)), (six, 6000, 0))
        full = pw.fracture_divided([box(0, 0, 65535, 65535)], 25, 40, 200)
        self.assertEqual((len(full.shots), full.cost), (107584, 107584000))
        for threshold, largest, good in (
            (25, 199, 0), (25, 200, 1), (101, 201, 0), (101, 202, 1), (1000, 1999, 0), (1000, 2000, 1), (0, 65535, 1), (0, 65536, 0),
        ):
            if good:
                self.assertEqual(pw.fracture_divided(L, threshold, 0, largest).cost, 2000)
            else:
                self.refused(19, None, pw.fracture_divided, L, threshold, 0, largest)
        self.refused(1, None, pw.fracture_divided, L, 1001, 40, 3)
        self.refused(19, None, pw.fracture_divided, [UNTURNED], 25, 40, 3)

    @needs("fracture_pinwheel_divided")
    def test_pinwheel_divided(self):
        self.assertEqual(pw.fracture_pinwheel_divided(W2, 25, 40, 200), pw.fracture_pinwheel(W2, 25, 40))
        # each of the four arms is 300 by 620 or 620 by 300
        self.assertEqual(pw.fracture_pinwheel_divided(JOGS, 25, 40, 310).cost, 8000)
        self.refused(19, None, pw.fracture_pinwheel_divided, [UNTURNED], 25, 40, 3)

    @needs("index_open")
    def test_index(self):
        self.assertEqual(pw.index_open(THREE), [3, 16, 36])
        self.assertEqual([pw.index_pick(THREE, [3, 16, 36], k) for k in range(3)], [(3, L_PART), (16, FRAME_PART), (36, UNIT_PART)])
        self.refused(13, None, pw.index_pick, THREE, [3, 16, 36], 3)
        removed = pw.index_remove(THREE, 1)
        self.assertEqual(removed, (bytes.fromhex("192802") + L_PART + UNIT_PART, [3, 16]))
        self.assertEqual(pw.index_append(THREE, [UNIT]), (bytes.fromhex("192804") + THREE[3:] + UNIT_PART, [3, 16, 36, 45]))
        # untrue offsets
        self.assertEqual(pw.index_pick(THREE, [18], 0).start, 18)
        self.refused(10, 17, pw.index_pick, THREE, [17], 0)
        for past in (45, 60000):
            self.refused(8, 45, pw.index_pick, THREE, [past], 0)
        # from one byte of K to two, and back
        many = pw.write_job(25, 40, [[UNIT]] * 127)
        grown = pw.index_append(many, L)
        self.assertEqual((len(grown.job), grown.job[:5], grown.index[:2], grown.index[-2:]), (1160, bytes.fromhex("1928800104"), [4, 13], [1138, 1147]))
        less = pw.index_remove(grown.job, 0)
        self.assertEqual((len(less.job), less.job[:3], less.index[-1]), (1150, bytes.fromhex("19287F"), 1137))
        full = pw.write_job(25, 40, [[UNIT]] * 255)
        self.refused(20, None, pw.index_append, full, L)
        self.refused(2, None, pw.index_append, full, [UNIT[:3]])
        heavy = pw.write_job(25, 40, [[[(65535, 65535)] * 32]] * 21)
        self.assertEqual(len(heavy), 4056)
        self.refused(12, None, pw.index_append, heavy, [[(65535, 65535)] * 32])
        self.refused(13, None, pw.index_remove, THREE, 3)
        for call in (pw.index_open, lambda job: pw.index_append(job, L), lambda job: pw.index_remove(job, 9)):
            self.refused(8, 44, call, THREE[:-1])
            self.refused(11, 45, call, THREE + b"\0")

    @needs("salvage")
    def test_salvage(self):
        def broken(at, byte):
            return THREE[:at] + bytes([byte]) + THREE[at + 1 :]

        head = bytes.fromhex("1928")
        for job, kept, lost, dropped, written in (
            (THREE, 3, 0, 0, THREE),
            (THREE[:-1], 2, 1, 8, head + b"\x02" + L_PART + FRAME_PART),
            (broken(27, 3), 1, 2, 29, head + b"\x01" + L_PART),
            (broken(3, 5), 1, 2, 31, bytes.fromhex("1928010500006400 64143C143C50")),
            (THREE + b"\x01\x02", 3, 0, 2, THREE),
            (broken(2, 5), 3, 2, 0, THREE),
            (broken(2, 2), 2, 0, 9, head + b"\x02" + L_PART + FRAME_PART),
            (broken(2, 0), 0, 0, 42, head + b"\0"),
            (head + b"\x03", 0, 3, 0, head + b"\0"),
        ):
            self.assertEqual(pw.salvage(job), (written, kept, lost, dropped))
        self.refused(8, 2, pw.salvage, head)
        self.refused(8, 0, pw.salvage, b"")
        self.refused(10, 1, pw.salvage, bytes.fromhex("E9072800"))
        self.refused(9, 2, pw.salvage, bytes.fromhex("19A80000"))
        self.refused(12, None, pw.salvage, THREE + bytes(4096))
        self.assertEqual(pw.fracture(pw.read_job(pw.salvage(THREE[:-1]).job).figures[1], 25, 40), pw.fracture(FRAME, 25, 40))


if __name__ == "__main__":
    unittest.main()
