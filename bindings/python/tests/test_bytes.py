"""Numbers, jobs, parts and the writers; GDSII elements."""

import pickle
import unittest

import pinarewhemi as pw

from .drawings import B, FRAME, FRAME_PART, L, L_PART, L_SHOTS, THREE, UNIT, UNIT_PART, box

WORKED = bytes.fromhex("192801") + L_PART
# L at (-50, 1000), layer 7, data type 2
POINTS = [(-50, 1000), (50, 1000), (50, 1020), (10, 1020), (10, 1080), (-50, 1080), (-50, 1000)]


def element(points, before=b""):
    """A boundary element of these points."""
    xy = b"".join(n.to_bytes(4, "big", signed=True) for point in points for n in point)
    size = (4 + len(xy)).to_bytes(2, "big")
    head = bytes.fromhex("00040800") + before + bytes.fromhex("00060D02000700060E020002")
    return head + size + b"\x10\x03" + xy + bytes.fromhex("00041100")


class Bytes(unittest.TestCase):
    def refused(self, number, offset, call, *given):
        with self.assertRaises(pw.Refused) as caught:
            call(*given)
        self.assertEqual((caught.exception.number, caught.exception.offset), (number, offset))
        return caught.exception

    def test_numbers(self):
        for value, data in (
            (0, "00"), (127, "7F"), (128, "8001"), (200, "C801"), (16383, "FF7F"), (16384, "808001"), (65535, "FFFF03"),
            (2097151, "FFFF7F"),
        ):
            data = bytes.fromhex(data)
            self.assertEqual(pw.number(data), (value, len(data)))
            self.assertEqual(pw.number(b"\x05" + data + b"\x07", 1), (value, len(data) + 1))

    def test_number_refusals(self):
        for data, at, number, offset in (
            ("8000", 0, 9, 1), ("808080", 0, 10, 2), ("80808000", 0, 10, 2), ("8080", 0, 8, 2), ("808000", 0, 9, 2),
            ("0580", 1, 8, 2), ("05", 9, 8, 1), ("", 0, 8, 0), ("05", 2**63, 8, 1),
        ):
            self.refused(number, offset, pw.number, bytes.fromhex(data), at)
        with self.assertRaises(ValueError):
            pw.number(b"\x05", -1)

    def test_job(self):
        self.assertEqual(pw.job_check(WORKED), (25, 40, 1))
        self.assertEqual(pw.job_outline(WORKED, 0), (3, L_PART))
        self.assertEqual(pw.unpack(L_PART), L)
        self.assertEqual(pw.job_check(THREE), (25, 40, 3))
        self.assertEqual([pw.job_outline(THREE, k) for k in range(3)], [(3, L_PART), (16, FRAME_PART), (36, UNIT_PART)])
        self.assertEqual(pw.unpack(FRAME_PART), FRAME)
        self.refused(13, None, pw.job_outline, THREE, 3)
        for held in (bytearray(THREE), memoryview(THREE)):
            self.assertEqual(pw.read_job(held), (25, 40, [L, FRAME, [UNIT]]))
            self.assertEqual(pw.job_outline(held, 1), (16, FRAME_PART))

    def test_job_refusals(self):
        for data, number, offset in (
            ("", 8, 0), ("192801060000640064", 8, 9), ("1928010680", 8, 5), ("19A80000", 9, 2), ("80808000", 10, 2),
            ("E9072800", 10, 1), ("19288002", 10, 3), ("19280103000001000101", 10, 3),
            ("1928010480800400010001010001", 10, 6), ("1928010001040000010001010001", 10, 4), ("19280100", 8, 4),
            (WORKED.hex() + "00", 11, 16), ("192801" + "00" * 4095, 12, None),
        ):
            for call in (pw.job_check, pw.read_job, lambda job: pw.job_outline(job, 9)):
                self.refused(number, offset, call, bytes.fromhex(data))
        self.refused(11, 13, pw.unpack, L_PART + b"\0")
        self.refused(8, 12, pw.unpack, L_PART[:-1])
        self.refused(8, 0, pw.unpack, b"")

    def test_writers(self):
        self.assertEqual(pw.write_header(25, 40, 1), bytes.fromhex("192801"))
        self.assertEqual(pw.write_header(1000, 1000, 255), bytes.fromhex("E807E807FF01"))
        self.assertEqual(pw.write_outline(L), L_PART)
        self.assertEqual(pw.write_outline(FRAME), FRAME_PART)
        self.assertEqual(len(pw.write_outline([[(65535, 65535)] * 4] * 8)), 202)
        self.refused(1, None, pw.write_header, 1001, 40, 256)
        self.refused(10, None, pw.write_header, 25, 40, 256)
        self.refused(2, None, pw.write_outline, [L[0][:3]])

    def test_round_trip(self):
        self.assertEqual(pw.write_job(25, 40, [L, FRAME, [UNIT]]), THREE)
        self.assertEqual(pw.write_job(25, 40, []), bytes.fromhex("192800"))
        many = [[box(k, k + 1, 60000 + k, 65535)] for k in range(200)]
        self.assertEqual(pw.read_job(pw.write_job(50, 20, many)), (50, 20, many))
        self.refused(12, None, pw.write_job, 50, 20, [[box(60000, 60000, 65535, 65535)]] * 200)
        self.refused(10, None, pw.write_job, 50, 20, [[UNIT]] * 256)

    def test_gdsii(self):
        sound = element(POINTS)
        self.assertEqual(len(sound), 80)
        flagged = element(POINTS, bytes.fromhex("00062601000100082F0300000003"))
        for held in (sound, flagged):
            self.assertEqual(pw.gdsii_read(held), (L[0], -50, 1000))
            plate = pw.gdsii_fracture(held)
            self.assertEqual([tuple(shot) for shot in plate.shots], L_SHOTS)
            self.assertEqual(plate[1:], (5200, 80, 4, -50, 1000))
        far = [(x + 2**31 - 65536, y - 2**31) for x, y in box(0, 0, 65535, 65535)]
        self.assertEqual(pw.gdsii_read(element(far + far[:1])), (box(0, 0, 65535, 65535), 2**31 - 65536, -(2**31)))

    def test_gdsii_refusals(self):
        sound = element(POINTS)
        for call in (pw.gdsii_read, pw.gdsii_fracture):
            for length, at in ((0, 0), (3, 0), (4, 4), (9, 4), (10, 10), (16, 16), (75, 16), (76, 76), (79, 76)):
                self.refused(8, at, call, sound[:length])
            self.refused(16, None, call, sound + b"\0")
            self.refused(16, None, call, sound[:2] + b"\x09" + sound[3:])
            self.refused(16, None, call, element([]))
            self.refused(17, None, call, element(POINTS[:-1]))
            self.refused(18, None, call, element([(0, 0), (65536, 0), (65536, 10), (0, 10), (0, 0)]))
            self.refused(2, None, call, element(POINTS[:1]))
            self.refused(3, None, call, element([(0, 0), (10, 0), (10, 10), (5, 5), (0, 0)]))
            self.refused(5, None, call, element(UNIT * 2 + UNIT[:1]))

    def test_exception_is_kept(self):
        refused = self.refused(8, 9, pw.job_check, bytes.fromhex("192801060000640064"))
        self.assertEqual(str(refused), "refused 8 at 9: the bytes end within a number or a record, or before one")
        again = pickle.loads(pickle.dumps(refused))
        self.assertEqual((again.number, again.offset, str(again)), (8, 9, str(refused)))

    def test_fracture_a_job(self):
        job = pw.read_job(pw.write_job(25, 40, [L, B, FRAME]))
        self.assertEqual([pw.fracture(f, job.threshold, job.weight).cost for f in job.figures], [5200, 3000, 4000])


if __name__ == "__main__":
    unittest.main()
