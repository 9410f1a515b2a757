"""What docs/JOB.md shows is what the library answers; the refusals of docs/JOB.md and docs/SCOPE.md are all there."""

import contextlib
import doctest
import io
import pathlib
import re
import unittest

import pinarewhemi as pw

from .drawings import B, FRAME, L, THREE, UNIT

DOCS = pathlib.Path(__file__).resolve().parents[3] / "docs"
JOB = (DOCS / "JOB.md").read_text()
# every other part between the fences is a block; its first line names its language
BLOCKS = [block.split("\n", 1) for block in JOB.split("```")[1::2]]


def dump(text):
    """The bytes of a dump, each line of which begins with its offset in hex."""
    data = b""
    for line in text.splitlines():
        offset, held = re.match(r"([0-9A-F]{2})  ((?:[0-9A-F]{2} ?)+)(?: |$)", line).groups()
        assert int(offset, 16) == len(data), line
        data += bytes.fromhex(held)
    return data


class Documents(unittest.TestCase):
    def test_dumps(self):
        dumps = [dump(text) for language, text in BLOCKS if not language]
        self.assertEqual(list(map(len, dumps)), [16, 30, 23, 45])
        self.assertEqual([pw.read_job(job) for job in dumps], [(25, 40, f) for f in ([L], [B], [FRAME], [L, FRAME, [UNIT]])])
        self.assertEqual(dumps[3], THREE)
        # the corners told beside the bytes are those that are read
        for (_, text), figure in zip([block for block in BLOCKS if not block[0]][:3], (L, B, FRAME)):
            told = [tuple(map(int, corner)) for corner in re.findall(r"^[0-9A-F]{2}  .*?\((\d+), (\d+)\)", text, re.M)]
            self.assertEqual(told, [corner for ring in figure for corner in ring])

    def test_what_is_printed(self):
        for figure, head in ((L, "outline 0 shots 2 cost 5200 sliver 80"), (FRAME, "outline 0 shots 4 cost 4000 sliver 0")):
            done = pw.fracture(figure, 25, 40)
            self.assertEqual(head, f"outline 0 shots {len(done.shots)} cost {done.cost} sliver {done.sliver}")
            lines = [head] + [" ".join(map(str, shot)) for shot in done.shots]
            self.assertIn("\n".join("    " + line for line in lines), JOB)

    def test_bytes_refused(self):
        rows = re.findall(r"^\| (`[0-9A-F ]+`|none at all) \| (\d+) at (\d+) \|", JOB, re.M)
        self.assertEqual(len(rows), 11)
        for held, number, offset in rows:
            with self.assertRaises(pw.Refused) as caught:
                pw.job_check(b"" if held == "none at all" else bytes.fromhex(held.strip("`")))
            self.assertEqual((caught.exception.number, caught.exception.offset), (int(number), int(offset)))

    def test_numbers(self):
        rows = re.findall(r"(?<=\| )([\d,]+) \| `([0-9A-F ]+)` \|", JOB.split("## A job, byte by byte")[0])
        self.assertEqual(len(rows), 10)
        for value, held in rows:
            held = bytes.fromhex(held)
            self.assertEqual(pw.number(held), (int(value.replace(",", "")), len(held)))
        with self.assertRaisesRegex(pw.Refused, "refused 9 at 2"):
            pw.number(bytes.fromhex("C88100"))

    def test_presets(self):
        rows = re.findall(r"^\| (\d) \| (\d+) \| (\d+) \| `([0-9A-F ]+)` \|", JOB, re.M)
        self.assertEqual(len(rows), 4)
        for number, threshold, weight, held in rows:
            self.assertEqual(pw.preset(int(number)), (int(threshold), int(weight)))
            self.assertEqual(pw.write_header(int(threshold), int(weight), 0), bytes.fromhex(held) + b"\0")

    def test_refusals_are_all_there(self):
        named = [(str(refusal.value), f"PW_{refusal.name}") for refusal in pw.Refusal]
        self.assertEqual(re.findall(r"^\| (\d+) \| `(PW_\w+)` \|", JOB, re.M), named)
        scope = (DOCS / "SCOPE.md").read_text().split("## When the answer is no")[1].split("| Call |")[0]
        self.assertEqual(re.findall(r"^\| (\d+) \|", scope, re.M), [number for number, _ in named])

    def test_examples(self):
        (code,) = [text for language, text in BLOCKS if language == "python"]
        with contextlib.redirect_stdout(io.StringIO()) as out:
            exec(code, {})
        self.assertIn("cost=5200, sliver=80, cuts=4", out.getvalue())
        self.assertEqual(doctest.testmod(pw).failed, 0)


if __name__ == "__main__":
    unittest.main()
