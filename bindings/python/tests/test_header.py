"""The table of calls, the refusals and the rooms of this module are those of include/pinarewhemi.h."""

import ctypes.util
import os
import pathlib
import re
import subprocess
import sys
import unittest
from unittest import mock

import pinarewhemi as pw
from pinarewhemi import _library
from pinarewhemi._refused import TEXTS
from pinarewhemi._table import CALLS, ROOMS

ROOT = pathlib.Path(__file__).resolve().parents[3]
HEADER = re.sub(r"/\*.*?\*/", "", (ROOT / "include" / "pinarewhemi.h").read_text(), flags=re.S)
KINDS = {"uint8_t": "u8", "uint16_t": "u16", "uint32_t": "u32", "int32_t": "i32", "size_t": "size", "struct pw_joined": "joined"}


def line_of(parameters):
    """A prototype's parameters as a line of the table."""
    words = []
    for parameter in (" ".join(p.split()) for p in parameters.split(",")):
        const, kind, star, name = re.fullmatch(r"(const )?((?:struct )?\w+) (\*?)(\w+)", parameter).groups()
        if kind == "size_t" and not star and re.fullmatch(r"len|\w+_len", name):
            # the length of the list or buffer before it
            words[-1] = words[-1].replace(":>", ":+")
        elif star:
            words.append(f"{name}:{'*' if const else '>'}{KINDS[kind]}")
        else:
            words.append(f"{name}:{KINDS[kind]}")
    return " ".join(words)


def constants(enum):
    body = re.search(rf"enum {enum} {{(.*?)}};", HEADER, re.S).group(1)
    return {name: int(value) for name, value in re.findall(r"(PW_\w+) = (\d+)", body)}


class Header(unittest.TestCase):
    def test_calls(self):
        declared = re.findall(r"uint32_t (pw_\w+)\((.*?)\);", HEADER, re.S)
        self.assertGreaterEqual(len(declared), 14)
        self.assertEqual({name: CALLS.get(name) for name, _ in declared}, {name: line_of(p) for name, p in declared})

    def test_refusals(self):
        named = {f"PW_{refusal.name}": refusal.value for refusal in pw.Refusal}
        declared = constants("pw_refusal")
        self.assertEqual(declared.pop("PW_OK"), 0)
        self.assertGreaterEqual(len(declared), 20)
        self.assertEqual({name: named.get(name) for name in declared}, declared)

    def test_texts(self):
        told = dict(re.findall(r'case PW_(\w+): return "(.*?)";', HEADER))
        self.assertEqual(told, {refusal.name: TEXTS[refusal] for refusal in pw.Refusal})

    def test_rooms(self):
        declared = constants("pw_room")
        self.assertGreaterEqual(len(declared), 9)
        self.assertEqual({name: ROOMS.get(name) for name in declared}, declared)

    def test_no_library(self):
        told = subprocess.run(
            [sys.executable, "-c", "import pinarewhemi"],
            env={**os.environ, "PINAREWHEMI_LIBRARY": "/nowhere/libpinarewhemi.so"},
            cwd=ROOT / "bindings" / "python",
            capture_output=True,
            text=True,
        )
        self.assertEqual(told.returncode, 1)
        self.assertIn("/nowhere/libpinarewhemi.so: there is none", told.stderr)

    def test_library_beside_a_short_path(self):
        """A package right below / has no repository around it: the system's library is tried all the same."""
        for file, count in (("/pinarewhemi/_library.py", 2), ("/a/b/c/pinarewhemi/_library.py", 3)):
            with mock.patch.object(_library, "__file__", file), mock.patch.dict(os.environ):
                os.environ.pop("PINAREWHEMI_LIBRARY", None)
                places = list(_library.places())
            self.assertEqual(len(places), count)
            self.assertEqual(places[-1], ctypes.util.find_library("pinarewhemi") or "libpinarewhemi.so")

    def test_version(self):
        self.assertEqual(re.search(r'#define PW_VERSION "(.*?)"', HEADER).group(1), pw.__version__)
        self.assertEqual(pw.__version__, (ROOT / "VERSION").read_text().strip())
        self.assertEqual(".".join(map(str, pw.version())), pw.__version__)


if __name__ == "__main__":
    unittest.main()
