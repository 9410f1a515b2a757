#!/usr/bin/python3
"""How the stored elements were made: by the gdspy and KLayout of Debian (python3-gdspy 1.4.2, klayout 0.28.5), one database unit being 1 nm.

    tests/gdsii/make.py

writes *.element beside itself, each the bytes of one boundary from its BOUNDARY record to its ENDEL as that tool wrote them. The gate does not
run it (it needs both packages): it reads the stored bytes. The drawings are those of tests/drawings/src/elements.rs.
"""
import os
import subprocess
import sys
import tempfile

import gdspy

HERE = os.path.dirname(os.path.abspath(__file__))

# An L at (-50, 1000), as the scope's worked element has it; stairs of 32 corners across the origin; a plate of 65,535 nm in the far corner.
L = [(-50, 1000), (50, 1000), (50, 1020), (10, 1020), (10, 1080), (-50, 1080)]
STAIRS = [(-400, -300)] + [p for k in range(15) for p in ((-400 + 55 * (15 - k), -300 + 41 * k), (-400 + 55 * (15 - k), -300 + 41 * (k + 1)))] + [(-400, 315)]
PLATE = [(-2147483648, 2147418112), (-2147418113, 2147418112), (-2147418113, 2147483647), (-2147483648, 2147483647)]


def elements(stream):
    """The boundaries of a stream file, record by record."""
    at, begun = 0, None
    while at < len(stream):
        size = int.from_bytes(stream[at:at + 2], "big")
        if size == 0:
            return
        if stream[at + 2] == 0x08:
            begun = at
        if stream[at + 2] == 0x11 and begun is not None:
            yield stream[begun:at + size]
            begun = None
        at += size


def keep(name, stream):
    found = list(elements(stream))
    assert len(found) == 1, f"{name}: {len(found)} boundaries"
    with open(os.path.join(HERE, name + ".element"), "wb") as out:
        out.write(found[0])
    print(name, len(found[0]), "bytes")


def by_gdspy(name, points, layer, datatype):
    with tempfile.TemporaryDirectory() as folder:
        path = os.path.join(folder, "one.gds")
        cell = gdspy.Cell("TOP", exclude_from_current=True)
        cell.add(gdspy.Polygon(points, layer, datatype))
        library = gdspy.GdsLibrary(name="ONE", unit=1e-9, precision=1e-9)
        library.add(cell)
        library.write_gds(path)
        with open(path, "rb") as stream:
            keep(name, stream.read())


def by_klayout(name, points, layer, datatype):
    with tempfile.TemporaryDirectory() as folder:
        path, script = os.path.join(folder, "one.gds"), os.path.join(folder, "one.rb")
        with open(script, "w") as out:
            out.write(f"""
layout = RBA::Layout.new
layout.dbu = 0.001
top = layout.create_cell("TOP")
shape = RBA::Polygon.new([{", ".join(f"RBA::Point.new({x}, {y})" for x, y in points)}], true)
top.shapes(layout.layer({layer}, {datatype})).insert(shape)
layout.write("{path}")
""")
        subprocess.run(["klayout", "-b", "-r", script], check=True)
        with open(path, "rb") as stream:
            keep(name, stream.read())


if __name__ == "__main__":
    sys.exit(
        by_gdspy("gdspy-l", L, 7, 2)
        or by_klayout("klayout-l", L, 7, 2)
        or by_gdspy("gdspy-stairs", STAIRS, 1, 0)
        or by_klayout("klayout-stairs", STAIRS, 1, 0)
        or by_klayout("klayout-plate", PLATE, 255, 255)
    )
