"""The picture of docs/LAYER.md: a piece of a layer as it is drawn, and beside it its shots, slivers in red.
    QT_QPA_PLATFORM=offscreen klayout -z -nc -rx -r layer/tests/picture.py -rd out=docs/layer.png     (from the repository)"""

import os
import sys

import pya

root = os.getcwd()
sys.path[:0] = [os.path.join(root, "layer"), os.path.join(root, "bindings", "python")]

from pinarewhemi_layer import fracture_layer, window  # noqa: E402
from tests import layers  # noqa: E402


def piece(layout, name):
    """Gate lines, a plate with windows, combs and outlines."""
    cell, layer = layout.create_cell(name), layout.layer(4, 0)
    for sort, x, y in ((layers.gate_lines, 20, 0), (layers.windows, 0, 1100), (layers.combs, 0, 1500)):
        part = layout.create_cell(sort.__name__)
        sort(pya, part, layer)
        cell.insert(pya.CellInstArray(part.cell_index(), pya.Trans(x, y)))
    part = layout.create_cell("skylines")
    layers.skylines(pya, part, layer, 25, 10)
    cell.insert(pya.CellInstArray(part.cell_index(), pya.Trans(800, 1150)))
    cell.flatten(True)
    kept = pya.Region(cell.shapes(layer)) & pya.Region(pya.Box(0, 0, 1700, 1750))
    cell.shapes(layer).clear()
    cell.shapes(layer).insert(kept.merged())
    return cell


view = pya.LayoutView()
view.show_layout(pya.Layout(), False)
layout = view.active_cellview().layout()
shown = piece(layout, "AFTER")
fracture_layer(pya, layout, (4, 0), 25, 40)
shown.clear(layout.layer(4, 0))
before = piece(layout, "BEFORE")
top = layout.create_cell("TOP")
top.insert(pya.CellInstArray(before.cell_index(), pya.Trans(0, 0)))
top.insert(pya.CellInstArray(shown.cell_index(), pya.Trans(1850, 0)))
view.active_cellview().cell = top
window.show(view, (4, 0))
for properties in view.each_layer():
    if properties.source_datatype == 0:
        properties.frame_color = properties.fill_color = 0x3060C0
        properties.dither_pattern = 5
view.max_hier()
view.zoom_fit()
view.set_config("background-color", "#ffffff")
view.set_config("grid-visible", "false")
view.set_config("text-visible", "false")
view.save_image(out, 1400, 720)  # out comes from the command line
os._exit(0)
