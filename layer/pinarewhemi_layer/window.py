"""In KLayout's window: "Fracture layer" of pinarewhemi.lym. One step that can be undone; slivers are shown in red."""

import re

import pinarewhemi

from .core import BEYOND, SHOTS, SIDES, Told, fracture_layer

TITLE = "Fracture layer"
# How our layers are shown: frame, fill or none, width in pixels.
SHOWN = {SHOTS: (0x3060C0, None, 1), SIDES: (0xFF0000, None, 4), BEYOND: (0xFF9000, 0xFF9000, 1)}


def shown_layer(view):
    """The layer that is chosen in the panel, as a text; where none is, the first."""
    chosen = view.current_layer
    if chosen.is_null() or not chosen.current().source_layer >= 0:
        return "1/0"
    return f"{chosen.current().source_layer}/{chosen.current().source_datatype}"


def fracture_shown(pya, view, layer, threshold, weight, **more):
    """Fractures a layer of the layout that a view shows, as one step: below its top cell, or below the shown cell where
    there are several. What was done."""
    cells = view.active_cellview()
    if not cells.is_valid():
        raise Told("no layout is shown")
    if not cells.layout().is_editable():
        raise Told("the layout was opened to be viewed only: start KLayout in editing mode (klayout -e)")
    if len(cells.layout().top_cells()) > 1:
        if cells.cell is None:
            raise Told("no cell is shown")
        more.setdefault("cell", cells.cell.name)
    view.transaction(TITLE)
    try:
        done = fracture_layer(pya, cells.layout(), layer, threshold, weight, **more)
        show(view, layer)
    finally:
        view.commit()
    return done


def show(view, layer):
    """Our layers in the panel, slivers in red."""
    view.add_missing_layers()
    for properties in view.each_layer():
        look = SHOWN.get(properties.source_datatype) if properties.source_layer == layer[0] else None
        if look:
            frame, fill, width = look
            properties.frame_color, properties.width = frame, width
            properties.fill_color = frame if fill is None else fill
            properties.dither_pattern = 1 if fill is None else 5


def ask(pya):
    """The menu entry: asks for layer and rule, fractures, and tells the totals."""
    view = pya.LayoutView.current()
    if view is None:
        pya.MessageBox.warning(TITLE, "No layout is shown.", pya.MessageBox.Ok)
        return
    words = "Layer, threshold in nm, weight in thousandths of a shot for each nm of sliver:"
    given = pya.InputDialog.ask_string(TITLE, words, f"{shown_layer(view)} 25 40")
    if given is None:
        return
    found = re.fullmatch(r"\s*(\d+)/(\d+)\s+(\d{1,9})\s+(\d{1,9})\s*", given)
    if not found:
        pya.MessageBox.warning(TITLE, f"{given!r} is not of the form 4/0 25 40.", pya.MessageBox.Ok)
        return
    number, datatype, threshold, weight = map(int, found.groups())
    try:
        done = fracture_shown(pya, view, (number, datatype), threshold, weight)
    except (Told, pinarewhemi.Refused) as fault:
        pya.MessageBox.warning(TITLE, str(fault), pya.MessageBox.Ok)
        return
    pya.MessageBox.info(TITLE, done.line(), pya.MessageBox.Ok)
