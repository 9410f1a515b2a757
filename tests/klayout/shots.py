# The rectangles that KLayout finds in each DIR/*.cif, in nm, into DIR/*.found, one to a line: x low, y low, x high, y high, in rising order.
#   klayout -b -r tests/klayout/shots.py -rd texts=DIR
# Only boxes count: anything else that KLayout found would be said, and differ from what is stored.
import glob

import pya

options = pya.LoadLayoutOptions()
options.cif_dbu = 0.001


def rectangles(text):
    layout = pya.Layout()
    layout.read(text, options)
    found = []
    for cell in layout.top_cells():
        for layer in layout.layer_indexes():
            shapes = cell.begin_shapes_rec(layer)
            while not shapes.at_end():
                if not shapes.shape().is_box():
                    raise Exception(text + ": a shape that is no box: " + shapes.shape().to_s())
                box = shapes.shape().box.transformed(shapes.trans())
                found.append((box.left, box.bottom, box.right, box.top))
                shapes.next()
    return sorted(found)


found = sorted(glob.glob(texts + "/*.cif"))  # texts comes from the command line
for text in found:
    with open(text[:-4] + ".found", "w") as out:
        for rectangle in rectangles(text):
            print(*rectangle, file=out)
print(pya.Application.instance().version(), "read", len(found), "texts")
