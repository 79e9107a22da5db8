"""Run inside KLayout, `klayout -zz -r klayout_read.py`: times its reading of streams, with all layers and with the asked layer alone.

STREAMS (files, with a ':' between two), STRUCTURE, LAYER and TURNS are in the environment. For each stream and each of the two ways it prints
'FILE all|asked CORNERS MILLISECONDS': how many corners the boundaries on that layer of that structure have, and the best of so many times, of the
processor.
"""

import os
import time

import pya

STREAMS, STRUCTURE, LAYER, TURNS = (os.environ[name] for name in ("STREAMS", "STRUCTURE", "LAYER", "TURNS"))
ASKED = pya.LayerInfo(int(LAYER), 0)


def asked_alone():
    """The options by which only the asked layer is read."""
    layers, options = pya.LayerMap(), pya.LoadLayoutOptions()
    layers.map(ASKED, 0)
    options.set_layer_map(layers, False)
    return options


def corners_of(layout):
    """How many corners the boundaries have on the asked layer of the asked structure."""
    shapes = layout.cell(STRUCTURE).shapes(layout.layer(ASKED))
    return sum(shape.polygon.num_points() for shape in shapes.each() if shape.is_polygon() or shape.is_box())


def best_read(file, options):
    """The number of corners, and the best time of reading."""
    best = float("inf")
    for _ in range(int(TURNS)):
        layout = pya.Layout()
        began = time.process_time()
        layout.read(file, options)
        best = min(best, time.process_time() - began)
        corners = corners_of(layout)
        layout._destroy()  # or the next one would be read beside it
    return corners, 1000 * best


for stream in STREAMS.split(":"):
    for way, chosen in {"all": pya.LoadLayoutOptions(), "asked": asked_alone()}.items():
        print(stream, way, *best_read(stream, chosen), flush=True)
