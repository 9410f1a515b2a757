"""A layer of a layout file (GDSII, OASIS) to shots: KLayout reads, merges and writes, the proved library decides the
shots. docs/LAYER.md tells how; `fracture_layer` is the core, `command.main` the command."""

import importlib

__version__ = "0.1.0"
__all__ = ["Answer", "Done", "Fracturer", "Layer", "Told", "fracture_layer"]

# Where each name is: loaded when it is asked for, so that the command can say in a line what is not installed.
_PLACES = {"Answer": "figures", "Fracturer": "figures"}


def __getattr__(name):
    if name not in __all__:
        raise AttributeError(f"module 'pinarewhemi_layer' has no attribute '{name}'")
    return getattr(importlib.import_module("." + _PLACES.get(name, "core"), __name__), name)
