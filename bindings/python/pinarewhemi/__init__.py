"""Pinarewhemi: right-angled figures into rectangular shots for a variable shaped beam writer, and the job bytes that carry
them; safe functions over the proved library.

A figure is a list of rings, each a list of corners (x, y) in whole nm:

    >>> import pinarewhemi as pw
    >>> l = [[(0, 0), (100, 0), (100, 20), (60, 20), (60, 80), (0, 80)]]
    >>> done = pw.fracture(l, 25, 40)
    >>> done.cost, done.sliver, [tuple(shot) for shot in done.shots]
    (5200, 80, [(0, 0, 60, 80), (60, 0, 100, 20)])

What is bad is refused, by number:

    >>> pw.fracture([[(0, 0), (10, 0), (10, 10), (5, 5)]], 25, 40)
    Traceback (most recent call last):
    pinarewhemi._refused.Refused: refused 3: an edge changes both coordinates

The names are those of the C interface without pw_; docs/JOB.md tells of jobs and refusals, docs/SCOPE.md of the rules. A
library that was built earlier may lack calls: hasattr(pinarewhemi, "fracture_pinwheel") asks. LIBRARY is its place.
"""

from . import _calls
from ._calls import *  # noqa: F401,F403
from ._calls import LIBRARY
from ._refused import Refusal, Refused

__version__ = "0.1.0"
__all__ = ["LIBRARY", "Refusal", "Refused", *_calls.__all__]


def __getattr__(name):
    if name in _calls.LACKING:
        raise AttributeError(f"the library {LIBRARY} has no {', '.join(_calls.LACKING[name])}")
    raise AttributeError(f"module 'pinarewhemi' has no attribute '{name}'")
