"""Finds KLayout's database as a module: pya inside of KLayout, an installed klayout.db, or that of Debian's package,
which lies in a folder of its own and needs its libraries loaded first."""

import ctypes
import glob
import os
import sys

# Where packages keep KLayout's libraries; the module is in pymod below.
HOMES = ("/usr/lib/klayout", *sorted(glob.glob("/usr/lib/*/klayout")))


def find():
    """The module. Raises ImportError, in one line, where there is none."""
    if "pya" in sys.modules and hasattr(sys.modules["pya"], "Application"):
        return sys.modules["pya"]
    try:
        import klayout.db

        return klayout.db
    except ImportError:
        pass
    for home in HOMES:
        if not os.path.isdir(os.path.join(home, "pymod", "klayout")):
            continue
        try:
            for name in ("tl", "gsi", "pya", "db"):
                ctypes.CDLL(os.path.join(home, f"libklayout_{name}.so.0"), mode=ctypes.RTLD_GLOBAL)
            sys.path.append(os.path.join(home, "pymod"))
            import klayout.db

            return klayout.db
        except (ImportError, OSError) as fault:
            why = " ".join(str(fault).split())
            raise ImportError(f"KLayout in {home} is not for this Python ({sys.executable}): {why}") from None
    raise ImportError("KLayout is not installed (Debian: apt-get install klayout)")
