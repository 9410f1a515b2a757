"""Layout files read and written through KLayout, and files written aside and then renamed."""

import contextlib
import csv
import os
import signal
import stat
import threading

from .core import Told, rings_of
from .figures import OFF_GRID

SUFFIXES = (".gds", ".gds2", ".gds.gz", ".gds2.gz", ".oas", ".oas.gz")


def one_line(fault):
    """What KLayout says, which may be several lines, in one."""
    return " ".join(str(fault).split())


SIGNALS = signal.SIGINT, signal.SIGTERM, signal.SIGHUP
# Those that were ignored when the program began (nohup, a job in the background): they stay so.
IGNORED = [number for number in SIGNALS if signal.getsignal(number) == signal.SIG_IGN]


def interrupted(*_):
    """What Ctrl-C and a request to end do while files are written aside: these go, then the program ends."""
    raise KeyboardInterrupt


def signals(action):
    """Sets what Ctrl-C and requests to end do; nothing where this is not the main thread, which alone may."""
    if threading.current_thread() is threading.main_thread():
        for number in SIGNALS:
            if number not in IGNORED:
                signal.signal(number, action)


def read(db, path, layer=None):
    """The layout of a file: all of it, or its cells with one layer alone."""
    try:
        if not stat.S_ISREG(os.stat(path).st_mode):
            raise Told(f"{path}: not a file")
        with open(path, "rb"):
            pass
    except OSError as fault:
        raise Told(f"{path}: {fault.strerror}") from None
    options = db.LoadLayoutOptions()
    if layer is not None:
        only = db.LayerMap()
        only.map(db.LayerInfo(layer.number, layer.datatype), 0)
        options.set_layer_map(only, False)
    layout = db.Layout()
    try:
        layout.read(path, options)
    except RuntimeError as fault:
        raise Told(f"{path}: cannot be read: {one_line(fault)}") from None
    return layout


def format_of(db, path):
    """How KLayout is to write a file of that name: GDSII or OASIS, nothing in it that differs from run to run."""
    options = db.SaveLayoutOptions()
    if not path.lower().endswith(SUFFIXES) or not options.set_format_from_filename(path):
        raise Told(f"{path}: its name has to end in .gds or .oas")
    options.gds2_write_timestamps = False
    options.write_context_info = False
    return options


def target_of(path):
    """The file that a name stands for, symbolic links followed: one that can be written aside and renamed."""
    target = os.path.realpath(path)
    folder = os.path.dirname(target)
    if not os.path.isdir(folder):
        raise Told(f"{path}: there is no folder {folder}")
    try:
        mode = os.stat(target).st_mode
    except FileNotFoundError:
        return target
    except OSError as fault:
        raise Told(f"{path}: {fault.strerror}") from None
    if stat.S_ISDIR(mode):
        raise Told(f"{path}: it is a folder")
    if not stat.S_ISREG(mode):
        raise Told(f"{path}: it is there, and no regular file")
    return target


def refuse_outputs(*paths):
    """Tells before any work is done which outputs cannot be written; None stands for one that is not asked for."""
    targets = {}
    for path in paths:
        if path is not None:
            target = target_of(path)
            if target in targets:
                raise Told(f"{targets[target]} and {path} are one file")
            targets[target] = path


class Aside:
    """Files that are written under another name in the same folder (where a name is a link, in that of the file it
    leads to), and all get their own at the end, or none does.
    Elsewhere Ctrl-C ends the program at once (Python would see it only when KLayout's call has ended); here there are
    files to remove first, and once they get their names it is too late for it."""

    def __init__(self):
        self.files = []

    def __enter__(self):
        signals(interrupted)
        return self

    def name(self, path):
        """The name to write under. It keeps the ending, by which KLayout knows whether to compress."""
        target = target_of(path)
        name = f".part-{os.getpid()}-{len(self.files)}-{os.path.basename(path)}"
        aside = os.path.join(os.path.dirname(target), name)
        self.files.append((aside, target))
        return aside

    def settle(self):
        """Everything was written: to the disk with it, then the names."""
        for aside, _ in self.files:
            with open(aside, "rb") as written:
                os.fsync(written.fileno())
        signals(signal.SIG_IGN)
        while self.files:
            os.replace(*self.files[0])
            self.files.pop(0)

    def __exit__(self, *_):
        for aside, _ in self.files:
            with contextlib.suppress(OSError):
                os.unlink(aside)


def write(db, layout, path, options, aside):
    """Writes the layout aside."""
    name = aside.name(path)
    try:
        with open(name, "wb"):
            pass
        layout.write(name, options)
    except OSError as fault:
        raise Told(f"{path}: cannot be written: {fault.strerror}") from None
    except RuntimeError as fault:
        raise Told(f"{path}: cannot be written: {one_line(fault).replace(name, path)}") from None


HEAD = ("figure", "corners", "rings", "copies", "shots", "cost", "sliver", "cuts", "refused", "parts")


def report(done, path, aside):
    """Writes a line for each distinct figure aside. refused is empty where it was fractured; parts is empty where that
    is proved."""
    try:
        with open(aside.name(path), "w", newline="") as out:
            lines = csv.writer(out, lineterminator="\n")
            lines.writerow(HEAD)
            for number, (form, answer, copies) in enumerate(zip(done.forms, done.answers, done.copies)):
                rings = rings_of(form)
                sizes = sum(map(len, rings)) // 2, len(rings), copies
                if answer.refused is None:
                    told = len(answer.shots) // 4, answer.cost, answer.sliver, answer.cuts, "", answer.parts or ""
                else:
                    told = "", "", "", "", "off-grid" if answer.refused == OFF_GRID else answer.refused, ""
                lines.writerow((number, *sizes, *told))
    except OSError as fault:
        raise Told(f"{path}: cannot be written: {fault.strerror}") from None
