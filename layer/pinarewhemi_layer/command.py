"""The command: pinarewhemi-layer IN --layer L/D --rule THRESHOLD WEIGHT --out OUT. Ends with 0 where every figure was
fractured, 1 where the rule or a figure was refused, 2 where reading or writing failed."""

import argparse
import gc
import os
import re
import signal
import sys
from typing import NamedTuple

ALL, SOME_REFUSED, FAILED, INTERRUPTED = 0, 1, 2, 130


def layer_of(word):
    """4/0, or 4 for it."""
    found = re.fullmatch(r"(\d{1,9})(?:/(\d{1,9}))?", word)
    if not found:
        raise argparse.ArgumentTypeError(f"{word!r} is not a layer as 4/0")
    return int(found[1]), int(found[2] or 0)


def number_of(word):
    """A number of 32 bits: the library says what range a rule has."""
    if not re.fullmatch(r"\d{1,9}", word):
        raise argparse.ArgumentTypeError(f"{word!r} is not a whole number")
    return int(word)


def workers_of(word):
    """1 to 256 processes."""
    if not re.fullmatch(r"\d{1,3}", word) or not 1 <= int(word) <= 256:
        raise argparse.ArgumentTypeError(f"{word!r} is not 1 to 256")
    return int(word)


def parser():
    """The words of the command."""
    words = argparse.ArgumentParser(
        prog="pinarewhemi-layer",
        description="A layer of a GDSII or OASIS file to shots: on L/1 the shots, on L/2 the charged sides of slivers, "
        "on L/9 what is beyond the limits.",
        epilog="Ends with 0: every figure was fractured; 1: the rule or a figure was refused; 2: reading or writing failed.",
    )
    words.add_argument("file", metavar="IN", help="GDSII or OASIS")
    words.add_argument("--layer", type=layer_of, required=True, metavar="L/D", help="the layer to fracture")
    words.add_argument("--rule", type=number_of, nargs=2, required=True, metavar=("NM", "WEIGHT"), help="below NM a shot is "
                       "a sliver; each nm of its sides weighs WEIGHT thousandths of a shot")
    words.add_argument("--out", required=True, metavar="OUT", help="GDSII or OASIS, by its ending")
    words.add_argument("--cell", metavar="TOP", help="the cell to take, with what it calls; else the only top cell")
    words.add_argument("--largest", type=number_of, metavar="M", help="no shot with a side above M nm")
    words.add_argument("--pinwheels", action="store_true", help="pinwheels beside straight cuts")
    words.add_argument("--keep", action="store_true", help="the layers of IN stay in OUT")
    words.add_argument("--beyond", action="store_true", help="right-angled figures beyond the limits too, of parts: "
                       "unproved, and counted apart")
    words.add_argument("--report", metavar="R.csv", help="a line for each distinct figure")
    words.add_argument("--jobs", metavar="DIR", help="keeps the distinct figures as job files")
    road = words.add_mutually_exclusive_group()
    road.add_argument("--hierarchy", action="store_true", help="merges cell by cell, however little hierarchy there is")
    road.add_argument("--windows", action="store_true", help="merges flat, window by window, however much there is")
    many = words.add_mutually_exclusive_group()
    many.add_argument("--workers", type=workers_of, default=1, metavar="N", help="processes of this machine")
    many.add_argument("--scheduler", metavar="tcp://HOST:PORT", help="the workers of a dask scheduler")
    return words


class Bar:
    """Shows the stages on a terminal, one after the other, where tqdm is installed."""

    def __init__(self, tqdm):
        self.tqdm, self.stage, self.bar = tqdm, None, None

    def __call__(self, stage, done, total):
        if self.stage != stage:
            self.close()
            self.stage = stage
            self.bar = self.tqdm(total=total, desc=stage, leave=False, file=sys.stderr)
        self.bar.total = total
        self.bar.update(done - self.bar.n)

    def close(self):
        if self.bar is not None:
            self.bar.close()


class Quiet:
    """Shows nothing."""

    def __call__(self, stage, done, total):
        pass

    def close(self):
        pass


def bar():
    """What shows the stages: quiet where nobody looks."""
    if not sys.stderr.isatty():
        return Quiet()
    try:
        from tqdm import tqdm
    except ImportError:
        return Quiet()
    return Bar(tqdm)


def runner_of(given):
    """Who does the work, and how many they are."""
    from . import workers

    if given.scheduler:
        found = workers.Dask(given.scheduler)
        return found, max(2, len(found.client.scheduler_info()["workers"]))
    if given.workers > 1:
        return workers.Pool(given.workers), given.workers
    return workers.Alone(), 1


class Drawn(NamedTuple):
    """The layer that was read and prepared: its layout, top cell and index, the database units to the nm, how often each
    cell is placed, and what a worker needs to have it too."""

    layout: object
    top: object
    index: int
    units: int
    copies: dict
    source: object


def read_layer(db, given, layer):
    """Reads the file, and prepares the layer."""
    from . import core, files, windows

    layout = files.read(db, given.file, None if given.keep else layer)
    source = windows.source_of(given.file, layer, given.cell)
    try:
        top = core.top_of(db, layout, given.cell)
        index = core.index_of(db, layout, top, layer)
        if given.keep:
            core.refuse_taken(db, layout, top, layer)
        core.prune(db, layout, top)
        units, copies = core.prepare(db, layout, top)
    except core.Told as fault:
        raise core.Told(f"{given.file}: {fault}") from None
    return Drawn(layout, top, index, units, copies, source)


def gather_layer(db, given, drawn, runner, workers, gathered, more, show):
    """Gathers the figures of the layer, by the road that suits it or that was asked for."""
    from . import windows
    from .core import gather, merged
    from .workers import Alone

    layout, top, index, _, copies, source = drawn
    flat, held = windows.counts(db, layout, copies, index)
    if given.hierarchy or (not given.windows and flat >= windows.LITTLE * held):
        show("merging", 0, 1)
        gather(db, layout, merged(db, layout, top, index, copies), copies, gathered, show)
        return
    windows.hold(source, layout, top, index)
    planned = windows.plan(db, layout, top, copies, index)
    tasks = windows.tasks_of(source, planned, workers)
    shown = stage(show, "windows")
    if workers < 2 or len(planned) < windows.FEW:
        # nobody else is at work, so nothing is done meanwhile
        pieces, more = Alone().run(windows.found, tasks, shown), lambda: None
    else:
        pieces = windows.taken(db, runner.run(windows.take, tasks, shown))
    windows.gather_windows(db, top, pieces, gathered, more)


def stage(show, name):
    """Shows the progress of one stage."""
    return lambda done, total: show(name, done, total)


def gather_and_answer(db, given, drawn, runner, workers, fracturer, placing, show):
    """Gathers the figures of the layer and answers each distinct one, by those who do the work. What is known while
    windows are still at work is placed already."""
    from . import beyond, core, jobs

    gathered, answers, units = placing.gathered, placing.given, drawn.units
    parted = beyond.of(db) if given.beyond else None
    early = jobs.Early(fracturer, units, parted, answers)

    def more():
        """While workers have the next windows: answers and places what the last one gave."""
        if given.jobs is None and early.answer(gathered.forms):
            placing.more()

    gather_layer(db, given, drawn, runner, workers, gathered, more, show)
    forms, shown = gathered.forms[len(answers) :], stage(show, "distinct")
    rest = jobs.spread_answers(fracturer, forms, units, parted, workers, runner, given.jobs, shown)
    answers += core.answers(fracturer, forms, units, parted, show) if rest is None else rest


def run(given, show):
    """From the words to what was done, which is in the files that were asked for."""
    from . import core, files, klayout_db, windows

    db = klayout_db.find()
    layer = core.Layer(*given.layer)
    fracturer = core.Fracturer(*given.rule, given.largest, given.pinwheels)
    options = files.format_of(db, given.out)
    files.refuse_outputs(given.out, given.report)
    show("reading", 0, 1)
    runner, workers = runner_of(given)
    try:
        if not given.hierarchy:
            runner.ahead(windows.open_ahead, windows.source_of(given.file, layer, given.cell))
        drawn = read_layer(db, given, layer)
        placing = core.Placing(db, drawn.layout, layer, drawn.units, core.Gathered(), [], given.keep)
        gather_and_answer(db, given, drawn, runner, workers, fracturer, placing, show)
    finally:
        runner.close()
    if not given.keep:
        core.drop_layers(db, drawn.layout, placing.layers)
    placing.all(show)
    done = core.Done(layer, placing.gathered, placing.given)
    show("writing", 0, 1)
    with files.Aside() as aside:
        files.write(db, drawn.layout, given.out, options, aside)
        if given.report:
            files.report(done, given.report, aside)
        aside.settle()
    return done


def printed(line, tell):
    """Prints the line of totals. Where it cannot, that is told."""
    if sys.stdout is None:
        tell("standard output: it is closed")
        return False
    try:
        print(line, flush=True)
        return True
    except OSError as fault:
        tell(f"standard output: {fault.strerror or fault}")
        # Python would try again at its end, and end with a status of its own
        os.dup2(os.open(os.devnull, os.O_WRONLY), 1)
        return False


def main(words=None):
    """The command; its status."""
    given = parser().parse_args(words)

    def tell(fault):
        print(f"pinarewhemi-layer: {fault}", file=sys.stderr)

    try:
        import pinarewhemi

        from .core import Told
        from .files import signals
    except ImportError as fault:
        tell(" ".join(str(fault).split()))
        return FAILED
    signals(signal.SIG_DFL)
    # what is gathered and answered has no cycles, and looking for some takes a tenth of the time
    gc.disable()
    show = bar()
    try:
        try:
            done = run(given, show)
        finally:
            show.close()
        if not printed(done.line(), tell):
            return FAILED
        return SOME_REFUSED if done.refused else ALL
    except pinarewhemi.Refused as fault:
        tell(fault)
        return SOME_REFUSED
    except (Told, ImportError) as fault:
        tell(fault)
    except OSError as fault:
        tell(f"{fault.filename or given.out}: {fault.strerror or fault}")
    except RuntimeError as fault:
        tell(f"{given.file}: {' '.join(str(fault).split())}")
    except MemoryError:
        tell(f"{given.file}: out of memory")
    except KeyboardInterrupt:
        tell("interrupted, nothing was written")
        return INTERRUPTED
    return FAILED
