"""Windows and workers: another road to the same figures, and the same bytes for any number of workers."""

import collections
import logging
import os
import random
import signal
import subprocess
import sys
import time
import unittest
from unittest import mock

import pinarewhemi
from pinarewhemi_layer import jobs, windows, workers
from pinarewhemi_layer.core import Gathered, Told, survey

from . import layers
from .test_layer import WithFolder, db


def flat_layer(seed, count):
    """A layer without hierarchy: outlines, squares that touch in a corner, and rails, some right across."""
    layout = db.Layout()
    top, layer = layout.create_cell("TOP"), layout.layer(4, 0)
    layers.skylines(db, top, layer, seed, count)
    chance = random.Random(seed)
    shapes = top.shapes(layer)
    high = 15 * count
    for _ in range(count // 10):
        left, bottom = chance.randrange(1400), chance.randrange(high)
        if chance.random() < 0.5:
            shapes.insert(db.Box(left, bottom, left + chance.randrange(100, 1500), bottom + 4))
        else:
            shapes.insert(db.Box(left, bottom, left + 3, bottom + chance.randrange(100, 900)))
        shapes.insert(db.Box(left - 20, bottom - 20, left, bottom))
    return layout


def figures_of(layout):
    """The merged figures of layer 4/0, flat, and how often each comes."""
    region = db.Region(layout.cell("TOP").begin_shapes_rec(layout.find_layer(4, 0)))
    region.min_coherence = True
    return collections.Counter(polygon.to_s() for polygon in region.merged().each())


class Windows(WithFolder):
    def test_same_figures(self):
        """Whatever the windows and the margin are, the figures are those of one flat merge: none cut, lost or twice."""
        for seed, count, shapes, margin in [(1, 60, 8, 1), (2, 100, 20, 40), (3, 100, 5, 200), (4, 150, 60, 700), (5, 40, 1, 3)]:
            layout = flat_layer(seed, count)
            top, index = layout.cell("TOP"), layout.find_layer(4, 0)
            source = windows.Source("", (), (4, 0), None)
            windows.hold(source, layout, top, index)
            with mock.patch.object(windows, "SHAPES", shapes):
                planned = windows.plan(db, layout, top, survey(db, layout, top)[0], index)
            self.assertGreater(len(planned), 2)
            tasks = windows.tasks_of(source, [window._replace(margin=margin) for window in planned], 1)
            # by workers, and in this process
            for pieces in (windows.taken(db, map(windows.take, tasks)), map(windows.found, tasks)):
                gathered, behind = Gathered(), mock.Mock()
                windows.gather_windows(db, top, pieces, gathered, behind)
                self.assertEqual(behind.call_count, len(tasks))
                (places,) = gathered.places.values()
                numbers = iter(places)
                standing = collections.Counter(
                    gathered.forms[form].moved(x, y).to_s() for form, x, y in zip(numbers, numbers, numbers)
                )
                self.assertEqual(standing, figures_of(layout))

    def test_both_roads(self):
        """The chip by windows: the layer exactly, and the totals of the hierarchy's road."""
        layout = layers.make(db)
        given = self.stored(layers.make(db), "in.oas")
        words = (given, "--layer", "4/0", "--rule", 25, 40, "--out", self.path("out.oas"))
        lines = []
        for road in ("--windows", "--hierarchy"):
            with mock.patch.object(windows, "SHAPES", 500):
                status, line, _ = self.run_command(*words, road)
            self.assertEqual(status, 1)
            self.check(layout, self.path("out.oas"), line, lambda rings: pinarewhemi.fracture(rings, 25, 40))
            told = line.split()
            lines.append(told[:4] + told[6:])
        self.assertEqual(*lines)


class SameBytes(WithFolder):
    def bytes_of(self, *words):
        """What the command writes, and its line."""
        out = self.path("out.oas")
        status, line, said = self.run_command(
            self.given, "--layer", 4, "--rule", 25, 40, "--out", out, "--report", self.path("r.csv"), *words
        )
        self.assertIn(status, (0, 1), said)
        with open(out, "rb") as file, open(self.path("r.csv"), "rb") as report:
            return file.read(), report.read(), line

    def setUp(self):
        super().setUp()
        self.flat = self.given = self.stored(flat_layer(6, 400), "in.oas")
        # with a triangle, which no job can carry
        self.chip = self.stored(layers.make(db), "chip.oas")
        # more windows than the command does by itself
        patched = mock.patch.object(windows, "SHAPES", 100)
        patched.start()
        self.addCleanup(patched.stop)

    def test_workers(self):
        """1, 2 and 4 processes; windows, and bundles of jobs where work is planned: from the first window on, from one in
        the middle on, or never, so that none, some or all is placed while windows are at work."""
        for seconds in (0.001, 0.02, 60):
            with mock.patch.object(jobs, "SECONDS", seconds), mock.patch.object(jobs, "BUNDLE_SECONDS", 0.002):
                self.assert_same_bytes()

    def assert_same_bytes(self):
        self.given = self.flat
        for words in ((), ("--pinwheels",), ("--largest", 200), ("--keep",)):
            one = self.bytes_of(*words)
            for number in (2, 4):
                self.assertEqual(self.bytes_of("--workers", number, *words), one)
        self.given = self.chip
        for words in (("--hierarchy",), ("--windows", "--beyond")):
            one = self.bytes_of(*words)
            self.assertEqual(self.bytes_of("--workers", 2, *words), one)

    def test_few_windows(self):
        """A layer of few windows: the command does them itself, and workers have the figures alone."""
        asked = []
        bundles = mock.patch.object(jobs, "SECONDS", 0.001), mock.patch.object(jobs, "BUNDLE_SECONDS", 0.002)
        with bundles[0], bundles[1], mock.patch.object(workers.Pool, "run", noted(workers.Pool.run, asked)):
            for shapes, names in ((100, ["take", "fracture_bundle"]), (400, ["fracture_bundle"])):
                with mock.patch.object(windows, "SHAPES", shapes):
                    asked.clear()
                    one = self.bytes_of()
                    self.assertEqual(self.bytes_of("--workers", 2), one)
                self.assertEqual([name for name, _ in asked], names)

    def test_jobs_are_kept(self):
        """The job files read back, and hold the distinct figures that a job can carry."""
        folder = self.path("jobs")
        os.mkdir(folder)
        # an earlier run with more jobs, and what is not ours
        for name in ("000123.job", "1234567.job", "7.job", "notes"):
            open(os.path.join(folder, name), "w").close()
        for self.given in (self.flat, self.chip):
            one = self.bytes_of()
            self.assertEqual(self.bytes_of("--jobs", folder), one)
            carried = 0
            names = sorted(name for name in os.listdir(folder) if name not in ("7.job", "notes"))
            self.assertEqual(names, [f"{number:06}.job" for number in range(len(names))])
            for name in names:
                with open(os.path.join(folder, name), "rb") as file:
                    job = pinarewhemi.read_job(file.read())
                self.assertEqual(job[:2], (25, 40))
                carried += len(job.figures)
            rows = one[1].decode().splitlines()[1:]
            self.assertEqual(carried, sum(row.split(",")[8] not in ("2", "18") for row in rows))
            self.assertGreater(carried, 100)
        self.assertEqual(len(os.listdir(folder)), len(names) + 2)

    def test_killed_in_the_middle(self):
        """A worker that is killed changes nothing; one that dies always is told."""
        marker = self.path("marker")
        self.assertEqual(list(workers.Pool(2).run(killed_once, [(marker, n) for n in range(20)], lambda *_: None)), list(range(20)))
        with self.assertRaises(Told):
            list(workers.Pool(2).run(killed_always, [1, 2, 3], lambda *_: None))

    def test_killed_over_a_window(self):
        """The command, of whose two workers one is killed over a window: the same bytes."""
        one = self.bytes_of()
        Killing.marker = self.path("marker")
        with mock.patch.object(windows, "take", take_killed_once):
            self.assertEqual(self.bytes_of("--workers", 2), one)
        self.assertTrue(os.path.exists(Killing.marker), "none was killed")

    def test_dask(self):
        """Two workers of dask on the loopback: windows, and bundles of jobs; then one is killed over a task."""
        try:
            import distributed  # noqa: F401
        except ImportError:
            self.skipTest("LEFT OUT: dask is not installed (Debian: apt-get install python3-distributed)")
        one = self.bytes_of()
        around = {**os.environ, "DASK_DISTRIBUTED__SCHEDULER__DASHBOARD__STATUS__TASK_STREAM_LENGTH": "1"}
        file = self.path("scheduler.json")
        start = [sys.executable, "-m", "distributed.cli.dask_scheduler", "--host", "127.0.0.1", "--port", "0"]
        running = [subprocess.Popen([*start, "--no-dashboard", "--scheduler-file", file], env=around, **QUIET)]
        try:
            worker = [sys.executable, "-m", "distributed.cli.dask_worker", "--scheduler-file", file, "--nthreads", "1"]
            worker += ["--no-nanny", "--no-dashboard", "--host", "127.0.0.1", "--local-directory", self.folder]
            running += [subprocess.Popen(worker, env=around, **QUIET) for _ in range(2)]
            client = distributed.Client(scheduler_file=file, timeout=30, set_as_default=False)
            client.wait_for_workers(2, timeout=30)
            address = client.scheduler.address
            client.close()
            self.assertEqual(self.bytes_of("--scheduler", address), one)
            asked = []
            bundles = mock.patch.object(jobs, "SECONDS", 0.001), mock.patch.object(jobs, "BUNDLE_SECONDS", 0.002)
            with bundles[0], bundles[1], mock.patch.object(workers.Dask, "run", noted(workers.Dask.run, asked)):
                self.assertEqual(self.bytes_of("--scheduler", address), one)
            self.assertEqual([name for name, _ in asked], ["take", "fracture_bundle"])
            self.assertTrue(all(count > 2 for _, count in asked), asked)
            # a task that kills the worker that has it, once: another worker is asked again
            marker = self.path("marker")
            logging.getLogger("distributed.client").setLevel(logging.ERROR)
            dask = workers.Dask(address)
            try:
                tasks = [(marker, number) for number in range(20)]
                self.assertEqual(list(dask.run(killed_once, tasks, lambda *_: None)), list(range(20)))
            finally:
                dask.close()
            self.assertTrue(os.path.exists(marker))
            until = time.monotonic() + 10
            while all(process.poll() is None for process in running) and time.monotonic() < until:
                time.sleep(0.01)
            self.assertEqual([process.poll() is None for process in running].count(False), 1, "one worker was killed")
            self.assertEqual(self.bytes_of("--scheduler", address), one)
        finally:
            for process in running:
                process.kill()
                process.wait()
        with mock.patch.object(workers, "PATIENCE", 1):
            words = ("--rule", 25, 40, "--out", self.path("o.oas"), "--scheduler", "tcp://127.0.0.1:9")
            status, _, said = self.run_command(self.given, "--layer", 4, *words)
        self.assertEqual(status, 2)
        self.assertRegex(said, r"^pinarewhemi-layer: tcp://127\.0\.0\.1:9: [^\n]*\n$")


QUIET = {"stdout": subprocess.DEVNULL, "stderr": subprocess.DEVNULL}


def noted(run, asked):
    """`run`, which notes what was asked and of how many tasks."""

    def running(self, function, tasks, show):
        asked.append((function.__name__, len(tasks)))
        return run(self, function, tasks, show)

    return running


def killed_once(task):
    marker, number = task
    if number == 7 and not os.path.exists(marker):
        open(marker, "w").close()
        os.kill(os.getpid(), signal.SIGKILL)
    return number


class Killing:
    """What a worker takes, and the file that says that one was killed; a forked worker has both."""

    take, marker = staticmethod(windows.take), None


def take_killed_once(task):
    if not os.path.exists(Killing.marker):
        open(Killing.marker, "w").close()
        os.kill(os.getpid(), signal.SIGKILL)
    return Killing.take(task)


def killed_always(_):
    os.kill(os.getpid(), signal.SIGKILL)


if __name__ == "__main__":
    unittest.main()
