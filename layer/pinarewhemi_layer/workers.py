"""Work for several processes: Python's pool on one machine, dask on many. Answers come in the order of the tasks."""

import ctypes
import os
import signal

from .core import Told
from .files import signals

# How often workers may die before it is told, and for how many seconds a scheduler is waited for.
LIVES, PATIENCE = 4, 10


def _end_with_parent(parent):
    """A worker ends when the command does, however that ends (Linux: PR_SET_PDEATHSIG)."""
    signals(signal.SIG_DFL)
    try:
        ctypes.CDLL(None).prctl(1, signal.SIGKILL)
    except AttributeError:
        pass
    if os.getppid() != parent:
        # it ended before
        os._exit(1)


class Pool:
    """Processes of this machine. They are forked for each run, so that they have what this one has read. Where one is
    killed, what was not answered is asked again."""

    def __init__(self, workers):
        self.workers = workers

    def ahead(self, function, given):
        """Nothing: this process does it, and its workers are forked later."""

    def close(self):
        pass

    def run(self, function, tasks, show):
        # loaded where they are needed: they take as long as a small layer does
        import concurrent.futures.process
        import multiprocessing

        context = multiprocessing.get_context("fork")
        done = 0
        for _ in range(LIVES):
            with concurrent.futures.ProcessPoolExecutor(self.workers, context, _end_with_parent, (os.getpid(),)) as pool:
                try:
                    asked = [pool.submit(function, task) for task in tasks[done:]]
                    while asked:
                        answer = asked.pop(0).result()
                        done += 1
                        yield answer
                        show(done, len(tasks))
                    return
                except concurrent.futures.process.BrokenProcessPool:
                    continue
        raise Told(f"workers ended {LIVES} times before they had answered")


class Dask:
    """The workers of a dask scheduler, which know this package and reach the file by the same name."""

    def __init__(self, address):
        try:
            import distributed
        except ImportError:
            raise Told("--scheduler needs dask (Debian: apt-get install python3-distributed)") from None
        try:
            self.client = distributed.Client(address, timeout=PATIENCE, set_as_default=False)
        except (OSError, ValueError, RuntimeError) as fault:
            raise Told(f"{address}: no scheduler answers ({type(fault).__name__})") from None
        if not self.client.scheduler_info()["workers"]:
            self.close()
            raise Told(f"{address}: the scheduler has no worker")
        self.begun = []

    def ahead(self, function, given):
        """Every worker begins with what its tasks will want done, while this process does it too. How it went, the tasks
        will tell."""
        for name in self.client.scheduler_info()["workers"]:
            self.begun.append(self.client.submit(function, given, workers=[name], pure=False))

    def close(self):
        self.client.close()

    def run(self, function, tasks, show):
        asked = self.client.map(function, tasks, pure=False, retries=LIVES)
        for done in range(len(tasks)):
            try:
                answer = asked[done].result()
            except Exception as fault:
                raise Told(f"a worker failed: {' '.join(str(fault).split())}") from None
            asked[done].release()
            yield answer
            show(done + 1, len(tasks))


class Alone:
    """This process."""

    def ahead(self, function, given):
        """Nothing: this process does it."""

    def close(self):
        pass

    def run(self, function, tasks, show):
        for done, task in enumerate(tasks, 1):
            yield function(task)
            show(done, len(tasks))
