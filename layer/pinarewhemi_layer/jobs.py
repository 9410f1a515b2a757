"""Bundles of our own job files: the distinct figures of a layer for several workers, to keep, to look at with the tools
of this repository, and to run again."""

import os
import re

import pinarewhemi

from .core import Told, answer, rings_of
from .figures import WIDEST, Fracturer

# Only where this much work is planned are figures spread; a bundle has at least so much, a worker at least so many.
SECONDS, BUNDLE_SECONDS, BUNDLES = 1.0, 0.1, 16
JOB_BYTES, JOB_OUTLINES, HEADER = 4096, 255, 6


def planned(corners, pinwheels):
    """About how long a figure of so many corners will take, in seconds: cuts grow as the fifth power of the lines."""
    return 30e-6 + 4e-6 * corners + (2e-3 * (corners / 32) ** 5 if pinwheels else 0)


def job_fits(rings):
    """Whether a job can carry the figure: rings of 4 corners or more, 32 in all. A slanted one it can, and the library
    refuses it there; a triangle it cannot."""
    corners = [len(ring) // 2 for ring in rings]
    return min(corners) >= 4 and sum(corners) <= 32 and len(rings) <= 8 and max(map(max, rings)) <= WIDEST


def outline_of(rings):
    return pinarewhemi.write_outline([list(zip(ring[0::2], ring[1::2])) for ring in rings])


def pack(threshold, weight, outlines):
    """Outlines as jobs, in order: as many to a job as it may have."""
    jobs, held, size = [], [], HEADER
    for outline in [*outlines, None]:
        if held and (outline is None or size + len(outline) > JOB_BYTES or len(held) == JOB_OUTLINES):
            jobs.append(pinarewhemi.write_header(threshold, weight, len(held)) + b"".join(held))
            held, size = [], HEADER
        if outline is not None:
            held.append(outline)
            size += len(outline)
    return jobs


_fracturers = {}


def fracture_bundle(task):
    """The answers for all outlines of some jobs: the work of a worker. `task` is the rule's words and the jobs."""
    words, jobs = task
    if words not in _fracturers:
        _fracturers[words] = Fracturer(*words)
    fracturer, given = _fracturers[words], []
    for job in jobs:
        index = pinarewhemi.index_open(job)
        for number in range(len(index)):
            figure = pinarewhemi.unpack(pinarewhemi.index_pick(job, index, number).data)
            given.append(fracturer.answer([[number for corner in ring for number in corner] for ring in figure]))
    return given


def keep(folder, bundles):
    """Writes the jobs to a folder, numbered in their order. What an earlier run left there under such names goes first:
    it may have had more of them."""
    try:
        os.makedirs(folder, exist_ok=True)
        for name in os.listdir(folder):
            if re.fullmatch(r"\d{6,}\.job", name):
                os.unlink(os.path.join(folder, name))
        for number, job in enumerate(job for jobs in bundles for job in jobs):
            with open(os.path.join(folder, f"{number:06}.job"), "wb") as file:
                file.write(job)
    except OSError as fault:
        raise Told(f"{folder}: cannot be written: {fault.strerror}") from None


class Early:
    """Answers distinct figures while workers are at work on where they stand: as long as little is planned, since what
    takes longer is spread over the workers too."""

    def __init__(self, fracturer, units, beyond, answers):
        self.fracturer, self.units, self.beyond, self.answers = fracturer, units, beyond, answers
        self.left = SECONDS

    def answer(self, forms):
        """Answers the forms that are not answered yet; whether all of them are then."""
        for form in forms[len(self.answers) :]:
            self.left -= planned(form.num_points(), self.fracturer.pinwheels)
            if self.left < 0:
                return False
            self.answers.append(answer(self.fracturer, form, self.units, self.beyond))
        return True


def spread_answers(fracturer, forms, units, beyond, workers, runner, folder, show):
    """The answers for all forms, in their order. None where so little is planned that spreading is not worth it, and no
    folder is asked for."""
    if folder is None and workers < 2:
        return None
    rings = [rings_of(form) for form in forms]
    total = sum(planned(form.num_points(), fracturer.pinwheels) for form in forms)
    if folder is None and total < SECONDS:
        return None
    enough = max(BUNDLE_SECONDS, min(SECONDS, total / (BUNDLES * workers)))
    given, carried, bundles, outlines, work = [None] * len(forms), [], [], [], 0.0
    for number, figure in enumerate(rings):
        scaled = [[n // units for n in ring] for ring in figure]
        if any(n % units for ring in figure for n in ring) or not job_fits(scaled):
            given[number] = answer(fracturer, forms[number], units, beyond)
            continue
        carried.append(number)
        outlines.append(outline_of(scaled))
        work += planned(forms[number].num_points(), fracturer.pinwheels)
        if work >= enough:
            bundles.append(pack(fracturer.threshold, fracturer.weight, outlines))
            outlines, work = [], 0.0
    if outlines:
        bundles.append(pack(fracturer.threshold, fracturer.weight, outlines))
    if folder is not None:
        keep(folder, bundles)
    words = fracturer.threshold, fracturer.weight, fracturer.largest, fracturer.pinwheels
    numbers = iter(carried)
    for bundle in runner.run(fracture_bundle, [(words, jobs) for jobs in bundles], show):
        for done in bundle:
            given[next(numbers)] = done
    return given
