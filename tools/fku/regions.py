"""Sections of a region of a volume: the voxels with some labels, or with values from a level on. It needs numpy."""
import math
import multiprocessing
import os
from collections import Counter
from dataclasses import dataclass

from fku import thinning, tracing
from fku.lattice import Grid
from fku.progress import Progress
from fku.section_text import MOST_CONTOUR_VERTICES, Section
from fku.trouble import Trouble
from fku.volumes import Volume

FEW_VOXELS = 2000000  # of a field that one process traces as fast as several
MOST_JOBS = 4  # processes, where their number is not given


class Field:
    """Values[z, y, x] whose region is where they are at least `level`, and the place (x, y, z) of the first one in the
    volume. Where `smooth` is above 0, the values of a slice are blurred by a Gaussian of this size, in voxels, along
    all axes; the border's values go on outside, and places without a number count as the least one.
    """

    def __init__(self, values, level, start, smooth=0.0):
        self.values, self.level, self.start, self.smooth = values, level, start, smooth
        if smooth:
            self.prepare()

    def prepare(self):
        """Makes the weights of the blur, and finds the least value."""
        import numpy

        reach = max(1, math.ceil(3 * self.smooth))
        weights = numpy.exp(-0.5 * (numpy.arange(-reach, reach + 1) / self.smooth) ** 2)
        self.weights = weights / weights.sum()
        self.least = None
        if self.values.dtype.kind == "f":
            known = [it[numpy.isfinite(it)] for it in self.values]
            self.least = min(float(it.min()) for it in known if it.size)

    def plane(self, number):
        """Gives the numbers[y, x] of a slice of the field, or of the one that is nearest to it."""
        import numpy

        values = self.values[min(max(number, 0), len(self.values) - 1)].astype(numpy.float64)
        if self.least is not None:
            values[~numpy.isfinite(values)] = self.least
        return values

    def slice_of(self, number: int):
        """Gives the values[y, x] of a slice of the volume."""
        import numpy

        number -= self.start[2]
        if not self.smooth:
            return self.values[number]
        reach = len(self.weights) // 2
        blurred = numpy.zeros(self.values.shape[1:])
        for at, weight in enumerate(self.weights):
            blurred += weight * self.plane(number + at - reach)
        for axis in (0, 1):
            padded = numpy.pad(blurred, [(reach, reach) if it == axis else (0, 0) for it in range(2)], mode="edge")
            blurred = numpy.zeros_like(blurred)
            height, width = blurred.shape
            for at, weight in enumerate(self.weights):
                blurred += weight * (padded[at : at + height] if axis == 0 else padded[:, at : at + width])
        return blurred


def some_values(values):
    """Gives the words for the values that there are, the least ones first."""
    import numpy

    there = set()
    for of_slice in values:
        there |= set(numpy.unique(of_slice).tolist())
    return ", ".join(f"{it:g}" for it in sorted(there)[:20]) + (" and more" if len(there) > 20 else "")


def labelled(volume: Volume, labels: list[float], smooth: float) -> Field:
    """Gives the field of the voxels with one of these labels, cut down to their box and a margin."""
    import numpy

    found = numpy.zeros(volume.values.shape, dtype=bool)
    for label in labels:
        same = volume.values == label
        if not same.any():
            there = f"its values are {some_values(volume.values)}"
            raise Trouble(f"no voxel of {volume.note} has the label {label:g}; {there}")
        found |= same
    margin = math.ceil(3 * smooth) + 1
    start, ranges = [], []
    for axis in range(3):
        at = numpy.flatnonzero(found.any(axis=tuple(it for it in range(3) if it != axis)))
        low, high = max(int(at[0]) - margin, 0), min(int(at[-1]) + margin + 1, found.shape[axis])
        start.append(low)
        ranges.append(slice(low, high))
    return Field(found[tuple(ranges)], 0.5, start[::-1], smooth)


def levelled(volume: Volume, level: float, smooth: float) -> Field:
    """Gives the field of the values from a level on."""
    import numpy

    with numpy.errstate(invalid="ignore"):
        if not (volume.values >= level).any():
            some = volume.values[numpy.isfinite(volume.values)]
            there = f"values are {some.min():g} to {some.max():g}" if some.size else "it has no value"
            raise Trouble(f"no voxel of {volume.note} has a value of {level:g} or more; {there}")
    return Field(volume.values, level, [0, 0, 0], smooth)


def without_empty_ends(sections: list[Section]) -> list[Section]:
    """Gives the sections from the first one with an outline to the last one."""
    filled = [at for at, it in enumerate(sections) if it.contours]
    return sections[filled[0] : filled[-1] + 1] if filled else []


@dataclass
class Traced:
    """The rings of a slice, in the text's places, and what was left out: small outlines, twice their areas, and points.
    """

    rings: list
    outlines: int = 0
    doubled_area: int = 0
    points: int = 0


def trace(field: Field, grid: Grid, areas: tuple[float, float], number: int) -> Traced:
    """Traces a slice of a field. The areas are those below which outlines and points are left out, in squared units."""
    smallest, tolerance = areas
    values = field.slice_of(number)
    xs = grid.along(0, field.start[0], values.shape[1])
    ys = grid.along(1, field.start[1], values.shape[0])
    found = tracing.outlines(values, field.level, xs, ys, grid.margin)
    sized = [(abs(tracing.doubled_area(it)), it) for it in found]
    kept = [it for it in sized if it[0] >= 2 * smallest]
    small = [doubled for doubled, _ in sized if doubled < 2 * smallest]
    rings = [grid.placed(ring, number) for _, ring in sorted(kept, key=lambda it: -it[0])]
    cell = 2 * math.ceil(max(grid.steps[:2]))
    thin = thinning.thinned(rings, 2 * tolerance, MOST_CONTOUR_VERTICES, cell) if rings else []
    return Traced(thin, len(small), sum(small), sum(map(len, rings)) - sum(map(len, thin)))


shared = ()  # what `trace` takes before the number: processes that are forked have it without a copy


def trace_shared(number: int) -> Traced:
    """Traces a slice of the field that all processes share."""
    return trace(*shared, number)


def jobs_of(given: int | None, field: Field) -> int:
    """Gives how many processes trace a field."""
    if given is None:
        given = 1 if field.values.size < FEW_VOXELS else min(MOST_JOBS, len(os.sched_getaffinity(0)))
    return given if "fork" in multiprocessing.get_all_start_methods() else 1


class Tracer:
    """Traces fields on a grid, slice by slice, by several processes. `smallest` and `tolerance` are areas in squared
    units.

    It counts what it leaves out: outlines, their summed doubled area in squared units, and points. The outlines of a
    slice are numbered on from field to field, so that no two have one name.
    """

    def __init__(self, grid: Grid, smallest: float, tolerance: float, jobs: int | None = None):
        self.grid, self.areas, self.jobs = grid, (smallest, tolerance), jobs
        self.outlines = self.doubled_area = self.points = 0
        self.named = Counter()

    def traced(self, field: Field, numbers: list[int]):
        """Gives what `trace` makes of some slices, in their order."""
        jobs = jobs_of(self.jobs, field)
        if jobs == 1:
            yield from (trace(field, self.grid, self.areas, it) for it in numbers)
            return
        global shared
        shared = (field, self.grid, self.areas)
        with multiprocessing.get_context("fork").Pool(jobs) as pool:
            yield from pool.imap(trace_shared, numbers, chunksize=max(1, min(8, len(numbers) // (4 * jobs))))

    def section_of(self, number: int, found: Traced) -> Section:
        """Gives the section of a slice, with a name for each outline, and counts what was left out."""
        self.outlines += found.outlines
        self.doubled_area += found.doubled_area
        self.points += found.points
        named = [(f"s{number}_{at}", ring) for at, ring in enumerate(found.rings, self.named[number])]
        self.named[number] += len(named)
        return Section(self.grid.height(number), named)

    def sections_of(self, field: Field, numbers, what: str) -> list[Section]:
        """Gives the sections of some slices. A slice without an outline between others stays. `what` names the
        work in the report of how far it is.
        """
        within = range(field.start[2], field.start[2] + len(field.values))
        numbers = [it for it in numbers if it in within]
        found = Progress(f"{what} slices", len(numbers)).over(self.traced(field, numbers))
        return without_empty_ends([self.section_of(number, it) for it, number in zip(found, numbers)])
