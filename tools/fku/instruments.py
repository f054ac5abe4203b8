"""The measures and the crossings of a surface that the program wrote, in the caller's unit and at the caller's place.

The commands `measure` and `crossings` run on the text of the surface when they are first asked for, and their answers
are kept. All is computed with integers and fractions, up to the floating-point numbers that come out. It needs
numpy.
"""
import math
from fractions import Fraction
from functools import cached_property

import numpy

from fku import at_fault, crossings, faults, measures, program
from fku.faults import FkuError
from fku.stacks import Grid
from fku.trouble import Trouble


def not_above(value: Fraction) -> float:
    """Gives the greatest floating-point number that is not above a fraction."""
    near = float(value)
    return near if near <= value else math.nextafter(near, -math.inf)


def not_below(value: Fraction) -> float:
    """Gives the least floating-point number that is not below a fraction."""
    return -not_above(-value)


class Surface:
    """A surface: its MOVIE.BYU text, the grid of its whole units, and how many triangles each of its parts has.

    FkuError is raised where the program refuses the text, does not know the command, or gives no whole answer.
    """

    def __init__(self, text: bytes, grid: Grid, sizes: list[int]):
        self.text, self.grid, self.sizes = text, grid, sizes

    def answer(self, command: str, reader):
        """Gives what the program prints for the surface, as the module `reader` reads it."""
        status, out = at_fault.started([command], self.text)
        if status == program.REFUSED:
            it = faults.parse(out)
            raise FkuError(f"{it.meaning()} ({it.text})", it.kind, it.remedy(), it.text, it.number)
        try:
            found = reader.read(out, f"fku {command}")
            reader.see_fits(found, self.sizes, f"fku {command}")
        except Trouble as it:
            raise FkuError(str(it), "ENDED") from None
        return found

    @cached_property
    def measures(self) -> list[measures.Measures]:
        """What `measure` prints, for each part."""
        return self.answer("measure", measures)

    @cached_property
    def crossings(self) -> crossings.Crossings:
        """What `crossings` prints."""
        return self.answer("crossings", crossings)


class Measured:
    """Some neighbouring parts of a surface, together: `parts` has their numbers, from 0."""

    def __init__(self, surface: Surface, parts: range):
        self.surface, self.parts = surface, parts

    def each(self) -> list[measures.Measures]:
        """Gives the measures of each of the parts, in whole units."""
        return [self.surface.measures[it] for it in self.parts]

    def area(self) -> tuple[float, float]:
        """Gives two numbers between which the area lies, in squared units of length."""
        square = self.surface.grid.exact_unit() ** 2 / 2000
        low, high = (sum(getattr(it, side) for it in self.each()) for side in ("low", "high"))
        return not_above(low * square), not_below(high * square)

    def centroid(self) -> numpy.ndarray | None:
        """Gives the centre of mass of the inside, float64 of 3; None where the volume is 0 or a part is not closed."""
        each, grid = self.each(), self.surface.grid
        if not all(it.closed for it in each):
            return None
        volume = sum(it.six_volume for it in each)
        if volume == 0:
            return None
        moments = [sum(it.moment[axis] for it in each) for axis in range(3)]
        places = [Fraction(it, 4 * volume) + shift for it, shift in zip(moments, grid.shift.tolist())]
        return numpy.array([float(it * grid.exact_unit()) for it in places])

    def bounds(self) -> numpy.ndarray:
        """Gives the least and the greatest x, y, z: float64 of shape 2 x 3."""
        boxes = numpy.array([it.box for it in self.each()], dtype=numpy.int64)
        corners = numpy.array([boxes[:, 0].min(axis=0), boxes[:, 1].max(axis=0)])
        return self.surface.grid.back(corners + self.surface.grid.shift)

    def edges(self) -> tuple[int, int]:
        """Gives how many edges there are, and how many of them have more than two triangles."""
        return sum(it.edges for it in self.each()), sum(it.many for it in self.each())

    def closed(self) -> bool:
        """Whether each of the parts is closed."""
        return all(it.closed for it in self.each())

    def crossings(self) -> numpy.ndarray:
        """Gives for each triangle how many of its part it crosses: int64."""
        sizes, found = self.surface.sizes, self.surface.crossings.counts
        first, end = sum(sizes[: self.parts.start]), sum(sizes[: self.parts.stop])
        return numpy.array([found.get(it, 0) for it in range(first, end)], dtype=numpy.int64)

    def crossing_pairs(self) -> int:
        """Gives how many pairs of triangles of one part cross."""
        return sum(self.surface.crossings.pairs[it] for it in self.parts)
