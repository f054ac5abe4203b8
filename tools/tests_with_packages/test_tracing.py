"""Tracing by arrays and blurring slice by slice give what plain programs give, also by several processes."""
import math
import tempfile
import unittest

from tests.common import tool
from tests_with_packages.makers import needs, write_nrrd

try:
    import numpy

    from fku import regions, tracing
except ImportError:
    numpy = None


def plain_cut(a, b, level, low, high):
    """Gives the whole place strictly between two others where values from a to b pass a level; the middle beside none."""
    rise = b - a
    part = (level - a) / rise if math.isfinite(rise) else 0.5
    return min(max(low + math.floor((high - low) * part + 0.5), low + 1), high - 1)


def plain_links(inside):
    """Gives for each edge (along y, y, x) that an outline passes the next one, cell by cell."""
    after = {}
    for y in range(inside.shape[0] - 1):
        for x in range(inside.shape[1] - 1):
            corners = (inside[y, x], inside[y, x + 1], inside[y + 1, x + 1], inside[y + 1, x])
            edges = ((0, y, x), (1, y, x + 1), (0, y + 1, x), (1, y, x))
            for a, b in tracing.SEGMENTS.get(sum(2**at for at in range(4) if corners[at]), ()):
                after[edges[a]] = edges[b]
    return after


def plain_outlines(values, level, xs, ys):
    """Gives the outlines of a slice, point by point."""
    values = numpy.pad(values.astype(float), 1, constant_values=numpy.nan)
    after, rings = plain_links(values >= level), []
    while after:
        at, ring = next(iter(after)), []
        while at in after:
            along_y, y, x = at
            a, b = float(values[y, x]), float(values[y + along_y, x + 1 - along_y])
            crossing = plain_cut(a, b, level, *((ys[y], ys[y + 1]) if along_y else (xs[x], xs[x + 1])))
            ring.append((xs[x], crossing) if along_y else (crossing, ys[y]))
            at = after.pop(at)
        rings.append(ring)
    return rings


def plain_blur(values, size):
    """Gives a whole volume blurred by a Gaussian along one axis after another."""
    reach = max(1, math.ceil(3 * size))
    weights = numpy.exp(-0.5 * (numpy.arange(-reach, reach + 1) / size) ** 2)
    weights /= weights.sum()
    values = values.astype(float)
    known = numpy.isfinite(values)
    values[~known] = values[known].min()
    for axis in range(3):
        padded = numpy.pad(values, [(reach, reach) if it == axis else (0, 0) for it in range(3)], mode="edge")
        values = numpy.zeros_like(values)
        for at, weight in enumerate(weights):
            part = [slice(None)] * 3
            part[axis] = slice(at, at + values.shape[axis])
            values += weight * padded[tuple(part)]
    return values


@needs("numpy")
class Tracing(unittest.TestCase):
    """The same rings, with the same first points, and the same numbers."""

    def test_outlines(self):
        for seed in range(12):
            values = numpy.random.default_rng(seed).random((17, 23))
            values[seed % 5 :: 7, ::6] = math.nan
            if seed % 2:
                values = numpy.round(values)
            xs, ys = tracing.places(23, 2.7 + seed), tracing.places(17, 2 + seed / 3)
            for level in (0.2, 0.5, 1):
                with self.subTest(seed=seed, level=level):
                    found = tracing.outlines(values, level, xs, ys)
                    self.assertEqual(found, plain_outlines(values, level, xs, ys))

    def test_nothing_inside(self):
        self.assertEqual(tracing.outlines(numpy.zeros((4, 5)), 1, tracing.places(5, 2), tracing.places(4, 2)), [])

    def test_blur(self):
        values = numpy.random.default_rng(3).random((6, 9, 11)).astype("f4")
        values[2, 3, 4] = math.nan
        for kind in (values, values > 0.5):
            for size in (0.3, 0.8, 2):
                field = regions.Field(kind, 0.5, [0, 0, 0], size)
                blurred = numpy.stack([field.slice_of(it) for it in range(6)])
                self.assertEqual(blurred.tolist(), plain_blur(kind, size).tolist())

    def test_several_processes(self):
        values = (numpy.random.default_rng(4).random((30, 25, 25)) > 0.6).astype("u1")
        with tempfile.TemporaryDirectory() as folder:
            write_nrrd(f"{folder}/a.nrrd", values, (1, 1, 1))
            words = [f"{folder}/a.nrrd", "--object=a=1", "--object=b=0", "--unit=0.1", "--smooth=0.8"]
            one, several = (tool("outlines", [*words, f"--jobs={jobs}"]) for jobs in (1, 3))
            self.assertEqual(one[0], 0, one[2])
            self.assertEqual(one, several)
