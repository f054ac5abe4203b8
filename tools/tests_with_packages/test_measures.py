"""What a mesh of the package measures, and where it crosses itself: areas and places that are known by hand."""
import collections
import copy
import math
import os
import pickle
import tempfile
import unittest
from dataclasses import replace
from fractions import Fraction
from unittest import mock

import fku
from fku.faults import FkuError
from tests_with_packages.makers import needs
from tests_with_packages.test_calls import SQUARE, example, square

try:
    import numpy

    from fku import instruments
    from fku.stacks import Grid
except ImportError:
    numpy = None

PLACE = (70000.25, -3, 812.5)  # outside of the program's range in units of 0.01


def box(x, y, z, wide, high):
    """Gives the outlines of a box with two square faces."""
    return {z: [square(x, y, wide)], z + high: [square(x, y, wide)]}


@needs("numpy")
class Measures(unittest.TestCase):
    """Areas, centres of mass and boxes."""

    def test_a_box(self):
        mesh = fku.reconstruct(box(*PLACE, 10, 10), unit=0.01)
        self.assertEqual(mesh.area, fku.Area(600, 600))
        self.assertEqual((mesh.centroid.dtype, mesh.centroid.tolist()), (numpy.float64, [70005.25, 2, 817.5]))
        self.assertEqual(mesh.bounds.tolist(), [list(PLACE), [70010.25, 7, 822.5]])
        (part,) = mesh.parts
        self.assertEqual((part.edges, part.many, part.closed), (18, 0, True))
        self.assertEqual((part.area, part.centroid.tolist()), (mesh.area, mesh.centroid.tolist()))
        self.assertEqual(part.bounds.tolist(), mesh.bounds.tolist())

    def test_units(self):
        for unit, wide in [(1, 10), (0.5, 1.5), (2.5, 5), (1 / 3, 2)]:
            with self.subTest(unit=unit):
                mesh = fku.reconstruct(box(0, 0, 0, wide, wide), unit=unit)
                self.assertEqual((mesh.area, mesh.centroid.tolist()), ((6 * wide**2,) * 2, [wide / 2] * 3))

    def test_an_area_that_is_no_fraction(self):
        # Two sides are slanted, 10 wide and as high as the root of 2; so their four triangles are rounded.
        leaning = {0: [square(5, 5, 10)], 1: [square(6, 5, 10)]}
        for unit in (1, 0.01, 0.03125):
            with self.subTest(unit=unit):
                mesh = fku.reconstruct(leaning, unit=unit)
                low, high = mesh.area
                self.assertLess((low - 220) ** 2, 800)
                self.assertLess(800, (high - 220) ** 2)
                self.assertAlmostEqual(high - low, 4 * unit**2 / 2000, 9)
                self.assertEqual(mesh.centroid.tolist(), [10.5, 10, 0.5])

    def test_bounds_where_the_unit_is_no_binary_number(self):
        # The area is 600 squares of the floating-point number 0.03, and no floating-point number is just that.
        low, high = fku.reconstruct(box(0, 0, 0, 0.3, 0.3), unit=0.03).area
        self.assertTrue(low < 600 * Fraction(0.03) ** 2 < high)
        self.assertEqual(math.nextafter(low, 1), high)

    def test_parts(self):
        outlines = {"tall": box(0, 0, 0, 1, 3), "cube": box(4, 0, 0, 1, 1)}
        mesh = fku.reconstruct(outlines)
        self.assertEqual((mesh.area, mesh.centroid.tolist()), ((20, 20), [1.5, 0.5, 1.25]))
        self.assertEqual(mesh.bounds.tolist(), [[0, 0, 0], [5, 1, 3]])
        rows = [
            ("tall", 14, [0.5, 0.5, 1.5], [[0, 0, 0], [1, 1, 3]]), ("cube", 6, [4.5, 0.5, 0.5], [[4, 0, 0], [5, 1, 1]])
        ]  # fmt: skip
        for at, (name, area, centre, bounds) in enumerate(rows):
            for it in (mesh.parts[at], mesh.part(name), mesh.part(at), mesh.part(name).parts[0], mesh.part(at).part(0)):
                self.assertEqual((it.area, it.centroid.tolist()), ((area, area), centre))
                self.assertEqual((it.bounds.tolist(), it.crossing_pairs), (bounds, 0))

    def test_a_hole(self):
        # A box 20 wide without one 5 wide, both 10 high; the hole's caps lie in a lid, and ring caps leave it open.
        slices = {z: [square(0, 0, 20), square(5, 5, 5)] for z in (0, 10)}
        mesh = fku.reconstruct(slices)
        self.assertEqual(mesh.volume, 3750)
        centre = (4000 * 10 - 250 * 7.5) / 3750
        self.assertEqual(mesh.centroid.tolist(), [centre, centre, 5])
        self.assertEqual(mesh.area, (2 * 400 + 800 + 2 * 25 + 200,) * 2)
        printable = fku.reconstruct(slices, ring_caps=True)
        self.assertEqual((printable.area, printable.centroid.tolist()), ((2 * 375 + 800 + 200,) * 2, [centre, centre, 5]))

    def test_no_volume(self):
        mesh = fku.reconstruct({4: [SQUARE]})
        self.assertEqual((mesh.centroid, mesh.parts[0].centroid, mesh.area), (None, None, (200, 200)))
        self.assertEqual(mesh.bounds.tolist(), [[0, 0, 4], [10, 10, 4]])
        self.assertTrue(mesh.parts[0].closed)

    def test_lone_rings_that_are_dropped(self):
        slices = {**box(0, 0, 0, 10, 10), 5: [square(0, 0, 10), square(50, 50, 3)]}
        kept, dropped = (fku.reconstruct(slices, lone=it) for it in ("keep", "drop"))
        self.assertEqual((kept.area, dropped.area), ((618, 618), (600, 600)))
        self.assertEqual((kept.centroid.tolist(), dropped.centroid.tolist()), ([5, 5, 5], [5, 5, 5]))
        self.assertEqual(len(dropped.crossings), len(dropped.faces))

    def test_edges(self):
        slices, cost = example("brain")
        mesh = fku.reconstruct(slices, unit=1, cost=cost)
        count = collections.Counter()
        for a, b, c in mesh.faces.tolist():
            count.update({frozenset(it) for it in ((a, b), (b, c), (c, a))})
        (part,) = mesh.parts
        self.assertEqual((part.edges, part.many), (len(count), sum(it > 2 for it in count.values())))
        self.assertGreater(part.many, 0)
        self.assertTrue(part.closed)


@needs("numpy")
class Crossings(unittest.TestCase):
    """Faces that cross."""

    def test_none(self):
        mesh = fku.reconstruct(box(*PLACE, 10, 10))
        self.assertEqual((mesh.crossings.dtype, mesh.crossings.tolist()), (numpy.int64, [0] * 12))
        self.assertEqual((mesh.crossing_pairs, mesh.parts[0].crossing_pairs), (0, 0))

    def test_the_brain(self):
        slices, cost = example("brain")
        mesh = fku.reconstruct(slices, unit=1, cost=cost)
        self.assertEqual((mesh.crossing_pairs, mesh.crossings.sum(), len(mesh.crossings)), (292, 584, len(mesh.faces)))
        both = fku.reconstruct({"box": box(0, 0, 0, 10, 10), "brain": slices}, unit=1, cost=cost)
        self.assertEqual([it.crossing_pairs for it in (both, *both.parts)], [292, 0, 292])
        self.assertEqual(both.crossings.tolist(), [0] * 12 + mesh.crossings.tolist())
        self.assertEqual(both.part("box").crossings.tolist(), [0] * 12)
        self.assertEqual(both.part("brain").crossings.tolist(), mesh.crossings.tolist())


@needs("numpy")
class Answers(unittest.TestCase):
    """When the program runs, and what is raised."""

    def test_once_each(self):
        mesh = fku.reconstruct({"a": box(0, 0, 0, 1, 3), "b": box(4, 0, 0, 1, 1)})
        with mock.patch.object(instruments.at_fault, "started", wraps=instruments.at_fault.started) as started:
            for it in (mesh, *mesh.parts, mesh.part("b")):
                self.assertEqual(len([it.area, it.centroid, it.bounds, it.crossing_pairs]), 4)
        self.assertEqual([it.args[0] for it in started.call_args_list], [["measure"], ["crossings"]])

    def test_copies(self):
        mesh = fku.reconstruct(box(0, 0, 0, 10, 10))
        for it in (copy.deepcopy(mesh), pickle.loads(pickle.dumps(mesh)), replace(mesh, lone=[])):
            self.assertEqual((it.area, it.crossing_pairs), ((600, 600), 0))
        mesh.crossings[:] = 7
        mesh.bounds[:] = 7
        self.assertEqual((mesh.crossings.max(), mesh.bounds.max()), (0, 10))

    def caught(self, mesh, name="area"):
        """Gives the error of a measure."""
        with self.assertRaises(FkuError) as caught:
            getattr(mesh, name)
        return caught.exception

    def test_a_mesh_from_elsewhere(self):
        it = fku.reconstruct(box(0, 0, 0, 10, 10))
        mesh = fku.Mesh(it.vertices, it.faces, [], it.volume, [])
        for name in ("area", "centroid", "bounds", "crossings", "crossing_pairs"):
            self.assertEqual(self.caught(mesh, name).kind, "INPUT")

    def test_a_refusal(self):
        measured = instruments.Measured(instruments.Surface(b"", Grid(1), [12]), range(1))
        for name in ("area", "crossings"):
            it = self.caught(fku.Mesh(None, None, [], 0, [], {}, measured), name)
            self.assertEqual((it.kind, it.number, it.refusal), ("BYU FORM", 27, "REFUSED 27 BYU FORM line 1"))

    def test_a_program_that_answers_otherwise(self):
        rows = [("exit 2", "INPUT"), ("exit 5", "ENDED"), ("echo PARTS 1", "ENDED"), ("echo PARTS 0", "ENDED")]
        mesh = fku.reconstruct(box(0, 0, 0, 10, 10))
        with tempfile.TemporaryDirectory() as folder:
            path = f"{folder}/fku"
            for words, kind in rows:
                with open(path, "w", encoding="ascii") as script:
                    script.write(f"#!/bin/sh\ncat > {folder}/text\n{words}\n")
                os.chmod(path, 0o755)
                with self.subTest(words=words), mock.patch.dict(os.environ, FKU=path):
                    self.assertEqual([self.caught(mesh, it).kind for it in ("area", "crossings")], [kind, kind])
            with mock.patch.dict(os.environ, FKU=f"{folder}/none"):
                self.assertEqual(self.caught(mesh).kind, "NO PROGRAM")
        self.assertEqual(mesh.area, (600, 600))
