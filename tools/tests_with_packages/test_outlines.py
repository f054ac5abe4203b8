"""Volumes made here, through `outlines`, `fku reconstruct` and `convert`."""
import math
import os
import tempfile
import unittest
from decimal import Decimal
from fractions import Fraction

from fku import byu, mesh_files
from tests.common import fku, is_closed, tool, volume
from tests_with_packages.makers import needs, write_nrrd

try:
    import numpy
except ImportError:
    numpy = None

HALF = 20  # voxels from the middle of a volume to its border


def places():
    """Gives z, y and x of each voxel, from the middle of the volume."""
    reach = numpy.arange(-HALF, HALF + 1, dtype=float)
    return numpy.meshgrid(reach, reach, reach, indexing="ij")


def ball(radius):
    """Gives how far each voxel lies inside a ball."""
    z, y, x = places()
    return radius - numpy.sqrt(x * x + y * y + z * z)


def torus(radius, thickness):
    """Gives how far each voxel lies inside a torus round the axis z."""
    z, y, x = places()
    return thickness - numpy.sqrt((numpy.sqrt(x * x + y * y) - radius) ** 2 + z * z)


def letter_y():
    """Gives how far each voxel lies inside a Y: a stem, and two arms that part above it."""
    z, y, x = places()
    arm = 5 - numpy.sqrt((numpy.abs(x) - numpy.maximum(z, 0)) ** 2 + y * y)
    return numpy.minimum(arm, 12.5 - numpy.abs(z))


def balls_volume(radius):
    """Gives the volume of a ball."""
    return 4 / 3 * math.pi * radius**3


def balls_area(radius):
    """Gives the area of a ball."""
    return 4 * math.pi * radius**2


@needs("numpy")
class Shapes(unittest.TestCase):
    """Closed surfaces with the volumes of geometry."""

    def setUp(self):
        self.folder = tempfile.TemporaryDirectory()
        self.addCleanup(self.folder.cleanup)

    def written(self, values, *words, spacing=(1, 1, 1)):
        """Gives the text of the surface of a volume, and what `outlines` told; all tools must end with status 0."""
        path = f"{self.folder.name}/volume.nrrd"
        write_nrrd(path, numpy.asarray(values), spacing)
        status, text, told = tool("outlines", [path, *words])
        self.assertEqual(status, 0, told)
        status, written = fku(["reconstruct"], text)
        self.assertEqual(status, 0, written[:100])
        self.assertTrue(is_closed(written))
        self.assertEqual(tool("convert", ["--to=ply", "-", "-"], written)[0], 0)
        return written, told

    def surface(self, values, *words):
        """Gives the surface of a volume, and what `outlines` told."""
        written, told = self.written(values, *words)
        return byu.parse(written), told

    def measured(self, values, *words, spacing=(1, 1, 1), unit=0.01):
        """Gives the volume inside the STL file of a volume's surface, in the volume's own unit."""
        written, _ = self.written(values, *words, f"--unit={unit}", spacing=spacing)
        status, data, told = tool("convert", ["--to=stl", f"--factor={unit}", "-", "-"], written)
        self.assertEqual((status, len(data)), (0, 84 + 50 * len(byu.parse(written).triangles())), told)
        found = numpy.frombuffer(data[84:], dtype=[("normal", "<f4", 3), ("corners", "<f4", (3, 3)), ("end", "<u2")])
        return float(numpy.linalg.det(found["corners"].astype(float)).sum() / 6)

    def near(self, found, known, area, spacing=1):
        """Sees that a volume is the known one, but for a fifth of the spacing all over its surface."""
        self.assertLess(abs(found - known), 0.2 * area * spacing, f"{found} is not {known}")

    def test_objects(self):
        z, y, x = places()
        numbers = numpy.where(ball(15.5) > 0, numpy.where(x < 0, 3, numpy.where(z < 0, 4, 5)), 0)
        words = ["--object=west=3", "--object=east=4,5", "--object=all_of_it=3,4,5"]
        written, told = self.written(numbers, "--unit=0.01", *words)
        mesh = byu.parse(written)
        self.assertEqual([it for it in told.splitlines() if " slices" in it], [
            f"outlines: {name}: 31 slices, 31 outlines, {points} points"
            for name, points in zip(("west", "east", "all_of_it"), (len(mesh.part(it).points) for it in (1, 2, 3)))
        ])  # fmt: skip
        west, east, both = (volume(mesh.points, part) / 10**6 for part in mesh.parts)
        known, area = balls_volume(15.5), balls_area(15.5)
        self.near(both, known, area)
        # The plane of x = 0 is of the eastern half, whose outlines reach half a voxel beyond it.
        self.near(west, known / 2 - math.pi * 15.5**2 / 2, area)
        self.near(east, known / 2 + math.pi * 15.5**2 / 2, area)

    def test_an_object_and_a_label(self):
        values = (ball(9.5) > 0).astype("u1")
        path = f"{self.folder.name}/volume.nrrd"
        write_nrrd(path, values, (1, 1, 1))
        (_, named, _), (_, plain, _) = (tool("outlines", [path, word]) for word in ("--object=a_1=1", "--label=1"))
        named, plain = (text.partition(b"SECTIONS ")[2] for text in (named, plain))
        self.assertEqual(named, plain.replace(b"overlap\n", b"overlap\nOBJECT a_1\n").replace(b"1", b"2", 1))

    def test_a_ball(self):
        known, area = balls_volume(15.5), balls_area(15.5)
        self.near(self.measured(ball(15.5), "--level=0"), known, area)
        self.near(self.measured(ball(15.5) > 0, "--label=1"), known, area)
        self.near(self.measured(ball(15.5), "--level=0", "--every=3"), known, area, 3)
        found = self.measured(ball(15.5), "--level=0", spacing=(0.5, 0.5, 2))
        self.near(2 * found, known, area)

    def test_a_ball_with_a_hole(self):
        known, area = balls_volume(16.5) - balls_volume(8.5), balls_area(16.5) + balls_area(8.5)
        hollow = numpy.minimum(ball(16.5), -ball(8.5))
        self.near(self.measured(hollow, "--level=0"), known, area)
        self.near(self.measured(hollow > 0, "--label=1", "--smooth=0.8"), known, area)

    def test_a_torus_each_way(self):
        known, area = 2 * math.pi**2 * 11 * 5.5**2, 4 * math.pi**2 * 11 * 5.5
        for axis in "xyz":
            self.near(self.measured(torus(11, 5.5), "--level=0", f"--axis={axis}"), known, area)

    def test_a_letter_y_each_way(self):
        # Two discs of radius r that part at equal speed share 4 r^3 / 3 till they are apart.
        known = 3 * math.pi * 5**2 * 12.5 - 4 / 3 * 5**3
        area = 2 * math.pi * 5 * 12.5 * 3
        for axis in "xyz":
            self.near(self.measured(letter_y(), "--level=0", f"--axis={axis}"), known, area)

    def test_a_printed_ball(self):
        mesh, _ = self.surface(ball(9.5), "--level=0")
        text = mesh_files.ply(mesh, Decimal("0.01")).decode().split("\n")
        first = text.index("end_header") + 1
        points = [tuple(map(Fraction, it.split())) for it in text[first : first + len(mesh.points)]]
        found = volume(points, mesh.triangles())
        self.assertEqual(found * 10**6, volume(mesh.points, mesh.triangles()))
        self.near(float(found), balls_volume(9.5), balls_area(9.5))

    def test_unit_and_spacing_that_do_not_fit(self):
        found = self.measured(ball(15.5), "--level=0", spacing=(0.9570312, 0.9570312, 1.5), unit=0.1)
        self.near(found / 0.9570312**2 / 1.5, balls_volume(15.5), balls_area(15.5))

    def test_touching_corners(self):
        values = numpy.zeros((3, 6, 6), dtype=int)
        values[:, 1:3, 1:3] = values[:, 3:5, 3:5] = 1
        mesh, told = self.surface(values, "--label=1")
        self.assertIn("3 slices, 6 outlines", told)
        self.assertEqual(volume(mesh.points, mesh.triangles()), 2 * 2 * 100 * (200 * 200 - 4 * 50 * 50 // 2))

    def test_the_border(self):
        mesh, _ = self.surface(numpy.ones((4, 5, 6), dtype=int), "--label=1")
        xs, ys, zs = (sorted(set(axis)) for axis in zip(*mesh.points))
        self.assertEqual((xs[0], xs[-1], ys[0], ys[-1], zs[0], zs[-1]), (-50, 550, -50, 450, 0, 300))
        self.assertEqual(volume(mesh.points, mesh.triangles()), 300 * (600 * 500 - 4 * 50 * 50 // 2))

    def test_one_voxel(self):
        values = numpy.zeros((5, 5, 5), dtype=int)
        values[2, 3, 1] = 1
        mesh, told = self.surface(values, "--label=1")
        self.assertIn("without volume", told)
        self.assertEqual(sorted(mesh.points), [(50, 300, 200), (100, 250, 200), (100, 350, 200), (150, 300, 200)])
        values[1:4, 3, 1] = 1
        mesh, _ = self.surface(values, "--label=1")
        self.assertEqual(volume(mesh.points, mesh.triangles()), 200 * 100 * 100 // 2)

    def test_a_slice_without_outlines(self):
        values = numpy.zeros((7, 4, 4), dtype=int)
        values[[1, 2, 4, 5], 1:3, 1:3] = 1
        mesh, told = self.surface(values, "--label=1")
        self.assertIn("5 slices, 4 outlines", told)
        self.assertEqual(volume(mesh.points, mesh.triangles()), 2 * 100 * (200 * 200 - 4 * 50 * 50 // 2))

    def test_noise(self):
        for seed in range(6):
            values = numpy.random.default_rng(seed).random((4, 14, 14))
            with self.subTest(seed=seed):
                self.surface(values, "--level=0.5")
                self.surface(values, "--level=0.6", "--tolerance=5", "--unit=0.3")
                self.surface(values > 0.4, "--label=1", "--unit=0.5")

    def test_places_without_a_number(self):
        values = ball(9.5)
        values[values < -1] = math.nan
        for words in (["--level=0"], ["--level=0", "--smooth=0.5"]):
            self.near(self.measured(values, *words), balls_volume(9.5), balls_area(9.5))
        half = numpy.where(places()[2] < 0, ball(9.5), math.nan)
        self.near(self.measured(half, "--level=0"), balls_volume(9.5) / 2, balls_area(9.5))

    def test_cost_rules(self):
        for word, line in [("span", b"COST span\n"), ("area", b"COST area\n"), ("mix,20,1", b"COST mix 20 1\n")]:
            path = f"{self.folder.name}/volume.nrrd"
            write_nrrd(path, numpy.ones((2, 3, 3), dtype="u1"), (1, 1, 1))
            status, text, told = tool("outlines", [path, "--label=1", f"--cost={word}"])
            self.assertEqual((status, text.count(line)), (0, 1), told)
            self.assertEqual(fku(["reconstruct"], text)[0], 0)

    def test_what_is_left_out(self):
        values = numpy.zeros((2, 30, 30), dtype=int)
        values[:, 3:9, 3:9] = values[:, 20:22, 20:22] = 1
        _, told = self.surface(values, "--label=1", "--smallest=9")
        self.assertIn("2 slices, 2 outlines", told)
        self.assertIn("left out: 2 small outlines, together of area 7,", told)


@needs("numpy")
class Troubles(unittest.TestCase):
    """Volumes and words that cannot be used, each with its status and its reason."""

    def test_volumes_that_do_not_fit(self):
        values = numpy.random.default_rng(1).random((4, 160, 160))
        few = values[:, :12, :12]
        rows = [
            (["--label=7"], 1, "has the label 7"),
            (["--level=2"], 1, "has a value of 2 or more"),
            (["--level=0.5", "--smallest=1e9"], 1, "no outline is left"),
            (["--object=a=7"], 1, "has the label 7"),
            (["--object=a=1", "--object=a=2"], 2, "two objects have the name a"),
            (["--object=a=1", "--level=0"], 2, "not allowed with"),
            (["--object=a"], 2, "as left=71"),
            (["--object=a+b=1"], 2, "as left=71"),
            (["--object=a=x"], 2, "is not a number"),
            (["--level=0.5", "--unit=0.6"], 1, "smaller --unit"),
            (["--level=0.5", "--unit=0.00001"], 1, "give --centre"),
            (["--level=0.5", "--tolerance=0"], 1, "the limit is 16384: raise --tolerance"),
            ([], 2, "--label"),
            (["--level=0.5", "--every=0"], 2, "above 0"),
            (["--level=0.5", "--last=x"], 2, "an integer of 0 or more"),
            (["--level=nan"], 2, "is not a number"),
            (["--label=1,,2"], 2, "is not a number"),
            (["--level=0.5", "--smooth=-1"], 2, "of 0 or more is required"),
            (["--level=0.5", "--spacing=1,2"], 2, "three numbers"),
            (["--level=0.5", "--spacing=1,0,2"], 2, "above 0"),
            (["--level=0.5", "--cost=cheap"], 2, "give span, area"),
            (["--level=0.5", "--cost=area,1"], 2, "give span, area"),
            (["--level=0.5", "--cost=mix,0,0"], 2, "give span, area"),
            (["--level=0.5", "--cost=mix,1001,0"], 2, "give span, area"),
            (["--level=0.5", "--out=/no such folder/x"], 4, "No such file"),
        ]
        with tempfile.TemporaryDirectory() as folder:
            write_nrrd(f"{folder}/noise.nrrd", values, (1, 1, 1))
            write_nrrd(f"{folder}/few.nrrd", few, (1, 1, 1))
            for words, want, part in rows:
                with self.subTest(words=words):
                    name = "noise" if "--tolerance=0" in words else "few"
                    status, out, told = tool("outlines", [f"{folder}/{name}.nrrd", *words])
                    self.assertEqual((status, out), (want, b""))
                    self.assertIn(part, told)

    def test_an_object_that_is_left_without_outlines(self):
        values = numpy.zeros((4, 9, 9), dtype=int)
        values[:2, 2:7, 2:7], values[2:, 2:7, 2:7] = 1, 2
        with tempfile.TemporaryDirectory() as folder:
            write_nrrd(f"{folder}/low.nrrd", values, (1, 1, 1))
            words = ["--object=low=1", "--object=high=2", "--last=1"]
            self.assertEqual(
                tool("outlines", [f"{folder}/low.nrrd", *words]),
                (1, b"", "outlines: high: no outline is left: see --first, --last, --every and --smallest\n"),
            )

    def test_a_composite_that_is_too_large(self):
        values = numpy.zeros((2, 100, 100), dtype=int)
        values[0], values[1, ::4, ::4] = 1, 1
        with tempfile.TemporaryDirectory() as folder:
            write_nrrd(f"{folder}/comb.nrrd", values, (1, 1, 1))
            status, _, told = tool("outlines", [f"{folder}/comb.nrrd", "--label=1", "--tolerance=0"])
            self.assertEqual(status, 1)
            self.assertIn("that belong together", told)
            self.assertFalse(os.path.exists(f"{folder}/out"))
