"""Where outlines and surfaces lie in the space of their volume: rotated, mirrored and sheared axes; anatomical
directions; regions that are exported apart; and half slices at the ends.
"""
import os
import tempfile
import unittest

from fku import byu, lone, section_text, space
from tests.common import fku, is_closed, tool, unpaired, volume
from tests_with_packages.makers import needs, write_nrrd

try:
    import numpy
except ImportError:
    numpy = None

UNIT = 0.001


def rotation(axis, angle):
    """Gives the 4 x 4 matrix that turns about an axis by an angle in radians."""
    x, y, z = numpy.array(axis) / numpy.linalg.norm(axis)
    across = numpy.array([[0, -z, y], [z, 0, -x], [-y, x, 0]])
    whole = numpy.eye(4)
    whole[:3, :3] = numpy.eye(3) + numpy.sin(angle) * across + (1 - numpy.cos(angle)) * across @ across
    return whole


def affines():
    """Gives affines from voxels to the scanner's space, by what is unusual in them."""
    plain = numpy.diag([0.5, 0.75, 2.0, 1.0])
    plain[:3, 3] = 10, -20, 30
    turned, mirror, tilt, skew = rotation([1, 2, 3], 0.7), numpy.diag([-1.0, 1, 1, 1]), numpy.eye(4), numpy.eye(4)
    tilt[1, 2], skew[0, 1], skew[0, 2], skew[1, 2] = 0.4, 0.3, 0.5, -0.2
    return {
        "plain": plain, "turned": turned @ plain, "mirrored": turned @ plain @ mirror, "tilted": turned @ plain @ tilt,
        "skewed": turned @ skew @ plain,
    }  # fmt: skip


def ply_points(data):
    """Gives the points and triangles of a PLY text, as arrays."""
    head, _, body = data.decode().partition("end_header\n")
    counts = [int(line.split()[2]) for line in head.splitlines() if line.startswith("element")]
    lines = body.splitlines()
    points = numpy.array([[float(it) for it in line.split()] for line in lines[: counts[0]]])
    return points, numpy.array([[int(it) for it in line.split()[1:4]] for line in lines[counts[0] :]])


def enclosed(points, triangles):
    """Gives the volume inside a mesh, above 0 where its triangles face outward."""
    return float(numpy.linalg.det(points[triangles]).sum() / 6)


@needs("numpy", "nibabel")
class Places(unittest.TestCase):
    """Volumes of two voxels and of blocks, with all affines and along all axes."""

    def setUp(self):
        folder = tempfile.TemporaryDirectory()
        self.addCleanup(folder.cleanup)
        self.path = f"{folder.name}/a.nii"
        self.out = f"{folder.name}/outlines.txt"

    def write(self, values, affine):
        """Writes values[x, y, z] as NIfTI, and gives the affine that the file has."""
        import nibabel

        nibabel.save(nibabel.Nifti1Image(values.astype("u1"), affine), self.path)
        return nibabel.load(self.path).affine

    def outlines(self, *words):
        """Gives the text of the outlines."""
        status, text, told = tool("outlines", [self.path, f"--unit={UNIT}", *words])
        self.assertEqual(status, 0, told)
        with open(self.out, "wb") as file:
            file.write(text)
        return text

    def voxels(self, text, affine):
        """Gives where the points of outlines are in voxels."""
        there = space.read(text)
        (only,) = section_text.read(text, "x")
        places = [there.place((x, y, it.height)) for it in only.sections for _, ring in it.contours for x, y in ring]
        return numpy.array([[*it, 1] for it in places]) @ numpy.linalg.inv(affine).T

    def test_points_lie_where_nibabel_says(self):
        marked = [(2, 3, 2), (6, 5, 4)]
        values = numpy.zeros((9, 8, 7))
        for it in marked:
            values[it] = 1
        halves = [numpy.eye(3)[k] * sign for k in range(3) for sign in (0.5, -0.5)]
        for name, affine in affines().items():
            affine = self.write(values, affine)
            for words in (["--axis=x"], ["--axis=y", "--centre"], ["--axis=z"], ["--axis=coronal"]):
                with self.subTest(affine=name, words=words):
                    text = self.outlines("--label=1", "--tolerance=0", *words)
                    found = self.voxels(text, affine)[:, :3]
                    self.assertEqual(len(found), 8)
                    for point in found:
                        near = min(abs(point - (numpy.array(it) + half)).max() for it in marked for half in halves)
                        self.assertLess(near, 0.004)
                    rows = numpy.array(space.read(text).affine).reshape(3, 4)[:, :3] / UNIT
                    self.assertLess(abs(rows.T @ rows - numpy.eye(3)).max(), 1e-9)
                    self.assertGreater(numpy.linalg.det(rows), 0)

    def test_a_block_has_its_volume_in_space(self):
        values = numpy.zeros((20, 20, 12))
        values[3:17, 4:15, 2:10] = 1
        for name, affine in affines().items():
            affine = self.write(values, affine)
            for words in (["--axis=z"], ["--axis=x"]):
                with self.subTest(affine=name, words=words):
                    text = self.outlines("--label=1", "--half-slices", *words)
                    status, surface = fku(["reconstruct"], text)
                    self.assertEqual(status, 0, surface[:100])
                    status, data, told = tool("convert", ["--like", self.out, "--to=ply", "-", "-"], surface)
                    self.assertEqual(status, 0, told)
                    points, triangles = ply_points(data)
                    wanted = values.sum() * abs(numpy.linalg.det(affine[:3, :3]))
                    self.assertAlmostEqual(enclosed(points, triangles) / wanted, 1, delta=0.01)
                    mesh = byu.parse(surface)
                    of_text = float(volume(mesh.points, mesh.triangles())) * UNIT**3
                    self.assertAlmostEqual(of_text / wanted, 1, delta=0.01)
                    back = numpy.c_[points, numpy.ones(len(points))] @ numpy.linalg.inv(affine).T
                    for k, (low, high) in enumerate([(2.5, 16.5), (3.5, 14.5), (1.5, 9.5)]):
                        self.assertAlmostEqual(back[:, k].min(), low, delta=0.01)
                        self.assertAlmostEqual(back[:, k].max(), high, delta=0.01)

    def test_both_worlds(self):
        values = numpy.zeros((9, 9, 9))
        values[2:7, 2:6, 2:5] = 1
        self.write(values, affines()["mirrored"])
        surface = fku(["reconstruct"], self.outlines("--label=1"))[1]
        found = {}
        for world in ("RAS", "LPS"):
            words = ["--like", self.out, f"--world={world}", "--to=ply", "-", "-"]
            status, data, told = tool("convert", words, surface)
            self.assertEqual(status, 0, told)
            found[world], triangles = ply_points(data)
            self.assertGreater(enclosed(found[world], triangles), 0)
        self.assertEqual((found["RAS"] * [-1, -1, 1]).tolist(), found["LPS"].tolist())

    def test_two_regions_overlay(self):
        values = numpy.zeros((16, 16, 12))
        values[2:8, 3:12, 2:9], values[8:14, 3:12, 2:9] = 1, 2
        affine = self.write(values, affines()["turned"])
        points = []
        for words in (["--label=1", "--axis=z"], ["--label=2", "--axis=x", "--centre", "--unit=0.002"]):
            surface = fku(["reconstruct"], self.outlines("--half-slices", "--tolerance=0", *words))[1]
            status, data, told = tool("convert", ["--like", self.out, "--to=ply", "-", "-"], surface)
            self.assertEqual(status, 0, told)
            there, _ = ply_points(data)
            points.append(numpy.c_[there, numpy.ones(len(there))] @ numpy.linalg.inv(affine).T)
        left, right = points
        self.assertAlmostEqual(left[:, 0].max(), right[:, 0].min(), delta=0.01)
        for k in (1, 2):
            for of in (numpy.min, numpy.max):
                self.assertAlmostEqual(of(left[:, k]), of(right[:, k]), delta=0.01)

    def test_anatomical_directions(self):
        values = numpy.zeros((9, 8, 7))
        values[2:6, 3:7, 1:5] = 1
        # x leads to the front, y up, and z to the left.
        swapped = numpy.array([[0, 0, -2.0, 40], [0.5, 0, 0, 3], [0, 0.75, 0, 5], [0, 0, 0, 1]])
        self.write(values, rotation([0, 0, 1], 0.2) @ swapped)
        texts = {axis: self.outlines("--label=1", f"--axis={axis}").partition(b"SECTIONS ")[2] for axis in
                 ("x", "y", "z", "coronal", "axial", "sagittal")}  # fmt: skip
        for name, axis in (("coronal", "x"), ("axial", "y"), ("sagittal", "z")):
            self.assertEqual(texts[name], texts[axis])

    def test_a_volume_that_knows_no_body(self):
        path = os.path.join(os.path.dirname(self.path), "a.nrrd")
        write_nrrd(path, numpy.ones((3, 3, 3), dtype="u1"), (1, 1, 1))
        status, _, told = tool("outlines", [path, "--label=1", "--axis=axial"])
        self.assertEqual(status, 1)
        self.assertIn("give --axis x, y or z, not axial", told)
        status, text, _ = tool("outlines", [path, "--label=1"])
        with open(self.out, "wb") as file:
            file.write(text)
        surface = fku(["reconstruct"], text)[1]
        status, _, told = tool("convert", ["--like", self.out, "--world=RAS", "--to=ply", "-", "-"], surface)
        self.assertEqual(status, 1)
        self.assertIn("the axes are not known", told)


@needs("numpy")
class Ends(unittest.TestCase):
    """Half slices at the ends, and outlines that are joined to nothing."""

    def setUp(self):
        folder = tempfile.TemporaryDirectory()
        self.addCleanup(folder.cleanup)
        self.path = f"{folder.name}/a.nrrd"

    def traced(self, values, *words, spacing=(1, 1, 2)):
        """Gives the text of the outlines of label 1, and what was told."""
        write_nrrd(self.path, values.astype("u1"), spacing)
        status, text, told = tool("outlines", [self.path, "--label=1", *words])
        self.assertEqual(status, 0, told)
        return text, told

    def test_volume_of_the_voxels(self):
        z, y, x = numpy.mgrid[0:14, 0:40, 0:40]
        shapes = {"ball": (x - 20) ** 2 + (y - 20) ** 2 + (2 * z - 13) ** 2 < 144, "block": (z > 2) & (x > 3) & (y > 5)}
        shapes["tube"] = shapes["block"] & ((x - 20) ** 2 + (y - 20) ** 2 > 49)
        for name, values in shapes.items():
            for words in ([], ["--axis=x"]):
                with self.subTest(shape=name, words=words):
                    text, _ = self.traced(values, "--half-slices", *words)
                    status, surface = fku(["reconstruct"], text)
                    self.assertEqual(status, 0)
                    self.assertTrue(is_closed(surface))
                    mesh = byu.parse(surface)
                    found = float(volume(mesh.points, mesh.triangles())) / 10**6
                    self.assertAlmostEqual(found / (2 * values.sum()), 1, delta=0.02)

    def test_a_single_slice(self):
        values = numpy.zeros((5, 9, 9))
        values[2, 2:7, 2:7] = 1
        text, told = self.traced(values, "--half-slices", "--tolerance=0")
        self.assertNotIn("without volume", told)
        self.assertNotIn("joined to nothing", told)
        (only,) = section_text.read(text, "x")
        self.assertEqual([it.height for it in only.sections], [300, 400, 500])
        self.assertEqual([it.contours[0][0] for it in only.sections], ["s2_0_low", "s2_0", "s2_0_high"])
        mesh = byu.parse(fku(["reconstruct"], text)[1])
        self.assertEqual(volume(mesh.points, mesh.triangles()), 200 * (500 * 500 - 4 * 50 * 50 // 2))

    def test_every_third_slice(self):
        text, _ = self.traced(numpy.ones((10, 4, 4)), "--half-slices", "--every=3")
        heights = [it.height for it in section_text.read(text, "x")[0].sections]
        self.assertEqual(heights, [-300, 0, 600, 1200, 1800, 2100])
        self.assertIn(b"# half a slice was put on at either end of each object\n", text)
        self.assertEqual(self.traced(numpy.ones((10, 4, 4)), "--half-ends", "--every=3")[0], text)

    def test_outlines_that_are_joined_to_nothing(self):
        values = numpy.zeros((5, 20, 30))
        values[:, 2:8, 2:8], values[2, 12:18, 12:18], values[4, 2:5, 20:24] = 1, 1, 1
        text, told = self.traced(values)
        self.assertIn("2 outlines are joined to nothing: s2_1, s4_1; --lone drop", told)
        (whole,) = section_text.read(text, "x")
        self.assertEqual(lone.find(whole.sections), [(2, 1), (4, 1)])
        less, told = self.traced(values, "--lone=drop")
        self.assertIn("s2_1, s4_1; 2 of them left out", told)
        (left,) = section_text.read(less, "x")
        self.assertEqual([len(it.contours) for it in left.sections], [1] * 5)
        status, surface = fku(["reconstruct"], text)
        self.assertEqual(status, 0)
        status, data, told = tool("convert", ["--drop-flat", "--manifold", "--to=ply", "-", "-"], surface)
        self.assertEqual((status, told.splitlines()[0][:35]), (0, "convert: left out 2 flat pieces of "))
        points, triangles = ply_points(data)
        mesh = byu.Mesh(points.tolist(), [triangles.tolist()])
        self.assertEqual(unpaired(mesh), [])
        self.assertEqual(len(points), len(byu.parse(fku(["reconstruct"], less)[1]).points))

    def test_nothing_but_lone_outlines(self):
        values = numpy.zeros((5, 20, 30))
        values[2, 12:18, 12:18] = 1
        write_nrrd(self.path, values.astype("u1"), (1, 1, 1))
        status, _, told = tool("outlines", [self.path, "--label=1", "--lone=drop"])
        self.assertEqual(status, 1)
        self.assertIn("no outline is left, since all are joined to nothing: see --half-slices", told)
