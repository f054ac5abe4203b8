"""DICOM structure sets are read as the standard says, and become closed surfaces in the patient's space."""
import math

from fku import importers, space
from fku.trouble import Trouble
from tests.common import tool, volume
from tests.outline_makers import circle
from tests.test_importers import SQUARE, WithFiles
from tests.dicom_makers import contour, structure_set
from tests_with_packages.makers import needs

BIG = [(0, 0), (40, 0), (40, 40), (0, 40)]


def flat(points, z):
    """Gives points with a height."""
    return [(x, y, z) for x, y in points]


@needs("pydicom")
class Reading(WithFiles):
    """What is read, and what is refused."""

    def test_names_and_outlines(self):
        data = structure_set([
            ("GTV primary (left)", [contour(flat(SQUARE, -12.5)), contour(flat(SQUARE, -10))]),
            ("Spinal Cord", [contour(flat(SQUARE, 2.5)), contour([(1, 2, 3)], "POINT")]), ("empty one", []),
            ("Lunge \u00fcber", [contour(flat(SQUARE, 0))]), ("Spinal Cord", [contour(flat(SQUARE, 5))]),
        ])  # fmt: skip
        traced = self.read("set.dcm", data)
        square = [(float(x), float(y)) for x, y in SQUARE]
        self.assertEqual(traced.objects, {
            "GTV primary (left)": {-12.5: [square], -10: [square]}, "Spinal Cord": {2.5: [square]},
            "Lunge \u00fcber": {0: [square]}, "Spinal Cord 5": {5: [square]},
        })  # fmt: skip
        self.assertEqual((traced.length, traced.world, traced.faults), ("mm", "LPS", {}))
        self.assertEqual(traced.notes, ["outline 2 of Spinal Cord (POINT, 1 points) encloses nothing, and was left out",
                                        "empty one has no outlines"])  # fmt: skip

    def test_planes_that_are_not_axial(self):
        for turn, part in (
            (lambda x, y: (5, x, y), "lies in a sagittal plane"), (lambda x, y: (x, 5, y), "lies in a coronal plane"),
            (lambda x, y: (x, y, x / 2), "a plane that is not axial: its z goes from 5 to 7 mm"),
        ):  # fmt: skip
            data = structure_set([("a", [contour([turn(x, y) for x, y in SQUARE])]), ("b", [contour(flat(SQUARE, 1))])])
            traced = self.read("set.dcm", data)
            self.assertIn(part, traced.faults["a"][0])
            status, _, told = tool("contours", [self.path("set.dcm", data)])
            self.assertEqual((status, part in told, "--object" in told), (1, True, True))
            self.assertEqual(tool("contours", ["--object", "b", self.path("set.dcm", data)])[0], 0)

    def test_without_the_mark_at_its_front(self):
        data = structure_set([("a", [contour(flat(SQUARE, 1))])])
        traced = self.read("set.dcm", data[132 + 12 + 8 + len("1.2.840.10008.1.2.1") + 1 :])
        self.assertEqual(list(traced.objects), ["a"])

    def test_open_outlines(self):
        data = structure_set([("wire", [contour(flat(SQUARE, 1), "OPEN_PLANAR")])])
        self.assertIn("outline 1 of wire is an open line: --close", self.read("set.dcm", data).faults["wire"][0])
        self.assertEqual(len(self.read("set.dcm", data, close=True).objects["wire"][1]), 1)

    def test_refusals(self):
        good = structure_set([("a", [contour(flat(SQUARE, 1))])])
        self.refused("set.dcm", b"", "is empty")
        self.refused("set.dcm", b"no DICOM file", "not a complete DICOM file")
        self.refused("set.dcm", structure_set([("a", [])]), "no closed outline")
        self.refused("set.dcm", structure_set([]), "this structure set has no outlines")
        self.refused("set.dcm", structure_set([("a", [])], "CT"), "of kind CT, not a structure set")
        self.assertIn("outline 1 of a is damaged: it has 12 numbers, and says 5 points", self.read(
            "set.dcm", structure_set([("a", [contour(flat(SQUARE, 1), count=5)])])).faults["a"][0])  # fmt: skip
        self.refused("set.dcm", good, "--pixel cannot be used with a DICOM structure set", pixel=2)
        for size in range(0, len(good), 7):
            try:
                traced = self.read("set.dcm", good[:size])
            except Trouble:
                continue
            self.assertTrue(traced.faults, size)


@needs("pydicom", "shapely")
class Surfaces(WithFiles):
    """From a structure set to a closed surface of the right volume, in the right place."""

    def see(self, outlines, want, near=0.005, *words):
        """Makes the surface of a structure with these outlines, and looks at its volume."""
        path = self.path("set.dcm", structure_set([("PTV 60 Gy", outlines)]))
        text, mesh, told = self.surface(["--unit", "0.01", *words, path])
        place = space.read(text)
        self.assertEqual((place.world, place.length), ("LPS", "mm"))
        self.assertIn(b"# name: PTV_60_Gy PTV 60 Gy\n", text)
        points = [place.place(it) for it in mesh.points]
        self.assertAlmostEqual(abs(volume(points, mesh.triangles())) / want, 1, delta=near)
        return points, told

    def test_cone(self):
        # Radius 20 to 10 over 30 mm, in steps of 3 mm, far from the origin.
        outlines = [contour(flat(circle(20 - at, 72, -150, 220), -500 + 3 * at)) for at in range(11)]
        points, _ = self.see(outlines, math.pi * 30 / 3 * (400 + 200 + 100))
        self.assertAlmostEqual(min(x for x, _, _ in points), -170, delta=0.02)
        self.assertAlmostEqual(max(z for _, _, z in points), -470, delta=0.02)

    def test_hole_as_a_keyhole(self):
        # One outline goes round, and by a narrow way, forth and back, round the hole.
        ring, hole = circle(20, 72, 50, 60), circle(8, 40, 50, 60, -1)
        outlines = [contour(flat([*ring, ring[0], *hole, hole[0]], 2.0 * at)) for at in range(6)]
        _, told = self.see(outlines, math.pi * (400 - 64) * 10)
        self.assertIn("ran along themselves, as keyholes do, and became several of the same area: 6", told)

    def test_hole_by_exclusive_or(self):
        kinds = "CLOSEDPLANAR_XOR"
        outlines = [
            contour(flat(ring, 2.0 * at), kinds) for at in range(6) for ring in (circle(20, 72), circle(8, 40))
        ]
        self.see(outlines, math.pi * (400 - 64) * 10)

    def test_exclusive_or_of_two_that_overlap(self):
        left, right = [[(x + shift, y) for x, y in BIG] for shift in (0, 20)]
        outlines = [contour(flat(it, at), "CLOSEDPLANAR_XOR") for at in (0, 5) for it in (left, right)]
        self.see(outlines, 2 * 20 * 40 * 5)

    def test_half_slices(self):
        outlines = [contour(flat(BIG, 3 * at)) for at in range(4)]
        self.see(outlines, 1600 * 12, 1e-9, "--half-ends")
        self.see(outlines[:1], 1600 * 2, 1e-9, "--half-ends", "--spacing", "2")
