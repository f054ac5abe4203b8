"""Caps round holes of real files: closed, with the points and the volume of one cap for each outline."""
import unittest
from fractions import Fraction

from fku import byu
from tests import made_inputs as made
from tests.common import file, fku, is_closed, volume


class Examples(unittest.TestCase):
    """Contours that join and part; height lines, where outlines end with their holes."""

    def test_closed_with_the_volume_of_the_report(self):
        for name, ends_with_a_hole in [("labels", False), ("hill", True)]:
            text = file(f"examples/{name}.txt")
            status, ringed = fku(["ringcaps", "--workers=4"], text)
            self.assertEqual(status, 0)
            self.assertTrue(is_closed(ringed))
            plain = fku(["reconstruct"], text)[1]
            self.assertEqual(ringed != plain, ends_with_a_hole)
            mesh = byu.parse(ringed)
            self.assertEqual(mesh.points, byu.parse(plain).points)
            report = dict(line.split() for line in fku(["report"], text)[1].decode().splitlines())
            self.assertEqual(volume(mesh.points, mesh.triangles()), Fraction(int(report["SIXVOLUME"]), 6))


def square(name, low, high):
    """Gives the lines of a square between two places on both axes."""
    return made.contour(name, [(low, low), (high, low), (high, high), (low, high)])


class Groups(unittest.TestCase):
    """Small groups: closed, with as many triangles as a hand counts, and with the volume of `reconstruct`.

    A group of two squares has 8 triangles on each side, a single square 2, and a strip between two squares 8.
    """

    def has_triangles(self, text, count):
        """Compares both surfaces of a text."""
        status, ringed = fku(["ringcaps"], text)
        self.assertEqual(status, 0, ringed[:100])
        self.assertTrue(is_closed(ringed))
        mesh, plain = byu.parse(ringed), byu.parse(fku(["reconstruct"], text)[1])
        self.assertEqual(len(mesh.triangles()), count)
        self.assertEqual(volume(mesh.points, mesh.triangles()), volume(plain.points, plain.triangles()))

    def test_one_section(self):
        islands = (made.contour("i", [(20, 20), (40, 20), (40, 70), (20, 70)]),
                   made.contour("j", [(50, 20), (70, 20), (70, 70), (50, 70)]))  # fmt: skip
        nested = [square("a", 0, 70), square("b", 10, 60), square("c", 20, 50)]
        for contours, count in (
            ([square("o", 0, 30), square("h", 10, 20)], 16),
            (nested, 20),
            (nested[::-1], 20),
            ([square("o", 0, 90), square("h", 10, 80), *islands], 24),
        ):
            with self.subTest(len(contours)):
                self.has_triangles(made.text([made.section(5, *contours)]), count)

    def test_two_sections(self):
        """Two rings, of which only the holes go on, or only the outer contours."""
        below = made.section(0, square("o", 0, 30), square("h", 10, 20))
        above = made.section(10, square("p", 0, 30), square("g", 10, 20))
        for link in ("LINK h g\n", "LINK o p\n"):
            with self.subTest(link):
                self.has_triangles(made.text([below, above], "links", link), 28)

    def test_two_objects(self):
        """Two squares are one object, a ring is the other."""
        squares = [made.section(0, made.square("a")), made.section(10, made.square("b"))]
        ring = [made.section(0, square("o", 0, 30), square("h", 10, 20))]
        self.has_triangles(made.objects(squares, ring), 28)
