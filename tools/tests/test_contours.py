"""Contours of one section, as `tilings` takes or refuses them: simple or not, apart or not, long ones too."""
import unittest

from fku import section_text
from fku.section_text import Object, Section
from tests.common import fku

SQUARE = [(0, 0), (10, 0), (10, 10), (0, 10)]


def bowl(count, moved=None, to=None):
    """Gives the vertices (k, k * k) of a convex contour, one of them moved."""
    return [to if k == moved else (k, k * k) for k in range(count)]


def comb(at):
    """Gives a contour of 998 vertices whose teeth lie side by side: the ranges of all its edges overlap."""
    far = (0, 100_000)
    teeth = [(at + k + far[k % 2], far[k % 2] - at - k) for k in range(997)]
    return [*teeth, (at - 1000, -1500 - at)]


class Contours(unittest.TestCase):
    """What is told of contours that stand in one section."""

    def see(self, contours, fault=""):
        """Sees that contours, named a, b and so on, are refused by this fault, or taken."""
        named = [(chr(ord("a") + k), points) for k, points in enumerate(contours)]
        status, out = fku(["tilings"], section_text.text_of([Object("", [Section(0, named)])], "span", []))
        with self.subTest(contours=[points[:6] for points in contours], fault=fault):
            self.assertEqual(status, 1 if fault else 0, out[:100])
            if fault:
                self.assertEqual(out, f"REFUSED {fault}\n".encode())

    def test_small(self):
        self.see([[(0, 0), (0, 0), (5, 5)]], "8 SELF CROSSING a 0 1")
        self.see([[(0, 0), (4, 0), (2, 0)]], "8 SELF CROSSING a 0 1")
        self.see([[(0, 0), (2, 0), (4, 0)]], "8 SELF CROSSING a 0 2")
        self.see([[(0, 0), (5, 0), (10, 0), (10, 10), (0, 10)]])
        self.see([[(0, 0), (4, 0), (2, 2), (4, 4), (0, 4), (2, 2)]], "8 SELF CROSSING a 1 4")
        self.see([[(0, 0), (10, 10), (10, 0), (0, 10)]], "8 SELF CROSSING a 0 2")

    def test_long(self):
        # A vertex j moved right below vertex i, i < j - 2, pulls edge j - 1 across edge i; one moved right above the
        # closing edge pulls it across that edge.
        for count in (15, 16, 17, 32, 33, 64, 65, 1000):
            self.see([bowl(count)])
        self.see([bowl(65, 60, (2, 3))], "8 SELF CROSSING a 2 59")
        self.see([bowl(1000, 990, (3, 8))], "8 SELF CROSSING a 3 989")
        self.see([bowl(33, 18, (14, 195))], "8 SELF CROSSING a 14 17")
        self.see([bowl(65, 40, (15, 224))], "8 SELF CROSSING a 15 39")
        self.see([bowl(64, 23, (19, 360))], "8 SELF CROSSING a 19 22")
        self.see([bowl(64, 20, (20, 1261))], "8 SELF CROSSING a 19 63")
        self.see([bowl(65, 20, (20, 1281))], "8 SELF CROSSING a 19 64")
        self.see([bowl(1000, 500, (500, 499_501))], "8 SELF CROSSING a 499 999")

    def test_two(self):
        for low, fault in ((10, "9 CROSSING a b"), (11, ""), (4, "")):
            self.see([SQUARE, [(low, low), (2 * low, low), (2 * low, 2 * low), (low, 2 * low)]], fault)

    def test_beside_a_long_one(self):
        # Triangles in the long contour, below it, at its vertices, across an edge, and at the closing edge.
        for triangle, fault in (
            ([(10, 200), (11, 200), (11, 201)], ""),
            ([(40, 100), (41, 100), (41, 101)], ""),
            ([(59, 3600), (61, 3600), (61, 3601)], "9 CROSSING a b"),
            ([(16, 256), (20, 256), (20, 250)], "9 CROSSING a b"),
            ([(15, 226), (16, 255), (17, 255)], "9 CROSSING a b"),
            ([(20, 1280), (20, 1300), (19, 1300)], "9 CROSSING a b"),
        ):
            self.see([triangle, bowl(65)], fault)
            self.see([bowl(65), triangle], fault)

    def test_combs(self):
        self.see([comb(at) for at in (0, 1000, 2000, 3000)])
