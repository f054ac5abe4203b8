"""Rings that cross or touch are made anew by the even-odd rule, and the program takes what they become."""
import math
import random
import unittest

from fku import cleaning
from fku.cleaning import clean
from fku.meetings import meetings
from fku.tracing import doubled_area
from tests.test_cleaning import SQUARE, is_taken, kinds
from tests_with_packages.makers import needs


def area(rings):
    """Gives the area that rings enclose, holes counting below 0."""
    return sum(map(doubled_area, rings)) / 2


def moved(ring, x, y):
    """Gives a ring at another place."""
    return [(a + x, b + y) for a, b in ring]


@needs("shapely")
class Crossing(unittest.TestCase):
    """Rings that the program refuses as they are."""

    def see(self, given, want_area, want_count, unit=1, near=0.0):
        """Cleans rings, and looks at the number and the area of what they become."""
        rings, notes = clean(given, unit)
        self.assertEqual(meetings(rings), [])
        self.assertTrue(is_taken(rings))
        self.assertEqual(len(rings), want_count)
        self.assertAlmostEqual(area(rings) * unit * unit, want_area, delta=near)
        return rings, notes

    def test_keyhole(self):
        # To the hole and back on one way, as structure sets have it.
        outer, hole = [(0, 0), (20, 0), (20, 20), (0, 20)], [(5, 5), (5, 15), (15, 15), (15, 5)]
        rings, notes = self.see([outer + outer[:1] + hole + hole[:1]], 300, 2)
        self.assertEqual([set(it) for it in rings], [set(outer), set(hole)])
        self.assertEqual(kinds(notes), [(0, cleaning.KEYHOLE)])
        self.assertEqual(notes[0].text, "runs along itself, as keyholes do: 2 rings of the same area now")

    def test_bow_tie(self):
        rings, notes = self.see([[(0, 0), (100, 100), (100, 0), (0, 100)]], 5000, 2, near=10)
        self.assertEqual(kinds(notes), [(0, cleaning.CROSSING), (0, cleaning.CUT)])
        self.assertIn("made anew by the even-odd rule, 2 rings of area 5000 are left", notes[0].text)
        self.assertTrue(all(doubled_area(it) > 0 for it in rings))

    def test_two_that_overlap(self):
        # What both enclose is outside by the rule: two pieces that touch in two points, and are cut there.
        _, notes = self.see([SQUARE, moved(SQUARE, 5, 5)], 150, 2, unit=0.01, near=0.1)
        self.assertEqual(kinds(notes)[:2], [(0, cleaning.CROSSING), (1, cleaning.CROSSING)])
        self.assertIn("meets ring 1", notes[0].text)

    def test_two_that_share_an_edge(self):
        rings, _ = self.see([SQUARE, moved(SQUARE, 10, 0)], 200, 1)
        self.assertEqual(set(rings[0]), {(0, 0), (10, 0), (20, 0), (20, 10), (10, 10), (0, 10)})

    def test_hole_that_touches_its_ring(self):
        big = [(0, 0), (100, 0), (100, 100), (0, 100)]
        self.see([big, [(0, 50), (50, 20), (50, 80)]], 10000 - 1500, 1, near=30)
        self.see([big, [(0, 0), (50, 20), (20, 50)]], 10000 - 1050, 1, near=30)

    def test_others_stay_as_they_are(self):
        inner = moved(SQUARE, 30, 45)
        rings, notes = clean([inner, [(0, 0), (100, 100), (100, 0), (0, 100)], moved(SQUARE, 200, 0)], 1)
        self.assertIn(inner[::-1] if doubled_area(rings[0]) < 0 else inner, rings)
        self.assertIn(moved(SQUARE, 200, 0), rings)
        self.assertEqual({it.ring for it in notes}, {1})

    def test_star(self):
        # Twice round the middle is outside.
        points = [(1000 * math.cos(k * 0.8 * math.pi), 1000 * math.sin(k * 0.8 * math.pi)) for k in range(5)]
        waist = math.cos(0.4 * math.pi) / math.cos(0.2 * math.pi)
        want = 1e6 * (5 * waist * math.sin(0.2 * math.pi) - 2.5 * waist**2 * math.sin(0.4 * math.pi))
        self.see([points], want, 5, near=want / 1000)

    def test_scribbles(self):
        chance = random.Random(11)
        for size in (6, 15, 40):
            for unit in (1, 0.1, 0.01):
                given = [
                    [(chance.uniform(0, 30), chance.uniform(0, 30)) for _ in range(size)]
                    for _ in range(chance.randint(1, 2))
                ]
                rings, notes = clean(given, unit)
                self.assertEqual(meetings(rings), [])
                self.assertTrue(is_taken(rings))
                self.assertTrue(notes)
                if unit == 0.01 and size < 40:
                    exact = sum(even_odd_area(given))
                    self.assertAlmostEqual(area(rings) * unit**2, exact, delta=0.02 * exact)

    def test_coarse_units(self):
        # Rounding makes all of it meet; what is left is taken, and what went is told.
        chance = random.Random(3)
        for _ in range(20):
            wave = [chance.uniform(0.8, 3) for _ in range(60)]
            ring = [(r * math.cos(k * math.pi / 30), r * math.sin(k * math.pi / 30)) for k, r in enumerate(wave)]
            rings, _ = clean([ring, [(x / 3, y / 3) for x, y in ring], moved(ring, 4, 0)], 0.5)
            self.assertEqual(meetings(rings), [])
            self.assertTrue(is_taken(rings) or not rings)


def even_odd_area(rings, rows=3000):
    """Gives the length of what is inside by the even-odd rule on many lines, times their distance."""
    ys = [y for ring in rings for _, y in ring]
    step = (max(ys) - min(ys)) / rows
    for row in range(rows):
        y = min(ys) + (row + 0.5) * step
        xs = []
        for ring in rings:
            for (ax, ay), (bx, by) in zip(ring, ring[1:] + ring[:1]):
                if (ay > y) != (by > y):
                    xs.append(ax + (y - ay) * (bx - ax) / (by - ay))
        xs.sort()
        yield sum(b - a for a, b in zip(xs[0::2], xs[1::2])) * step
