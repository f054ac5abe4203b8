"""Rings from elsewhere are made such as the program takes; what needs no package."""
import itertools
import random
import sys
import unittest
import unittest.mock

from fku import cleaning, section_text
from fku.cleaning import clean
from fku.meetings import are_against, meetings
from fku.section_text import Object, Section
from fku.tracing import doubled_area
from fku.trouble import NO_PACKAGE, Trouble
from tests.common import fku

SQUARE = [(0, 0), (10, 0), (10, 10), (0, 10)]


def is_taken(rings):
    """Whether the program takes rings as one section."""
    section = Section(0, [(f"c{at}", ring) for at, ring in enumerate(rings)])
    return fku(["report"], section_text.text_of([Object("", [section])], "span", []))[0] == 0


def kinds(notes):
    """Gives the rings and kinds of notes."""
    return [(it.ring, it.kind) for it in notes]


class Single(unittest.TestCase):
    """One ring at a time."""

    def test_left_as_it_is(self):
        self.assertEqual(clean([SQUARE], 1), ([SQUARE], []))
        self.assertEqual(clean([[(x / 4, y / 4) for x, y in SQUARE]], 0.25), ([SQUARE], []))
        self.assertEqual(clean([[(x + 5.5, y - 3) for x, y in SQUARE]], 1, (5.5, -3)), ([SQUARE], []))

    def test_rounded_to_the_nearest(self):
        rings, _ = clean([[(0.4, -0.4), (9.6, 0.5), (10.2, 9.5), (-0.5, 10.49)]], 1)
        self.assertEqual(rings, [[(0, 0), (10, 1), (10, 10), (0, 10)]])

    def test_closing_point_and_repeats(self):
        rings, notes = clean([SQUARE + [(0, 0)], [(40 + x, y) for x, y in SQUARE for _ in range(3)]], 1)
        self.assertEqual([sorted(it) for it in rings], [sorted(SQUARE), sorted((40 + x, y) for x, y in SQUARE)])
        self.assertEqual(kinds(notes), [(0, cleaning.CLOSING), (1, cleaning.REPEATS)])
        self.assertEqual(notes[1].text, "left out 8 points that repeat the one before them")

    def test_ways_back(self):
        spikes = [(0, 0), (5, 0), (5, -7), (5, 0), (10, 0), (10, 10), (15, 15), (10, 10), (0, 10), (-4, 14)]
        spikes += [(-8, 18), (-4, 14), (0, 10)]
        rings, notes = clean([spikes], 1)
        self.assertEqual([set(it) for it in rings], [{(0, 0), (5, 0), (10, 0), (10, 10), (0, 10)}])
        self.assertEqual(kinds(notes), [(0, cleaning.BACK)])

    def test_nothing_left(self):
        flat, tiny = [(0, 0), (5, 5), (9, 9), (2, 2)], [(0, 0), (0.1, 0.2), (0.3, 0.1)]
        for ring in ([], [(1, 1)], [(0, 0), (5, 5)], flat, tiny):
            rings, notes = clean([SQUARE, ring], 1)
            self.assertEqual((rings, (notes[-1].ring, notes[-1].kind)), ([SQUARE], (1, cleaning.LOST)), ring)

    def test_no_numbers(self):
        nan, infinite = float("nan"), float("inf")
        for ring in ([(0, 0), (1, nan), (2, 2)], [(0, 0), (1,), (5, 5)], [("a", 0)] * 3, [(0, infinite)] * 3):
            with self.assertRaisesRegex(Trouble, "ring 1: each point must be two finite numbers"):
                clean([SQUARE, ring], 1)
        with self.assertRaisesRegex(Trouble, "the unit must be above 0"):
            clean([SQUARE], 0)


class Several(unittest.TestCase):
    """Rings of one slice together."""

    def test_direction_by_depth(self):
        nest = [[(x * k, y * k) for x, y in ((-1, -1), (-1, 1), (1, 1), (1, -1))] for k in (9, 6, 3)]
        rings, notes = clean(nest, 1)
        self.assertEqual([doubled_area(it) for it in rings], [648, -288, 72])
        self.assertEqual(notes, [])

    def test_twice(self):
        rings, notes = clean([SQUARE, SQUARE[2:] + SQUARE[:2], SQUARE[::-1]], 1)
        self.assertEqual((rings, kinds(notes)), ([SQUARE], [(1, cleaning.TWICE), (2, cleaning.TWICE)]))

    def test_smallest(self):
        small = [(20, 20), (23, 20), (23, 23), (20, 23)]
        rings, notes = clean([small, SQUARE], 1, smallest=9.5)
        self.assertEqual((rings, kinds(notes)), ([SQUARE], [(0, cleaning.SMALL)]))
        self.assertEqual(len(clean([small, SQUARE], 1, smallest=9)[0]), 2)

    def test_thinned(self):
        many = [(k, 0) for k in range(0, 100)] + [(100, 0), (100, 50), (0, 50)]
        rings, notes = clean([many], 0.5, thinning=0.1)
        self.assertEqual(rings, [[(0, 0), (200, 0), (200, 100), (0, 100)]])
        self.assertEqual((kinds(notes), notes[0].text), ([(0, cleaning.THINNED)], "99 of 103 points left out"))


class WithoutPackages(unittest.TestCase):
    """Where python3-shapely is missing."""

    def test_what_is_missing_is_told(self):
        bow = [(0, 0), (10, 10), (10, 0), (0, 10)]
        with unittest.mock.patch.dict(sys.modules, {"shapely": None, "shapely.geometry": None}):
            self.assertEqual(clean([SQUARE], 1), ([SQUARE], []))
            with self.assertRaisesRegex(Trouble, "needs the Python package shapely: on Debian .*python3-shapely") as it:
                clean([bow], 1)
        self.assertEqual(it.exception.status, NO_PACKAGE)


class Meetings(unittest.TestCase):
    """Edges that share a point that they should not."""

    def test_rows(self):
        bow = [(0, 0), (10, 10), (10, 0), (0, 10)]
        touch = [(0, 0), (10, 0), (10, 10), (5, 0), (0, 10)]
        triangle = [(0, 0), (9, 0), (0, 9)]
        rows = [
            ([SQUARE], []),
            ([triangle], []),
            ([bow], [((0, 0), (0, 2))]),
            ([touch], [((0, 0), (0, 2)), ((0, 0), (0, 3))]),
            ([[(0, 0), (9, 0), (4, 0), (4, 5)]], [((0, 0), (0, 1)), ((0, 0), (0, 2))]),
            ([SQUARE, [(10, 10), (20, 10), (20, 20)]], [((0, 1), (1, 0)), ((0, 1), (1, 2)), ((0, 2), (1, 0)),
                                                        ((0, 2), (1, 2))]),
            ([SQUARE, [(2, 2), (4, 2), (4, 4)]], []),
        ]  # fmt: skip
        for rings, want in rows:
            self.assertEqual(meetings(rings), want, rings)

    def test_as_all_pairs_say(self):
        chance = random.Random(8)
        for size in (3, 5, 12, 60, 300):
            for _ in range(4):
                rings = [
                    [(chance.randrange(400 * size), chance.randrange(9 * size)) for _ in range(size)]
                    for _ in range(chance.randint(1, 3))
                ]
                if size > 12:  # short edges beside long ones
                    rings.append([(x // 50, y) for x, y in rings[0]])
                edges = [(number, at) for number, ring in enumerate(rings) for at in range(len(ring))]
                if len(edges) < 400:
                    want = [it for it in itertools.combinations(edges, 2) if are_against(*it, rings)]
                    self.assertEqual(meetings(rings), want)

    def test_as_the_program_says(self):
        chance = random.Random(5)
        for _ in range(150):
            rings = []
            for _ in range(chance.randint(1, 3)):
                points = [(chance.randrange(12), chance.randrange(12)) for _ in range(chance.randint(3, 5))]
                if all(a != b for a, b in zip(points, points[1:] + points[:1])):
                    rings.append(points)
            if rings:
                self.assertEqual(is_taken(rings), not meetings(rings), rings)
