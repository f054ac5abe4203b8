"""Thinning, joining and the section text, against what the program says of them."""
import random
import unittest

from fku import joining, section_text, thinning
from fku.section_text import Object, Section
from fku.trouble import Trouble
from tests.common import file, fku

COMB = [(x, (0, 40, 42, 2)[x % 4]) for x in range(40)] + [(39, 60), (0, 60)]


def square(x, y, size, hole=False):
    """Gives a square, counterclockwise, or clockwise where it is a hole."""
    points = [(x, y), (x + size, y), (x + size, y + size), (x, y + size)]
    return points[::-1] if hole else points


def sections_of(*slices):
    """Gives sections 10 apart, with contours of these points."""
    return [
        Section(10 * at, [(f"c{at}_{number}", points) for number, points in enumerate(contours)])
        for at, contours in enumerate(slices)
    ]


def alone(sections):
    """Gives the objects of a text of version 1."""
    return [Object("", sections)]


def report(sections):
    """Gives the status of `fku report`, and its numbers by their names."""
    status, out = fku(["report"], section_text.text_of(alone(sections), "span", ["made by a test"]))
    lines = [line.split() for line in out.decode().splitlines()]
    return status, {words[0]: words[1:] for words in lines}


class Thinning(unittest.TestCase):
    """Points are left out, and outlines stay simple and apart."""

    def test_points_between_others(self):
        ring = [(0, 0), (2, 0), (5, 0), (9, 0), (9, 9), (4, 9), (0, 9)]
        self.assertEqual(thinning.thinned([ring], 1, 1000, 4), [[(0, 0), (9, 0), (9, 9), (0, 9)]])
        self.assertEqual(thinning.thinned([ring], 0, 1000, 4), [ring])

    def test_most(self):
        kept = thinning.thinned([COMB], 0, 10, 4)
        self.assertEqual(len(kept[0]), 10)
        self.assertEqual(report(sections_of(kept))[0], 0)

    def test_nothing_is_passed_over(self):
        # The notch of the outer ring holds the inner square, so it cannot be closed.
        outer = [(0, 0), (100, 0), (100, 100), (52, 100), (50, 40), (48, 100), (0, 100)]
        inner = square(49, 80, 2)
        kept = thinning.thinned([outer, inner], 10**6, 1000, 16)
        self.assertIn((50, 40), kept[0])
        self.assertEqual(report(sections_of(kept))[0], 0)

    def test_many_tolerances(self):
        teeth = [[(x + 60 * k, y) for x, y in COMB] for k in range(3)]
        for tolerance in (0, 1, 10, 100, 1000, 10**6):
            kept = thinning.thinned(teeth, tolerance, 1000, 8)
            self.assertEqual(report(sections_of(kept))[0], 0, tolerance)


class Joining(unittest.TestCase):
    """Components and the limit of a composite, as the program has them."""

    def test_pairs_of_squares(self):
        chance = random.Random(7)
        for _ in range(40):
            slices = []
            for _ in range(2):
                places = chance.sample([(x, y) for x in range(5) for y in range(5)], chance.randint(1, 12))
                slices.append([square(12 * x, 12 * y, chance.choice((4, 9, 11))) for x, y in places])
            status, numbers = report(sections_of(*slices))
            parts = joining.components(*slices)
            self.assertEqual((status, numbers["PAIRS"]), (0, [str(len(parts))]))

    def test_touching_and_inside(self):
        big = square(0, 0, 30)
        for other, want in [(square(30, 30, 5), True), (square(31, 0, 5), False), (square(10, 10, 5), True), (big, True)]:
            self.assertEqual((joining.overlap(big, other), joining.overlap(other, big)), (want, want))

    def test_limit_of_a_composite(self):
        plate = [square(-10, -10, 10000)]
        for count, good in [(683, True), (684, False)]:
            squares = [square(20 * (k % 20), 20 * (k // 20), 9) for k in range(count)]
            sections = sections_of(plate, squares)
            status, numbers = report(sections)
            self.assertEqual(status, 0 if good else 1)
            if good:
                joining.check(sections)
                continue
            self.assertEqual(numbers, {"REFUSED": "11 COMPOSITE LIMIT section 2 count 4102".split()})
            with self.assertRaisesRegex(Trouble, "4102, and the limit is 4096"):
                joining.check(sections)

    def test_holes_are_joined_to_holes(self):
        ring = [square(0, 0, 90), square(30, 30, 30, hole=True)]
        island = [square(40, 40, 5)]
        self.assertFalse(joining.is_hole(ring[0]))
        self.assertTrue(joining.is_hole(ring[1]))
        status, numbers = report(sections_of(ring, ring + island))
        self.assertEqual((status, numbers["PAIRS"]), (0, ["2"]))
        joining.check(sections_of(ring, ring + island))


class Text(unittest.TestCase):
    """The section text, its limits, and its reader."""

    def test_read_back(self):
        for name in ("squares", "caudate", "thalami"):
            data = file(f"examples/{name}.txt")
            objects = section_text.read(data, name)
            cost = "area" if b"COST area" in data else "span"
            again = section_text.text_of(objects, cost, [])
            self.assertEqual(fku(["reconstruct"], again), fku(["reconstruct"], data))

    def test_limits(self):
        one = square(0, 0, 5)
        long = [(x, 0) for x in range(4096)]
        rows = [
            (sections_of([long + [(1, 9)]]), "points of c0_0 at height 0: 4097, and the limit is 4096"),
            (sections_of([long] * 5), "points of the slice at height 0: 20480, and the limit is 16384"),
            (sections_of(*[[one]] * 16385), "slices: 16385, and the limit is 16384"),
            (sections_of(*[[one] * 5] * 13108), "outlines: 65540, and the limit is 65536"),
            (sections_of(*[[long] * 4] * 129), "points: 2113536, and the limit is 2097152"),
            (sections_of([square(-1000000, 0, 5)]), "--unit 1.01 times as large"),
            (sections_of([]), "no outline"),
        ]
        for sections, part in rows:
            with self.assertRaisesRegex(Trouble, part):
                section_text.check(alone(sections))
        section_text.check(alone(sections_of(*[[one]] * 16384)))

    def test_limits_over_objects(self):
        one = square(0, 0, 5)
        rows = [
            ([[[one]] * 9000] * 2, "slices: 18000, and the limit is 16384"),
            ([[[one]]] * 1025, "objects: 1025, and the limit is 1024: give fewer"),
            ([[[one]], []], "no outline of o1"),
        ]
        for objects, part in rows:
            with self.assertRaisesRegex(Trouble, part):
                section_text.check([Object(f"o{at}", sections_of(*it)) for at, it in enumerate(objects)])
        section_text.check([Object(f"o{at}", sections_of([one])) for at in range(1024)])

    def test_names_of_the_format(self):
        for word in ("a_Z9", "left-hippocampus.2", "-", "x" * 64):
            self.assertTrue(section_text.is_name(word), word)
        for word in ("x" * 65, "", "a+b", "a\n", "\u00e9"):
            self.assertFalse(section_text.is_name(word), word)

    def test_no_section_text(self):
        cut = b"SECTIONS 1\nSECTION 5\nCONTOUR a 3\n1 2\n1\n"
        unnamed = b"SECTIONS 2\nSECTION 5\n"
        for text, part in [(b"SECTIONS 1\n", "no END"), (b"solid\n", "line 1"), (cut, "line 5"), (unnamed, "line 2")]:
            with self.assertRaisesRegex(Trouble, part):
                section_text.read(text, "x")
