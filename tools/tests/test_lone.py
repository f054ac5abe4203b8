"""Outlines that are joined to nothing: those that no pair of `tilings` names, and what goes without them."""
import re
import unittest

from fku import lone, section_text
from fku.section_text import Object, Section
from tests.common import file, fku


def square(x, y, size):
    """Gives a square, counterclockwise."""
    return [(x, y), (x + size, y), (x + size, y + size), (x, y + size)]


def sections_of(*slices):
    """Gives sections 10 apart, with contours of these points, named by their section and number."""
    return [
        Section(10 * at, [(f"c{at}_{number}", points) for number, points in enumerate(contours)])
        for at, contours in enumerate(slices)
    ]


def in_pairs(text):
    """Gives the names of all contours that `tilings` prints."""
    status, out = fku(["tilings"], text)
    if status != 0:
        raise AssertionError(out)
    return {name for line in re.findall(rb"(?m)^(?:BELOW|ABOVE) (.*)$", out) for name in line.decode().split()}


class Finding(unittest.TestCase):
    """Which outlines are found."""

    def see(self, sections, want):
        """Sees that these are found, and that the program joins all others."""
        self.assertEqual(lone.find(sections), want)
        places = {name: (at, k) for at, it in enumerate(sections) for k, (name, _) in enumerate(it.contours)}
        names = {name for name, place in places.items() if place not in want}
        self.assertEqual(in_pairs(section_text.text_of([Object("", sections)], "span", [])), names)

    def test_beside_and_above(self):
        self.see(sections_of([square(0, 0, 9)], [square(2, 2, 9), square(50, 0, 9)], [square(0, 1, 4)]), [(1, 1)])
        self.see(sections_of([square(0, 0, 9)]), [(0, 0)])

    def test_boxes_that_meet(self):
        # The corner of the triangle's box holds a square that the triangle itself does not reach.
        self.see(sections_of([[(0, 0), (90, 0), (0, 90)]], [square(80, 80, 5), square(5, 5, 5)]), [(1, 0)])

    def test_holes_and_others_are_not_joined(self):
        tube = [square(0, 0, 90), square(20, 20, 50)]
        self.see(sections_of(tube, [square(30, 30, 20), square(-5, 0, 10)]), [(0, 1)])
        self.see(sections_of(tube, tube[::-1]), [])
        self.see(sections_of([tube[0]], tube), [(1, 1)])

    def test_an_empty_section_between(self):
        self.see(sections_of([square(0, 0, 9)], [], [square(0, 0, 9)]), [(0, 0), (2, 0)])

    def test_links(self):
        sections = sections_of([square(0, 0, 9), square(20, 0, 9)], [square(0, 0, 9)])
        self.assertEqual(lone.find(sections, [("c0_1", "c1_0")]), [(0, 0)])
        self.assertEqual(lone.find(sections, []), [(0, 0), (0, 1), (1, 0)])

    def test_examples(self):
        for name in ["squares", "caudate", "labels", "thalami", "hill", "brain"]:
            text = file(f"examples/{name}.txt")
            joined = in_pairs(text)
            for it in section_text.read(text, name):
                found = {it.sections[at].contours[number][0] for at, number in lone.find(it.sections)}
                names = {contour for section in it.sections for contour, _ in section.contours}
                self.assertEqual(found, names - joined, name)


class Dropping(unittest.TestCase):
    """What can go, and what is left."""

    def test_sections_stay(self):
        sections = sections_of([square(0, 0, 9)], [square(50, 0, 9)], [square(0, 0, 9)])
        found = lone.find(sections)
        self.assertEqual([len(it.contours) for it in lone.without(sections, found)], [0, 0, 0])
        left = lone.without(sections, found[:2])
        self.assertEqual([(it.height, it.contours) for it in left], [(0, []), (10, []), (20, sections[2].contours)])

    def test_a_hole_round_an_island_stays(self):
        # The island is joined to the square above, the hole around it to nothing; a speck beside them is free to go.
        below = [square(0, 0, 90), square(20, 20, 50), square(40, 40, 10), square(200, 0, 9)]
        sections = sections_of(below, [square(0, 0, 90)])
        self.assertEqual(lone.find(sections), [(0, 1), (0, 3)])
        self.assertEqual(lone.droppable(sections, [(0, 1), (0, 3)]), [(0, 3)])

    def test_the_surface_keeps_its_volume(self):
        text = file("examples/hill.txt")
        (whole,) = section_text.read(text, "hill")
        found = lone.find(whole.sections)
        left = lone.without(whole.sections, lone.droppable(whole.sections, found))
        less = section_text.text_of([Object("", left)], "span", [])
        numbers = [dict(line.split() for line in fku(["report"], it)[1].decode().splitlines()) for it in (text, less)]
        self.assertEqual(len(found), 8)
        self.assertEqual(int(numbers[1]["CONTOURS"]), int(numbers[0]["CONTOURS"]) - 8)
        self.assertEqual(numbers[1]["SIXVOLUME"], numbers[0]["SIXVOLUME"])
        self.assertEqual(numbers[1]["PAIRS"], numbers[0]["PAIRS"])
