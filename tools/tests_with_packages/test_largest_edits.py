"""Edits of section texts that have as many vertices as a text may have. It takes no package, but some time."""
import unittest

from tests import made_inputs as made
from tests.common import fku

DONE = "DONE solved 0 reused 0"
VERTICES = "REFUSED 5 LIMIT vertices"


class LargestEdits(unittest.TestCase):
    """Two edits of which one is past a limit. The sections are unlinked, so no pair is solved."""

    def is_answered(self, shape, edits, first, second):
        """The edits of sections of this shape have these answers."""
        sections, contours, points = shape
        status, output = fku(["edit"], made.combs(sections, contours, points, points) + edits)
        self.assertEqual(status, 0, output[:100])
        self.assertEqual(output.split(b"\n")[:3], [f"EDIT 1 {first}".encode(), f"EDIT 2 {second}".encode(), b"EDITS 2"])

    def test_added_contours(self):
        for shape, first, second in (
            ((256, 2, 4095), (513, VERTICES), (512, DONE)),
            ((1024, 64, 32), (4097, "REFUSED 5 LIMIT contour_vertices"), (3, VERTICES)),
        ):
            with self.subTest(shape):
                edits = made.addition("d", 100_000, first[0]) + made.addition("e", 200_000, second[0])
                self.is_answered(shape, edits, first[1], second[1])

    def test_inserted_vertices(self):
        """Two vertices are inserted after the last one of the first contour, where one more is allowed."""
        edits = b"INSERT c0_0 337 0 0\nINSERT c0_0 338 0 0\n"
        self.is_answered((889, 7, 337), edits, DONE, VERTICES)
