"""The reader of what `fku measure` prints."""
import unittest

from fku import measures
from fku.trouble import Trouble

# A tetrahedron, its three edges at the corner of length 1, and a single triangle.
TEXT = b"""PARTS 2
PART 1
VERTICES 4
POLYGONS 4
BOX -3 0 0 -2 1 1
AREA 4732 4733 DEN 2000
EDGES 6 MANY 0
CLOSED yes
SIXVOLUME 1
MOMENT -11 1 1
PART 2
VERTICES 3
POLYGONS 1
BOX 0 0 0 10 10 0
AREA 100000 100000 DEN 2000
EDGES 3 MANY 0
CLOSED no
"""

CORNER = measures.Measures(4, 4, ((-3, 0, 0), (-2, 1, 1)), 4732, 4733, 6, 0, True, 1, (-11, 1, 1))
TRIANGLE = measures.Measures(3, 1, ((0, 0, 0), (10, 10, 0)), 100000, 100000, 3, 0, False)


class Reader(unittest.TestCase):
    """Whole texts, and texts that are not whole."""

    def test_two_parts(self):
        self.assertEqual(measures.read(TEXT, "x"), [CORNER, TRIANGLE])

    def test_a_volume_below_0(self):
        turned = TEXT.replace(b"SIXVOLUME 1\nMOMENT -11 1 1", b"SIXVOLUME -1\nMOMENT 11 -1 -1")
        self.assertEqual(measures.read(turned, "x")[0].six_volume, -1)
        self.assertEqual(measures.read(turned, "x")[0].moment, (11, -1, -1))

    def test_numbers_of_any_size(self):
        large = TEXT.replace(b"MOMENT -11", b"MOMENT -" + 30 * b"9")
        self.assertEqual(measures.read(large, "x")[0].moment[0], 1 - 10**30)

    def test_each_text_that_was_cut(self):
        for length in range(len(TEXT)):
            with self.subTest(length=length), self.assertRaises(Trouble):
                measures.read(TEXT[:length], "x")

    def test_texts_at_fault(self):
        rows = [
            ("a part is passed over", b"PART 2", b"PART 3"),
            ("there are more parts than the first line says", b"PARTS 2", b"PARTS 1"),
            ("there are fewer parts than the first line says", b"PARTS 2", b"PARTS 3"),
            ("more vertices than the corners of its triangles", b"VERTICES 3", b"VERTICES 4"),
            ("no vertex", b"VERTICES 3", b"VERTICES 0"),
            ("no triangle", b"POLYGONS 1", b"POLYGONS 0"),
            ("the box is turned round", b"BOX -3 0 0 -2 1 1", b"BOX -2 0 0 -3 1 1"),
            ("a number of the box is missing", b"BOX -3 0 0 -2 1 1", b"BOX -3 0 0 -2 1"),
            ("the area's bounds are turned round", b"AREA 4732 4733", b"AREA 4733 4732"),
            ("the area's bounds are too far apart", b"AREA 4732 4733", b"AREA 4732 4737"),
            ("an area below 0", b"AREA 4732", b"AREA -4732"),
            ("another divisor", b"4733 DEN 2000", b"4733 DEN 1000"),
            ("more edges than those of its triangles", b"EDGES 3", b"EDGES 4"),
            ("more edges of many triangles than edges", b"EDGES 3 MANY 0", b"EDGES 3 MANY 4"),
            ("closed in another word", b"CLOSED yes", b"CLOSED maybe"),
            ("closed, without a volume", b"CLOSED no", b"CLOSED yes"),
            ("not closed, with a volume", b"CLOSED yes", b"CLOSED no"),
            ("a number has a plus", b"SIXVOLUME 1", b"SIXVOLUME +1"),
            ("a number has a needless 0", b"SIXVOLUME 1", b"SIXVOLUME 01"),
            ("a 0 has a minus", b"MOMENT -11 1 1", b"MOMENT -0 1 1"),
            ("a number too many", b"MOMENT -11 1 1", b"MOMENT -11 1 1 1"),
            ("a fraction", b"MOMENT -11 1 1", b"MOMENT -11.5 1 1"),
            ("two blanks", b"MOMENT -11 1 1", b"MOMENT  -11 1 1"),
            ("another word", b"SIXVOLUME", b"VOLUME"),
            ("a line end of two bytes", b"SIXVOLUME 1\n", b"SIXVOLUME 1\r\n"),
            ("digits of no ASCII", b"VERTICES 3", "VERTICES \u0663".encode()),
            ("a line too many", b"CLOSED no\n", b"CLOSED no\n\n"),
        ]
        for what, old, new in rows:
            with self.subTest(what=what):
                self.assertIn(old, TEXT)
                with self.assertRaises(Trouble):
                    measures.read(TEXT.replace(old, new), "x")

    def test_a_refusal_and_the_usage(self):
        for text, part in [(b"REFUSED 27 BYU FORM line 1\n", "fku refused its input"), (b"USAGE fku x\n", "usage")]:
            with self.assertRaises(Trouble) as told:
                measures.read(text, "x")
            self.assertIn(part, str(told.exception))

    def test_another_surface(self):
        found = measures.read(TEXT, "x")
        measures.see_fits(found, [4, 1], "x")
        for sizes in ([4], [1, 4], [4, 1, 1]):
            with self.subTest(sizes=sizes), self.assertRaises(Trouble):
                measures.see_fits(found, sizes, "x")
