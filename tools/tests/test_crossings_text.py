"""The reader of what `fku crossings` prints."""
import unittest

from fku import crossings
from fku.trouble import Trouble

TEXT = b"PARTS 2\nPART 1\nCROSS 17 2\nCROSS 40 1\nCROSS 41 1\nCROSSINGS 2\nPART 2\nCROSSINGS 0\n"


class Reader(unittest.TestCase):
    """Whole texts, and texts that are not whole."""

    def test_two_parts(self):
        found = crossings.read(TEXT, "x")
        self.assertEqual(found, crossings.Crossings({16: 2, 39: 1, 40: 1}, [2, 0]))

    def test_no_crossing(self):
        self.assertEqual(crossings.read(b"PARTS 1\nPART 1\nCROSSINGS 0\n", "x"), crossings.Crossings({}, [0]))

    def test_each_text_that_was_cut(self):
        for length in range(len(TEXT) - 1):
            with self.subTest(length=length), self.assertRaises(Trouble):
                crossings.read(TEXT[:length], "x")

    def test_texts_at_fault(self):
        rows = [
            ("the pairs are not half of all counts", b"CROSSINGS 2", b"CROSSINGS 3"),
            ("a part is passed over", b"PART 2", b"PART 3"),
            ("there are more parts than the first line says", b"PARTS 2", b"PARTS 1"),
            ("triangles are not in order", b"CROSS 40 1\nCROSS 41 1", b"CROSS 41 1\nCROSS 40 1"),
            ("a triangle occurs twice", b"CROSS 41", b"CROSS 40"),
            ("a triangle has the number 0", b"CROSS 17", b"CROSS 0"),
            ("a triangle crosses none", b"CROSS 40 1\nCROSS 41 1", b"CROSS 40 0\nCROSS 41 2"),
            ("a number has a sign", b"CROSS 17 2", b"CROSS 17 +2"),
            ("a number is missing", b"CROSS 17 2", b"CROSS 17"),
            ("a number too many", b"CROSS 17 2", b"CROSS 17 2 2"),
            ("another word", b"CROSS 17", b"CROSSED 17"),
            ("letters of no ASCII", b"CROSS 17", "CROSS\u00a017".encode()),
            ("a line too many", b"CROSSINGS 0\n", b"CROSSINGS 0\nPART 3\n"),
        ]
        for what, old, new in rows:
            with self.subTest(what=what):
                self.assertIn(old, TEXT)
                with self.assertRaises(Trouble):
                    crossings.read(TEXT.replace(old, new), "x")

    def test_a_refusal(self):
        with self.assertRaises(Trouble) as told:
            crossings.read(b"REFUSED 27 BYU FORM line 1\n", "x")
        self.assertIn("fku refused its input", str(told.exception))

    def test_a_surface_of_other_parts_or_of_fewer_triangles(self):
        found = crossings.read(TEXT, "x")
        crossings.see_fits(found, [41, 1], "x")
        for sizes, part in [([42], "2 parts"), ([39, 1], "triangle 41")]:
            with self.subTest(sizes=sizes), self.assertRaises(Trouble) as told:
                crossings.see_fits(found, sizes, "x")
            self.assertIn(part, str(told.exception))
