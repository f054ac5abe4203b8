"""What `show` reads, and what it refuses before it draws."""
import unittest
from fractions import Fraction

from fku import loops
from fku.trouble import Trouble
from tests.common import TOP, file, fku, tool


class Loops(unittest.TestCase):
    """The text of a slice."""

    def test_the_square_halfway(self):
        status, text = fku(["slice", "--height=5"], file("examples/squares.txt"))
        self.assertEqual(status, 0)
        height, found = loops.read(text, "x")
        self.assertEqual((height, len(found), found[0][:3]), (5, 1, [(0, 0), (5, 0), (10, 0)]))
        for length in range(len(text) - 4):
            with self.assertRaises(Trouble):
                loops.read(text[:length], "x")

    def test_fractions(self):
        text = b"OBJECT a\nSLICE -3 DEN 7 LOOPS 1\nLOOP 3\n1 2\n-3 4\n5 6\n"
        self.assertEqual(loops.read(text, "x")[1][0][1], (Fraction(-3, 7), Fraction(4, 7)))

    def test_several_objects(self):
        text = b"OBJECT a\nSLICE 5 DEN 10 LOOPS 1\nLOOP 3\n1 2\n3 4\n5 6\nOBJECT b\nSLICE 5 DEN 2 LOOPS 0\n"
        text += b"OBJECT c\nSLICE 5 DEN 3 LOOPS 1\nLOOP 1\n7 8\n"
        height, found = loops.read(text, "x")
        self.assertEqual((height, [len(it) for it in found]), (5, [3, 1]))
        self.assertEqual(found[1][0], (Fraction(7, 3), Fraction(8, 3)))
        with self.assertRaises(Trouble):
            loops.read(text.replace(b"SLICE 5 DEN 3", b"SLICE 6 DEN 3"), "x")


class Words(unittest.TestCase):
    """Statuses and messages."""

    def test_troubles(self):
        rows = [
            (["x.png"], 2, "--surface"),
            (["--surface", "-", "x.jpg"], 2, ".png"),
            (["--surface", "-", "--view", "3", "x.png"], 2, "2 numbers"),
            (["--surface", "-", "--size", "0,9", "x.png"], 2, "from 16"),
            (["--surface", "-", "x.png"], 1, "line 1"),
            (["--loops", "-", "x.png"], 1, "fku slice"),
            (["--outlines", "-", "x.png"], 1, "no END"),
            (["--surface", "-"], 2, "either OUT.png or --html"),
            (["--surface", "-", "--html", "x.html", "x.png"], 2, "either OUT.png or --html"),
            (["--surface", "-", "--html", "x.html", "--size", "99,99"], 2, "--size"),
            (["--surface", "-", "--unit", "1mm", "x.png"], 2, "--unit"),
            (["--surface", "-", "--unit", "mm", "--html", "x.html"], 2, "a number above 0"),
            (["--surface", "-", "--unit", "0mm", "--html", "x.html"], 2, "a number above 0"),
            (["--outlines", "-", "--mark", "x", "x.png"], 2, "--mark needs --surface"),
            (["--surface", f"{TOP}/examples/squares.byu", "--mark", "-", "x.png"], 1, "fku crossings"),
            (["--surface", f"{TOP}/examples/squares.byu", "--html", "/no such folder/x.html"], 4, "No such file"),
            (["--surface", "no such file", "x.png"], 3, "No such file"),
        ]
        for words, want, part in rows:
            with self.subTest(words=words):
                status, out, told = tool("show", words)
                self.assertEqual((status, out), (want, b""))
                self.assertIn(part, told)
