"""The reader by numpy takes exactly the texts that the reader line by line takes, and reads 100,000 triangles at once.
"""
import random
import sys
import time
import unittest

from fku import byu
from tests.common import file
from tests_with_packages.makers import needs

SIGNS = b" -+.0123456789E\n\r_\x00\xff"


def result(read, text):
    """Gives what a reader makes of a text; None where it refuses it."""
    try:
        mesh = read(text)
    except byu.FaultAt:
        return None
    return mesh and (mesh.points, mesh.parts)


def damaged(text, chance):
    """Gives a text with one or two signs changed, added, taken out or exchanged."""
    signs = bytearray(text)
    for _ in range(chance.randint(1, 2)):
        at, way = chance.randrange(len(signs)), chance.random()
        if way < 0.7:
            signs[at] = chance.choice(SIGNS)
        elif way < 0.8:
            del signs[at]
        elif way < 0.9:
            signs.insert(at, chance.choice(SIGNS))
        else:
            other = chance.randrange(len(signs))
            signs[at], signs[other] = signs[other], signs[at]
    return bytes(signs)


def large_text(triangles):
    """Gives a text of this many triangles."""
    points = [(7 * x - 999, 3 * y, z) for z in range(51) for y in range(30) for x in range(33)]
    chance = random.Random(2)
    lines = [byu.number_line([2, len(points), triangles, 3 * triangles]), byu.number_line([1, 9])]
    lines.append(byu.number_line([10, triangles]))
    for at in range(0, len(points), 2):
        lines.append(b"".join(byu.coordinate_field(it) for point in points[at : at + 2] for it in point) + b"\n")
    for _ in range(triangles):
        a, b, c = (chance.randint(1, len(points)) for _ in range(3))
        lines.append(byu.number_line([a, b, -c]))
    return b"".join(lines)


@needs("numpy")
class FastReading(unittest.TestCase):
    """Both readers on the same texts."""

    def same(self, text):
        """Sees that both readers give the same of a text, and says whether they take it."""
        from fku import fast_byu

        found = result(byu.parse_lines, text)
        self.assertEqual(result(fast_byu.parse, text), found, text)
        return found is not None

    def test_damaged_texts(self):
        chance, squares = random.Random(3), file("examples/squares.byu")
        taken = sum(self.same(damaged(squares, chance)) for _ in range(6000))
        self.assertGreater(taken, 100)
        self.assertLess(taken, 1500)

    def test_fields_of_all_kinds(self):
        squares = file("examples/squares.byu").split(b"\n")
        numbers = [
            b"       1", b"      01", b"      -1", b"     -01", b"00000001", b"12345678", b"        ", b"       -",
            b"1      1", b"      1 ", b"       0", b"      -0", b"       8", b"       9", b"-0000001",
        ]  # fmt: skip
        fields = [b" 0.00000E+00", b"-0.00000E+00", b" 1.00000E+01", b"-1.23456E+05", b" 0.10000E+01", b" 1.00001E+04",
                  b" 1.00000E+06", b" 1.00000E-00", b"+1.00000E+00", b" 9.99999E+05", b" 1.50000E+00"]  # fmt: skip
        taken = 0
        for field in numbers:
            for at in (0, 8, 16):
                lines = list(squares)
                lines[6] = lines[6][:at] + field + lines[6][at + 8 :]
                taken += self.same(b"\n".join(lines))
        for field in fields:
            for at in (0, 12, 60):
                lines = list(squares)
                lines[2] = lines[2][:at] + field + lines[2][at + 12 :]
                taken += self.same(b"\n".join(lines))
        self.assertGreater(taken, 10)

    def test_odd_counts_and_examples(self):
        for text in (file("examples/caudate.byu"), large_text(1000)):
            self.assertTrue(self.same(text))
            self.assertFalse(self.same(text[:-1]))
            self.assertFalse(self.same(text + b"\n"))

    def test_the_first_fault_of_a_long_text(self):
        text = large_text(5000)
        self.assertGreater(len(text), byu.LONG)
        at = text.rindex(b"-")
        with self.assertRaises(byu.FaultAt) as told:
            byu.parse(text[:at] + b"+" + text[at + 1 :])
        self.assertEqual(told.exception.line, text.count(b"\n"))

    def test_a_hundred_thousand_triangles(self):
        text = large_text(100000)
        byu.parse(text)
        begin = time.process_time()
        mesh = byu.parse(text)
        took = time.process_time() - begin
        self.assertEqual(len(mesh.triangles()), 100000)
        print(f"a surface of 100,000 triangles is read in {took:.3f} s", file=sys.stderr)
        self.assertLess(took, 0.5)
