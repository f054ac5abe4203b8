"""Texts of several objects: a real one against its objects alone, and many small ones."""
import re
import sys
import time
import unittest

from fku import byu, loops, section_text
from fku.section_text import Object, Section
from tests.common import file, fku, is_closed, volume

THALAMI = file("examples/thalami.txt")


def halves():
    """Gives the two objects of the real text, each as a text of version 1."""
    objects = section_text.read(THALAMI, "thalami.txt")
    return [section_text.text_of([Object("", it.sections)], "area", []) for it in objects]


def done(words, text):
    """Gives what the program writes, whose status must be 0."""
    status, out = fku(words, text)
    if status:
        raise AssertionError(f"status {status}: {out[:200]!r}")
    return out


def blocks(text):
    """Gives the blocks of `tilings`, each without the number of its pair."""
    head, *found = re.split(rb"(?m)^PAIR \d+ ", re.sub(rb"(?m)^(OBJECT .*|PAIRS \d+)\n", b"", text))
    if head:
        raise AssertionError(f"before the first pair stands {head!r}")
    return found


class RealObjects(unittest.TestCase):
    """The left and the right thalamus as two objects of one text, and each as a text of its own."""

    def same_surface(self, command):
        """Sees that the surface of both is the two surfaces, one behind the other, and closed; gives the three."""
        both = byu.parse(done([command], THALAMI))
        left, right = (byu.parse(done([command], it)) for it in halves())
        self.assertEqual(both.points, left.points + right.points)
        raised = [tuple(place + len(left.points) for place in triangle) for triangle in right.triangles()]
        self.assertEqual(both.parts, [left.triangles(), raised])
        return both, left, right

    def test_surface(self):
        both, left, right = self.same_surface("reconstruct")
        sum_of_both = volume(left.points, left.triangles()) + volume(right.points, right.triangles())
        self.assertEqual(volume(both.points, both.triangles()), sum_of_both)
        text = done(["reconstruct"], THALAMI)
        self.assertTrue(is_closed(text))
        counted = done(["count"], text)
        self.assertTrue(counted.startswith(b"PARTS 2\n") and counted.endswith(b"\nCLOSED yes\n"), counted)
        self.assertEqual(done(["reconstruct", "--workers=4"], THALAMI), text)

    def test_ring_caps(self):
        self.same_surface("ringcaps")

    def test_report(self):
        both, left, right = (
            [line.split() for line in done(["report"], it).decode().splitlines()] for it in (THALAMI, *halves())
        )
        self.assertEqual(both, [[word, str(int(a) + int(b))] for (word, a), (_, b) in zip(left, right)])

    def test_tilings(self):
        both, left, right = (done(["tilings"], it) for it in (THALAMI, *halves()))
        self.assertEqual(blocks(both), blocks(left) + blocks(right))
        pairs = [int(it) for it in re.findall(rb"(?m)^PAIR (\d+) ", both)]
        self.assertEqual(pairs, list(range(1, 44)))
        lines = both.splitlines()
        named = [at for at, line in enumerate(lines) if line.startswith(b"OBJECT ")]
        self.assertEqual([lines[at] for at in named], [b"OBJECT left", b"OBJECT right"])
        self.assertEqual(named, [0, 1 + 5 * len(blocks(left))])
        self.assertEqual(lines[-1], b"PAIRS 43")

    def test_slices(self):
        for height, names in [("8050", [b"left", b"right"]), ("6950", [b"right"])]:
            want = [b"OBJECT %b\n" % name + done(["slice", f"--height={height}"], half)
                    for name, half in zip((b"left", b"right"), halves()) if name in names]  # fmt: skip
            both = done(["slice", f"--height={height}"], THALAMI)
            self.assertEqual(both, b"".join(want))
            self.assertEqual(len(loops.read(both, "x")[1]), len(names))
        for height, words in [("8000", b"18 HEIGHT ON SECTION 8000"), ("6899", b"17 HEIGHT OUTSIDE 6899")]:
            self.assertEqual(fku(["slice", f"--height={height}"], THALAMI), (1, b"REFUSED %b\n" % words))

    def test_a_certificate(self):
        certificate = done(["certify", "--pair=30"], THALAMI)
        right = done(["certify", "--pair=9"], halves()[1])
        self.assertEqual(certificate, right.replace(b"PAIR 9 ", b"PAIR 30 ", 1))
        self.assertTrue(done(["check"], THALAMI + certificate).startswith(b"ACCEPT PAIR 30 COST "))

    def test_one_object_alone_is_wanted(self):
        for command in ("edit", "densify"):
            self.assertEqual(fku([command], THALAMI), (1, b"REFUSED 21 ONE OBJECT 2\n"))

    def test_one_object_with_a_name(self):
        (text, _), (left, _) = halves(), section_text.read(THALAMI, "thalami.txt")
        named = section_text.text_of([left], "area", [])
        self.assertIn(b"SECTIONS 2\nCOST area\nPAIR overlap\nOBJECT left\n", named)
        for words in (["reconstruct"], ["report"], ["densify"], ["edit"], ["certify", "--pair=2"]):
            self.assertEqual(done(words, named), done(words, text), words)
        self.assertEqual(done(["tilings"], named), b"OBJECT left\n" + done(["tilings"], text))


def small_objects(count):
    """Gives so many objects of one contour each, which all lie over one another: 256 points on a convex curve."""
    quarter = [(4096 - 64 * k, k * (128 - k)) for k in range(64)]
    half = quarter + [(-y, x) for x, y in quarter]
    points = half + [(-x, -y) for x, y in half]
    return [Object(f"o{at}", [Section(at, [(f"c{at}", points)])]) for at in range(count)]


class ManyObjects(unittest.TestCase):
    """Objects up to the limit. The times are told and judge nothing: they should rise as the number of objects."""

    def test_objects_of_one_contour(self):
        told = []
        for count in (256, 512, 1024):
            text = section_text.text_of(small_objects(count), "span", [])
            begin = time.perf_counter()
            surface = done(["reconstruct"], text)
            told.append(f"{count} in {time.perf_counter() - begin:.3f} s")
            counted = done(["count"], surface)
            numbers = (count, 256 * count, 508 * count)
            self.assertTrue(counted.startswith(b"PARTS %d\nVERTICES %d\nPOLYGONS %d\n" % numbers), counted)
            self.assertTrue(counted.endswith(b"\nCLOSED yes\n"))
            names = b"".join(b"OBJECT o%d\n" % at for at in range(count))
            self.assertEqual(done(["tilings"], text), names + b"PAIRS 0\n")
        print(f"objects of one contour of 256 points, reconstruct: {', '.join(told)}", file=sys.stderr)

    def test_one_object_too_many(self):
        named = "OBJECT o{0}\nSECTION 0\nCONTOUR c{0} 3\n0 0\n1 0\n0 1\n"
        head = "SECTIONS 2\nCOST span\nPAIR overlap\n"
        for count, want in [(1024, (0, b"OBJECT o0\n")), (1025, (1, b"REFUSED 5 LIMIT objects line 6148\n"))]:
            text = head + "".join(named.format(at) for at in range(count)) + "END\n"
            status, out = fku(["tilings"], text.encode())
            self.assertEqual((status, out[: len(want[1])]), want)
