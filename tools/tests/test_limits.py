"""The program at each limit and one past it, on the largest inputs, on cut inputs, and on what it has written itself.

The expected values were computed by hand, as the comments say.
"""
import re
import unittest

from tests import made_inputs as made
from tests.common import commands, fku
from tests.row_files import shared_text

TWO_SQUARES = shared_text("two_squares").encode()
TILINGS = shared_text("two_squares.tilings").encode()
BOX = shared_text("two_squares.byu").encode()
CERTIFICATE = shared_text("two_squares.certificate").encode()


class Answers(unittest.TestCase):
    """Comparisons of what the program answers."""

    def answer(self, words, text, status=0):
        """Gives the output of a run, which must end so."""
        found, output = fku(words.split(), text)
        self.assertEqual(found, status, output[:100])
        return output

    def prints(self, words, text, wanted):
        """A run is done and writes this, byte for byte; long texts are not shown."""
        output = self.answer(words, text)
        self.assertTrue(output == wanted, f"{words}: {len(output)} bytes: {output[:300]!r}")

    def begins(self, words, text, wanted):
        """A run is done and writes a text that begins so."""
        output = self.answer(words, text)
        self.assertEqual(output[: len(wanted)], wanted)
        return output

    def refuses(self, words, text, refusal):
        """A run is refused by these words."""
        self.assertEqual(self.answer(words, text, 1), f"REFUSED {refusal}\n".encode())


class Limits(Answers):
    """Inputs at each limit are taken, and one past it refused."""

    def test_bytes(self):
        longest = (TWO_SQUARES + b"#").ljust(67_108_864, b"x")
        self.prints("tilings", longest, TILINGS)
        self.refuses("tilings", longest + b"x", "5 LIMIT bytes line 0")

    def test_bytes_of_a_surface(self):
        self.refuses("count", b" " * 268_435_456, "27 BYU FORM line 1")
        for words, text in commands():
            if text == "MOVIE.BYU file":
                self.refuses(words, b" " * 268_435_457, "5 LIMIT bytes line 0")

    def test_sections_contours_and_vertices(self):
        for numbers in ((16384, 1, 3, 3), (16, 4096, 3, 3), (1, 1, 4096, 4096), (1, 4, 4096, 4096), (512, 4, 1024, 1024)):
            with self.subTest(numbers):
                self.prints("tilings", made.combs(*numbers), b"PAIRS 0\n")
        for numbers, refusal in (
            ((1, 1, 4096, 4097), "5 LIMIT contour_vertices line 5"),
            ((1, 8, 2048, 2049), "5 LIMIT section_vertices line 14348"),
            ((512, 4, 1024, 1025), "5 LIMIT vertices line 2098691"),
        ):
            with self.subTest(numbers):
                self.refuses("tilings", made.combs(*numbers), refusal)
        self.begins("report", made.triangles(16384, 0, 1), b"SECTIONS 16384\nCONTOURS 1\n")
        self.refuses("tilings", made.triangles(16385, 0, 1), "5 LIMIT sections line 16388")
        self.refuses("tilings", made.triangles(16, 4096, 4097), "5 LIMIT contours line 262164")
        crowded = made.comb(0, 4, 4096, 4096) + made.contour("t", [(0, 5), (1, 5), (0, 6)])
        self.refuses("tilings", made.text([crowded]), "5 LIMIT section_vertices line 16393")

    def test_points_of_a_contour(self):
        above = made.section(10, made.square("b"))
        for count in (4096, 4097):
            text = made.text([made.section(0, made.flat("a", count, 0, 0, 10)), above])
            if count == 4096:
                self.begins("tilings", text, b"PAIR 1 GAP 1\nBELOW a\nABOVE b\nROWS 4096 COLS 4 ")
            else:
                self.refuses("tilings", text, "5 LIMIT contour_vertices line 5")

    def test_objects(self):
        counts = b"PARTS 1024\nVERTICES 3072\nPOLYGONS 2048\nEDGES 3072\nCLOSED yes\n"
        self.prints("count", self.answer("reconstruct", made.objects_of_triangles(1024)), counts)
        self.refuses("reconstruct", made.objects_of_triangles(1025), "5 LIMIT objects line 6148")

    def test_links(self):
        output = self.begins("tilings", made.all_linked(), b"PAIR 1 GAP 1\nBELOW c0_0 c0_1 ")
        self.assertTrue(output.endswith(b"PAIRS 1\n"))
        self.refuses("tilings", made.all_linked("LINK c0_0 c1_0\n"), "5 LIMIT links line 134150")
        squares = [made.section(0, made.square("a")), made.section(10, made.square("b"))]
        self.refuses("tilings", made.text(squares, "links", "LINK a b\n" * 131_073), "5 LIMIT links line 131088")

    def test_composites(self):
        for count in (2047, 2048):
            above = made.section(10, made.flat("b", count, 0, 0, 5), made.flat("c", 2047, 0, 10, 15))
            below = made.section(0, made.contour("a", [(0, 0), (2400, 0), (2400, 20), (0, 20)]))
            text = made.text([below, above])
            if count == 2047:
                self.begins("tilings", text, b"PAIR 1 GAP 1\nBELOW a\nABOVE b c\nROWS 4 COLS 4096 ")
            else:
                self.refuses("tilings", text, "11 COMPOSITE LIMIT section 2 count 4097")

    def test_edits(self):
        edits = b"MOVE b 0 0 0\n"
        most = self.answer("edit", TWO_SQUARES + 1000 * edits + b"# no edit\n")
        self.assertTrue(most.endswith(b"EDIT 1000 DONE solved 0 reused 1\nEDITS 1000\n" + BOX))
        self.refuses("edit", TWO_SQUARES + 1001 * edits, "5 LIMIT edits line 1017")
        crossing = made.text([made.section(0, made.contour("c", [(0, 0), (10, 10), (10, 0), (0, 10)]))])
        self.refuses("edit", crossing + 1001 * b"DROP c\n", "8 SELF CROSSING c 0 2")

    def test_names(self):
        """A name has ASCII letters, digits, `_`, `-` and `.`: no other letter, and no byte 0."""
        for name in (b"-", b"."):
            text = TWO_SQUARES.replace(b"CONTOUR a 4", b"CONTOUR " + name + b" 4")
            self.prints("tilings", text, TILINGS.replace(b"BELOW a\n", b"BELOW " + name + b"\n"))
        for name in (b"\xc3\xa9", b"a\0"):
            text = TWO_SQUARES.replace(b"CONTOUR a 4", b"CONTOUR " + name + b" 4")
            self.refuses("tilings", text, "1 FORM line 5")

    def test_over_all_objects(self):
        """What is counted is counted over all objects of a text."""
        for first, second, refusal in (
            ((16000, 0, 3, 0), (385, 0, 3, 0), "5 LIMIT sections line 16390"),
            ((8, 4096, 3, 0), (8, 4097, 3, 0), "5 LIMIT contours line 262166"),
            ((64, 4, 4096, 0), (65, 4, 4096, 0), "5 LIMIT vertices line 2097799"),
            ((1, 0, 3, 131_000), (1, 0, 3, 73), "5 LIMIT links line 131080"),
        ):
            with self.subTest(refusal):
                self.refuses("tilings", made.two_objects(first, second), refusal)

    def test_letters(self):
        word, rest = CERTIFICATE.split(b"\n", 2)[1:]
        self.assertEqual(word, b"WORD VHVHVHVH")
        head = TWO_SQUARES + CERTIFICATE.split(b"\n", 1)[0] + b"\nWORD "
        self.prints("check", head + 8192 * b"V" + b"\n" + rest, b"REJECT WORD\n")
        self.refuses("check", head + 8193 * b"V" + b"\n" + rest, "12 CERT FORM line 18")

    def test_added_contours(self):
        """Of two contours that are added, one is past a limit. The sections are unlinked, so no pair is solved. The
        limit of all vertices is tried in tools/tests_with_packages, since that takes longer.
        """
        done = "DONE solved 0 reused 0"
        for shape, first, second in (
            ((1, 1, 3), (4097, "REFUSED 5 LIMIT contour_vertices"), (4096, done)),
            ((1, 4, 4095), (5, "REFUSED 5 LIMIT section_vertices"), (4, done)),
            ((1, 1024, 16), (4097, "REFUSED 5 LIMIT contour_vertices"), (3, "REFUSED 5 LIMIT section_vertices")),
            ((4369, 15, 3), (3, done), (3, "REFUSED 5 LIMIT contours")),
        ):
            with self.subTest(shape):
                edits = made.addition("d", 100_000, first[0]) + made.addition("e", 200_000, second[0])
                answers = f"EDIT 1 {first[1]}\nEDIT 2 {second[1]}\nEDITS 2\n"
                sections, contours, points = shape
                self.begins("edit", made.combs(sections, contours, points, points) + edits, answers.encode())

    def test_inserted_vertices(self):
        """Two vertices are inserted after the last one of the first contour, where one more is allowed."""
        for shape, limit in (
            ((1, 1, 4095), "contour_vertices"),
            ((1, 43, 381), "section_vertices"),
        ):
            with self.subTest(shape):
                sections, contours, points = shape
                edits = f"INSERT c0_0 {points} 0 0\nINSERT c0_0 {points + 1} 0 0\n"
                answers = f"EDIT 1 DONE solved 0 reused 0\nEDIT 2 REFUSED 5 LIMIT {limit}\nEDITS 2\n"
                text = made.combs(sections, contours, points, points) + edits.encode()
                self.begins("edit", text, answers.encode())

    def test_densified(self):
        """8,192 sections with 8,191 between them, and one more of each; a loop of 2,049 and 2,049 points, none of them
        one.
        """
        stack = made.squares([f"c{k}" for k in range(8192)], apart=2)
        self.assertEqual(self.answer("densify", stack).count(b"SECTION "), 16383)
        stack = made.squares([f"c{k}" for k in range(8193)], apart=2)
        self.refuses("densify", stack, "28 MID 5 LIMIT sections line 0")
        self.refuses("densify", made.demo(7, 2, 2049), "28 MID 5 LIMIT contour_vertices line 0")


class LongCaps(Answers):
    """`ringcaps` refuses a cap of more than 4,096 vertices after all other faults."""

    def ring(self, outer):
        """Gives a long outline with a long hole in it."""
        return made.flat("o", outer, 100, 0, 100, apart=2) + made.flat("h", 2047, 201, 10, 15)

    def stack(self, outer, tail):
        """Gives sections of which the second has such a ring, and a small hole `g` that may be linked to one below and
        to one above; the tail follows the third.
        """
        big = [(590, 10), (620, 10), (620, 40), (590, 40)]
        small = [(600, 20), (610, 20), (610, 30), (600, 30)]
        return made.text(
            [
                made.section(0, made.contour("p", big), made.contour("q", small)),
                made.section(10, self.ring(outer), made.contour("g", small)),
                made.section(20, made.contour("u", big), made.contour("v", small)),
            ],
            "links",
            tail,
        )

    def test_order(self):
        """With `g` a group has 6 vertices more."""
        crossing = made.section(30, made.contour("c", [(0, 0), (4, 4), (4, 0), (0, 4)]))
        touching = made.contour("c", [(620, 40), (630, 40), (630, 50), (620, 50)])
        for outer, tail, refusal in (
            (2056, "", "26 CAP LIMIT section 2 count 4111"),
            (2056, "LINK q g\n", "26 CAP LIMIT section 2 count 4105"),
            (2056, "LINK g v\n", "26 CAP LIMIT section 2 count 4111"),
            (2047, "LINK q g\n", "26 CAP LIMIT section 2 count 4102"),
            (2056, "LINK g z\n", "10 LINK g z UNKNOWN"),
            (2056, crossing, "8 SELF CROSSING c 0 2"),
            (2056, touching, "9 CROSSING u c"),
        ):
            with self.subTest(refusal):
                self.refuses("ringcaps", self.stack(outer, tail), refusal)

    def test_of_objects(self):
        """It comes after the faults of all objects."""
        long = [made.section(10, self.ring(2056))]
        squares = [made.section(0, made.square("a")), made.section(10, made.square("b"))]
        crossed = [made.section(0, made.contour("c", [(0, 0), (9, 9), (9, 0), (0, 9)]))]
        for first, second, refusal in (
            (squares, long, "26 CAP LIMIT section 1 count 4105"),
            (long, squares, "26 CAP LIMIT section 1 count 4105"),
            (long, crossed, "8 SELF CROSSING c 0 2"),
        ):
            with self.subTest(refusal):
                self.refuses("ringcaps", made.objects(first, second), refusal)

    def test_longest(self):
        """Each cap of a group of 4,094 vertices has 4,094 triangles: the bridge is passed twice."""
        longest = made.text([made.section(0, self.ring(2047))])
        self.begins("ringcaps", longest, b"       1    4094    8188   24564\n")

    def test_a_long_composite_comes_first(self):
        text = made.text(
            [
                made.section(0, self.ring(2056)),
                made.section(10, made.flat("a", 2048, 0, 0, 5), made.flat("b", 2047, 0, 10, 15)),
                made.section(20, made.contour("c", [(0, 0), (600, 0), (600, 20), (0, 20)])),
            ],
            "links",
            "LINK a c\nLINK b c\n",
        )
        self.refuses("ringcaps", text, "11 COMPOSITE LIMIT section 2 count 4097")


class Cut(Answers):
    """Texts that are cut after each of their bytes."""

    def test_sections(self):
        for length in range(len(TWO_SQUARES) - 1):
            self.answer("tilings", TWO_SQUARES[:length], 1)
        self.prints("tilings", TWO_SQUARES[:-1], TILINGS)

    def test_certificate(self):
        whole = TWO_SQUARES + CERTIFICATE
        for length in range(len(TWO_SQUARES), len(whole) - 1):
            output = self.answer("check", whole[:length], 1)
            self.assertTrue(output.startswith(b"REFUSED 12 CERT FORM line "), (length, output))
        self.prints("check", whole[:-1], b"ACCEPT PAIR 1 COST 1200\n")

    def test_surface(self):
        """The fault of a surface that is cut is in the line where it ends."""
        for length in range(len(BOX)):
            self.refuses("count", BOX[:length], f"27 BYU FORM line {BOX[:length].count(10) + 1}")


class Long(Answers):
    """A pair of 1,000 by 1,000, 1,024 sections, 65,536 vertices, and texts of more than a megabyte."""

    def test_pair(self):
        """The spans of a tiling that stand upright cost 100 each, the others 200 along the long sides and 1,000,100
        along the short ones: 1000 * 100 + 998 * 200 + 2 * 1000100. Six times the volume is 6 * 4990 * 1000 * 10.
        """
        text = made.box(2, 500)
        head = b"CERT 1 PAIR 1 ROWS 1000 COLS 1000 COST 2299800 START 0\nWORD VHVHVHVH"
        certificate = self.begins("certify", text, head)
        self.prints("check", text + certificate, b"ACCEPT PAIR 1 COST 2299800\n")
        self.begins("landmarks", text + b"MARK 1 0 0\n", b"PAIR 1 MARKS 1 COST 2299800 AT 0 0\nWORD VHVHVHVH")
        self.begins("slice --height=5", text, b"SLICE 5 DEN 10 LOOPS 1\nLOOP 2000\n0 0\n50 0\n100 0\n")
        report = b"SECTIONS 2\nCONTOURS 2\nVERTICES 2000\nTRIANGLES 3996\nFOLDED 0\nPAIRS 1\nCOST 2299800\n"
        self.prints("report", text, report + b"SIXVOLUME 299400000\n")

    def test_surface(self):
        """1,023 strips of 128 triangles and two caps of 62. A tiling costs 64 * 100 + 62 * 200 + 2 * 1000100, six times
        the volume is 6 * 310 * 1000 * 10230, and there are 65536 + 131068 - 2 edges, by Euler's formula. Where a vertex
        is moved to where it stands, every pair is reused.
        """
        text = made.box(1024, 32)
        surface = self.begins("reconstruct", text, b"       1   65536  131068  393204\n       1  131068\n")
        self.assertEqual(len(surface), 50 + 32_768 * 73 + 131_068 * 25)
        report = b"SECTIONS 1024\nCONTOURS 1024\nVERTICES 65536\nTRIANGLES 131068\nFOLDED 0\nPAIRS 1023\n"
        self.prints("report", text, report + b"COST 2065437000\nSIXVOLUME 19027800000\n")
        counts = b"PARTS 1\nVERTICES 65536\nPOLYGONS 131068\nEDGES 196602\nCLOSED yes\n"
        self.prints("count", surface, counts)
        self.prints("ringcaps", text, surface)
        answers = b"EDIT 1 DONE solved 0 reused 1023\nEDITS 1\n"
        self.prints("edit", text + b"MOVE c0 0 0 0\n", answers + surface)

    def test_tilings(self):
        pair = "PAIR {0} GAP {0}\nBELOW c{1}\nABOVE c{0}\nROWS 64 COLS 64 COST 2019000 START 0\nWORD {2}\n"
        pairs = "".join(pair.format(k, k - 1, 64 * "VH") for k in range(1, 1024))
        self.prints("tilings", made.box(1024, 32), f"{pairs}PAIRS 1023\n".encode())

    def test_last_pair(self):
        """The last of 1,023 pairs is found by its number, by a mark and by its height."""
        text = made.box(1024, 32)
        head = b"CERT 1 PAIR 1023 ROWS 64 COLS 64 COST 2019000 START 0\nWORD VHVHVHVH"
        certificate = self.begins("certify --pair=1023", text, head)
        self.prints("check", text + certificate, b"ACCEPT PAIR 1023 COST 2019000\n")
        self.begins("landmarks", text + b"MARK 1023 0 0\n", b"PAIR 1023 MARKS 1 COST 2019000 AT 0 0\nWORD VHVHVHVH")
        self.begins("slice --height=10225", text, b"SLICE 10225 DEN 10 LOOPS 1\nLOOP 128\n0 0\n50 0\n100 0\n")

    def test_densified(self):
        """42 sections of 400 points, and 41 of 800 between them."""
        self.prints("densify", made.box(42, 200), made.dense_box(42, 200))

    def test_made_stacks(self):
        """Of 64 contours of 300 vertices: 63 strips of 600 triangles and two caps of 298. Of 40 of 200: 39 strips of
        400, two caps of 198, and half as many edges again as triangles.
        """
        head = b"       1   19200   38396  115188\n       1   38396\n"
        surface = self.begins("reconstruct", made.demo(7, 64, 300), head)
        self.assertEqual(len(surface), len(head) + 9600 * 73 + 38396 * 25)
        surface = self.answer("reconstruct", made.demo(7, 40, 200))
        self.prints("count", surface, b"PARTS 1\nVERTICES 8000\nPOLYGONS 15996\nEDGES 23994\nCLOSED yes\n")

    def test_made_reports(self):
        """`demo` reports of a stack what `report` tells of its text: 63 strips of 2,000 triangles, two caps of 998."""
        head = b"SECTIONS 64\nCONTOURS 64\nVERTICES 64000\nTRIANGLES 127996\n"
        report = self.begins("report", made.demo(7, 64, 1000), head)
        self.prints("demo 7 64 1000", b"", b"DEMO 7 64 1000\n" + report)
        head = b"SECTIONS 2\nCONTOURS 2\nVERTICES 2000\nTRIANGLES 3996\n"
        report = self.begins("report", made.demo(1, 2, 1000), head)
        self.assertIn(b"\nPAIRS 1\n", report)
        for _ in range(2):
            self.prints("demo 1 2 1000", b"", b"DEMO 1 2 1000\n" + report)
        report = self.begins("report", made.demo(2_147_483_647, 64, 1000), b"SECTIONS 64\nCONTOURS 64\nVERTICES 64000\n")
        self.prints("demo 2147483647 64 1000", b"", b"DEMO 2147483647 64 1000\n" + report)


class Chains(Answers):
    """What one command writes is what another one takes."""

    def test_surfaces_are_closed(self):
        branch = made.text(
            [
                made.section(0, made.contour("a", [(0, 0), (30, 0), (30, 10), (0, 10)])),
                made.section(10, made.square("b"), made.contour("c", [(20, 0), (30, 0), (30, 10), (20, 10)])),
            ]
        )
        tubes = shared_text("two_tubes").encode()
        for text in (branch, tubes, tubes.replace(b"COST span", b"COST area")):
            surface = self.answer("reconstruct", text)
            self.assertTrue(self.answer("count", surface).endswith(b"CLOSED yes\n"))

    def test_certificates_are_accepted(self):
        text = shared_text("three_heights").encode()
        self.prints("check", text + self.answer("certify", text), b"ACCEPT PAIR 1 COST 1200\n")
        self.prints("check", text + self.answer("certify --pair=2", text), b"ACCEPT PAIR 2 COST 3600\n")
        text = shared_text("three_objects").encode()
        certificate = self.begins("certify --pair 2", text, b"CERT 1 PAIR 2 ROWS 4")
        self.prints("check", text + certificate, b"ACCEPT PAIR 2 COST 1200\n")

    def test_certificates_of_a_stack(self):
        """They are accepted with the costs that `tilings` prints, here of three of 39 pairs."""
        text = made.demo(7, 40, 200)
        costs = re.findall(rb"COST (\d+)", self.answer("tilings --workers 4", text))
        self.assertEqual(len(costs), 39)
        for pair in (1, 20, 39):
            certificate = self.answer(f"certify --pair={pair}", text)
            self.prints("check", text + certificate, b"ACCEPT PAIR %d COST %s\n" % (pair, costs[pair - 1]))

    def test_edited_sections(self):
        """What did not change is not solved again, and the last surface is that of the edited sections alone."""
        edits = b"MOVE s2 2 12 12\nDROP s4\nMOVE s2 2 10 10\n"
        answers = b"EDIT 1 DONE solved 2 reused 2\nEDIT 2 DONE solved 0 reused 3\n"
        answers += b"EDIT 3 DONE solved 2 reused 1\nEDITS 3\n"
        names = ["s0", "s1", "s2", "s3", "s4"]
        surface = self.answer("reconstruct", made.squares(names[:4]))
        self.prints("edit --workers 3", made.squares(names) + edits, answers + surface)
        edits = b"MOVE c 2 12 12\nMOVE c 2 10 10\n"
        answers = b"EDIT 1 DONE solved 1 reused 1\nEDIT 2 DONE solved 1 reused 1\nEDITS 2\n"
        three = made.squares(["a", "b", "c"])
        self.prints("edit --workers 3", three + edits, answers + self.answer("reconstruct", three))

    def test_densified_sections(self):
        """The walls of a box stay flat: each strip of 4 and 8 vertices costs 500, and the volume is that of the box."""
        dense = self.answer("densify", TWO_SQUARES)
        report = b"SECTIONS 3\nCONTOURS 3\nVERTICES 16\nTRIANGLES 28\nFOLDED 0\nPAIRS 2\nCOST 1000\nSIXVOLUME 6000\n"
        self.prints("report", dense, report)
        counts = b"PARTS 1\nVERTICES 16\nPOLYGONS 28\nEDGES 42\nCLOSED yes\n"
        self.prints("count", self.answer("reconstruct", dense), counts)

    def test_one_object(self):
        """A text of one named object is answered as the same text of version 1, whatever its name."""
        named = shared_text("one_object").encode()
        for words, more in (
            ("reconstruct", b""),
            ("ringcaps", b""),
            ("report", b""),
            ("certify", b""),
            ("edit", b"MOVE a 0 1 1\n"),
            ("edit", b""),
            ("landmarks", b"MARK 1 0 2\n"),
            ("densify", b""),
            ("certify --pair=2", b""),
            ("slice --height=10", b""),
        ):
            with self.subTest(words):
                self.assertEqual(fku(words.split(), named + more), fku(words.split(), TWO_SQUARES + more))
