"""What `explain` says of the faults that are made most, and that other tools recognize a refusal."""
import os
import shutil
import subprocess
import sys
import tempfile
import unittest

from fku import explaining, faults, section_text
from tests.common import PROGRAM, TOOLS, file, fku, tool

HEAD = "SECTIONS 1\nCOST span\nPAIR overlap\n"
A = "CONTOUR a 4\n0 0\n10 0\n10 10\n0 10\n"
B = "CONTOUR b 4\n0 0\n10 0\n10 10\n0 10\n"
GOOD = f"{HEAD}SECTION 0\n{A}SECTION 10\n{B}END\n"
LINKS = GOOD.replace("overlap", "links")
NAMED = f"SECTIONS 2\nCOST span\nPAIR overlap\nOBJECT p\nSECTION 0\n{A}OBJECT q\nSECTION 0\n{B}END\n"


def with_line(number, line, text=GOOD):
    """Gives a text with one line, counted from 1, replaced; without it where the line is None."""
    lines = text.split("\n")
    lines[number - 1 : number] = [] if line is None else line.split("\n")
    return "\n".join(lines)


def contour(name, *points):
    """Gives the lines of a contour."""
    return f"CONTOUR {name} {len(points)}\n" + "".join(f"{x} {y}\n" for x, y in points)


def section(*contours):
    """Gives a text of one section with these contours."""
    return f"{HEAD}SECTION 0\n{''.join(contours)}END\n"


# A text, the refusal's words, and what the explanation says.
FORMS = [
    ("\ufeff" + GOOD, "1 FORM line 1", ["byte order mark"]),
    (GOOD.encode("utf-16"), "1 FORM line 1", ["UTF-16"]),
    (GOOD.replace("\n", "\r"), "1 FORM line 1", ["carriage return", "tr "]),
    ("", "6 END MISSING", ["the text is empty"]),
    ("x,y,z\n0,0,0\n", "1 FORM line 1", ["not a section text", "`tools/contours FILE`"]),
    (b"PK\3\4\0\0\n", "1 FORM line 1", ["not a section text", "docs/importing.md"]),
    (with_line(1, "SECTION 0"), "1 FORM line 1", ["version is missing", "`SECTIONS 1`"]),
    (with_line(1, "SECTIONS 3"), "1 FORM line 1", ["`SECTIONS` is followed by other words"]),
    (with_line(2, None), "1 FORM line 2", ["rule of cost is missing", "`COST area`"]),
    (with_line(2, "COST volume"), "1 FORM line 2", ["COST", "`COST mix a b`"]),
    (with_line(2, "COST mix 2"), "1 FORM line 2", ["`COST mix 2 1`"]),
    (with_line(3, None), "1 FORM line 3", ["rule of pairs is missing"]),
    (with_line(4, None), "1 FORM line 4", ["a contour needs a section first"]),
    (with_line(4, "section 0"), "1 FORM line 4", ["small letters", "`SECTION`"]),
    (with_line(4, "SECTON 0"), "1 FORM line 4", ["perhaps `SECTION` is meant"]),
    (with_line(4, "SECTION 0.5"), "1 FORM line 4", ["a decimal point", "by 10;", "0.1 of yours"]),
    (with_line(4, "SECTION 0 first"), "1 FORM line 4", ["nothing else"]),
    (with_line(5, "0 0"), "1 FORM line 5", ["outside of a contour"]),
    (with_line(5, "CONTOUR left lobe 4"), "1 FORM line 5", ["the name `left lobe`", "`left_lobe`"]),
    (with_line(5, "CONTOUR caf\u00e9 4"), "1 FORM line 5", ["the name `caf\u00e9`", "`caf`"]),
    (with_line(5, "CONTOUR a+ 4"), "1 FORM line 5", ["the name `a+`"]),
    (with_line(5, "CONTOUR " + 65 * "a-" + " 4"), "1 FORM line 5", ["130 letters, and the limit is 64"]),
    (with_line(5, "CONTOUR " + 100 * "a" + " 4"), "1 FORM line 5", ["100 letters, and the limit is"]),
    (with_line(5, "CONTOUR a"), "1 FORM line 5", ["no integer, the number of points"]),
    (with_line(5, "CONTOUR a four"), "1 FORM line 5", ["no integer, the number of points", "`CONTOUR a k`"]),
    (with_line(6, "0.25 0"), "1 FORM line 6", ["`0.25` has a decimal point", "by 100;", "0.01 of yours", "line 5"]),
    (with_line(6, "20000.25 0"), "1 FORM line 6", ["by 10 and round"]),
    (with_line(6, "10.0 0"), "1 FORM line 6", ["a decimal point", "10 for 10.0"]),
    (with_line(6, "1e1 0"), "1 FORM line 6", ["an exponent"]),
    (with_line(6, "+5 0"), "1 FORM line 6", ["a plus sign", "`5`"]),
    (with_line(6, "0,5 3,25"), "1 FORM line 6", ["decimal commas", "by 100;"]),
    (with_line(6, "0, 0"), "1 FORM line 6", ["commas between the numbers", "blanks in their place"]),
    (with_line(6, "0,0"), "1 FORM line 6", ["commas between the numbers"]),
    (with_line(6, "0;0"), "1 FORM line 6", ["commas between the numbers"]),
    (with_line(6, "(0, 0)"), "1 FORM line 6", ["brackets around the numbers", "blanks in their place"]),
    (with_line(6, "0 0 0"), "1 FORM line 6", ["three numbers", "`SECTION z`"]),
    (with_line(6, "0"), "1 FORM line 6", ["1 words", "one point on each line"]),
    (with_line(6, "0 0 # first"), "1 FORM line 6", ["comment after other words"]),
    (with_line(6, "\u22125 0"), "1 FORM line 6", ["minus sign", "plain `-`"]),
    (with_line(6, "0\u00a00"), "1 FORM line 6", ["no-break space", "plain blanks"]),
    (with_line(6, "zero 0"), "1 FORM line 6", ["point 1 of the 4 of contour a"]),
    (with_line(9, None), "1 FORM line 9", ["has 3 point lines, and its line says 4", "`CONTOUR a 3` on line 5"]),
    (with_line(9, "0 10\n0 5"), "1 FORM line 10", ["has 5 point lines, and its line says 4", "`CONTOUR a 5` on line"]),
    (with_line(9, "0 10\n0 0"), "1 FORM line 10", ["its first point again", "take the line out"]),
    (with_line(15, "0 10\nLINK a b"), "1 FORM line 16", ["`PAIR links` on the third line"]),
    (with_line(10, "OBJECT q"), "1 FORM line 10", ["`SECTIONS 2` on the first line"]),
    (with_line(4, None, NAMED), "1 FORM line 4", ["`OBJECT name`"]),
    (with_line(4, "OBJECT the one", NAMED), "1 FORM line 4", ["`the_one`"]),
    (with_line(10, "LINK a b\nSECTION 10", LINKS), "1 FORM line 11", ["after the object's last contour"]),
    (with_line(15, "0 10\nCOST area"), "1 FORM line 16", ["in the head alone"]),
    (GOOD + "MOVE a 0 1 1\n", "1 FORM line 17", ["after END"]),
    (GOOD.replace("END", "FINIS"), "1 FORM line 16", ["none of those that may stand there", "`END`"]),
]

OTHERS = [
    (with_line(6, "1500000 0"), "2 RANGE line 6", ["1500000 is out of the range", "by 2 or more"]),
    (with_line(2, "COST mix 0 0"), "2 RANGE line 2", ["weight", "from 0 to 1000"]),
    (with_line(11, "CONTOUR a 4"), "3 NAME TWICE line 11", ["the contour on line 5"]),
    (with_line(11, "OBJECT p", NAMED), "3 NAME TWICE line 11", ["the object on line 4"]),
    (with_line(10, "SECTION -3"), "4 HEIGHT NOT RISING line 10", ["on line 4, has the height 0", "sort the sections"]),
    (with_line(10, "SECTION 0"), "4 HEIGHT NOT RISING line 10", ["contours of both into one section"]),
    (with_line(5, "CONTOUR a 2"), "5 LIMIT contour_vertices line 5", ["three points at least"]),
    (with_line(5, "CONTOUR a 100000"), "5 LIMIT contour_vertices line 5", ["the limit of contour points", "thin"]),
    (with_line(16, None), "6 END MISSING", ["after line 15", "write END"]),
    (GOOD[: GOOD.index("0 10\nEND")], "6 END MISSING", ["1 more of the points of contour b", "cut off"]),
    (f"{HEAD}SECTION 0\nEND\n", "7 NO CONTOURS", ["no contour in the text"]),
    (NAMED.replace(B, ""), "7 NO CONTOURS", ["object q has no contour"]),
    (section(contour("a", (0, 0), (9, 0), (9, 9), (0, 9), (0, 0))), "8 SELF CROSSING a 0 3",
     ["its first one again", "take line 10 out, and write `CONTOUR a 4` on line 5"]),
    (section(contour("a", (0, 0), (9, 0), (9, 0), (9, 9), (0, 9))), "8 SELF CROSSING a 0 1",
     ["(9, 0) twice in a row", "`CONTOUR a 4`"]),
    (section(contour("a", (0, 0), (9, 9), (9, 0), (0, 8))), "8 SELF CROSSING a 0 2",
     ["from (0, 0) to (9, 9) (lines 6 and 7)", "from (9, 0) to (0, 8) (lines 8 and 9)", "cross at (4.235, 4.235)"]),
    (section(contour("a", (0, 0), (9, 0), (9, 9), (5, 0), (0, 9))), "8 SELF CROSSING a 0 2", ["touch at (5, 0)"]),
    (section(contour("a", (0, 0), (9, 0), (4, 0), (0, 9))), "8 SELF CROSSING a 0 1",
     ["share all from (4, 0) to (9, 0)"]),
    (section(A, contour("c", (5, 5), (20, 5), (5, 20))), "9 CROSSING a c",
     ["of the contours a and c", "(lines 7 and 8)", "(lines 11 and 12)", "cross at (10, 5)", "at height 0"]),
    (section(A, contour("c", (10, 0), (20, 5), (15, 20))), "9 CROSSING a c", ["touch at (10, 0)"]),
    (section(A, contour("c", (10, 0), (0, 0), (0, 10), (10, 10))), "9 CROSSING a c", ["the same points", "leave one"]),
    (LINKS.replace("END", "LINK a c\nEND"), "10 LINK a c UNKNOWN", ["the name c"]),
    (LINKS.replace("END", "LINK b a\nEND"), "10 LINK b a NOT NEIGHBOURS", ["the other way round"]),
    (LINKS.replace("END", "LINK a a\nEND"), "10 LINK a a NOT NEIGHBOURS", ["both contours are in the section"]),
    (LINKS.replace("END", "LINK a b\nLINK a b\nEND"), "10 LINK a b REPEATED", ["> 17", "  16"]),
    (with_line(10, contour("h", (3, 3), (6, 3), (6, 6)) + "SECTION 10", LINKS).replace("END", "LINK h b\nEND"),
     "10 LINK h b DEPTH DIFFERS", ["holes with holes"]),
]  # fmt: skip


def comb(teeth, x):
    """Gives the points of a comb of so many teeth, whose box begins at x."""
    return [(x + 2 * at + k, y) for at in range(teeth) for k, y in ((0, 0), (1, 50))] + [(x + 2 * teeth, 60), (x, 60)]


class Explain(unittest.TestCase):
    """The words of the tool."""

    def see(self, text, refusal, parts, *call):
        """Sees that the program refuses a text so, and that the explanation has these parts; where the words of a call
        are given, that the tool prints it.
        """
        data = text if isinstance(text, bytes) else text.encode()
        status, out = fku([*call] or ["report"], data)
        self.assertEqual((status, out), (1, f"REFUSED {refusal}\n".encode()))
        lines = "\n".join(explaining.lines_for("-", data, faults.parse(out)))
        self.assertTrue(lines.startswith(f"-: REFUSED {refusal}\n"), lines)
        for part in parts:
            self.assertIn(part, lines)
        self.assertIn("\nwhat to do: ", lines)
        if call:
            self.assertEqual(tool("explain", ["-", *call], data), (1, f"{lines}\n".encode(), ""))

    def test_forms(self):
        for text, refusal, parts in FORMS:
            with self.subTest(refusal=refusal, parts=parts):
                self.see(text, refusal, parts)

    def test_others(self):
        for text, refusal, parts in OTHERS:
            with self.subTest(refusal=refusal):
                self.see(text, refusal, parts)

    def test_what_is_shown(self):
        out = tool("explain", ["-"], with_line(8, "10 10.5").encode())[1].decode()
        self.assertEqual(out.split("\n"), [
            "-: REFUSED 1 FORM line 8",
            "",
            "  5  CONTOUR a 4",
            "  ..",
            "> 8  10 10.5",
            "",
            "what is wrong: `10.5` has a decimal point, and coordinates and heights are integers",
            "where: contour a (line 5), in the section at height 0 (line 4)",
            "what may stand there: point 3 of the 4 of contour a: two integers, x and y",
            "what to do: multiply all coordinates and heights by 10; a whole unit is then 0.1 of yours, also in the "
            "surface; the calls of the Python package do this by themselves: docs/python.md",
            "",
        ])

    def test_lines_that_end_in_two_bytes(self):
        text = with_line(6, "0.5 0").replace("\n", "\r\n")
        self.see(text, "1 FORM line 6", ["`0.5` has a decimal point", "> 6  0.5 0\n"])
        self.assertEqual(tool("explain", ["-"], GOOD.replace("\n", "\r\n").encode())[0], 0)

    def test_long_composites(self):
        most = section_text.MOST_CONTOUR_VERTICES
        teeth = (most - 2) // 2
        combs = [contour(f"a{at}", *comb(teeth, at * (2 * teeth + 9))) for at in range(2)]
        wide = contour("b", (0, 0), (5 * teeth + 20, 0), (5 * teeth + 20, 60), (0, 60))
        two = f"SECTIONS 2\nCOST span\nPAIR overlap\nOBJECT p\nSECTION 0\n{A}OBJECT q\nSECTION -5\nSECTION 0\n"
        count = 2 * (2 * teeth + 2) + 2
        self.see(f"{two}{''.join(combs)}SECTION 10\n{wide}END\n", f"11 COMPOSITE LIMIT section 2 count {count}",
                 ["the section at height 0 of object q", "2 contours", "> 13  SECTION 0"], "report")  # fmt: skip

    def test_other_commands(self):
        self.see(GOOD, "18 HEIGHT ON SECTION 10", ["strictly between"], "slice", "--height=10")
        self.see(GOOD, "20 NO PAIR 2", ["count pairs from 1"], "certify", "--pair=2")
        self.see(NAMED, "21 ONE OBJECT 2", ["one by one"], "densify")
        self.see(GOOD + "MARK one\n", "22 MARK FORM line 17", ["> 17  MARK one"], "landmarks")
        self.see(GOOD, "12 CERT FORM line 17", ["not a certificate"], "check")
        self.see(file("examples/squares.byu")[:-9], "27 BYU FORM line 18", ["> 18", "`reconstruct`"], "count")

    def test_too_many_bytes(self):
        data = GOOD.encode() + b"#" * section_text.MOST_BYTES
        self.see(data, "5 LIMIT bytes line 0", [f"{len(data)} bytes"], "report")

    def test_no_fault(self):
        status, out, told = tool("explain", ["-"], GOOD.encode())
        self.assertEqual((status, told), (0, ""))
        self.assertEqual(out, b"-: fku finds no fault: sections 2, contours 2, vertices 8, triangles 12\n")

    def test_troubles(self):
        for words, text, want, part in [
            (["no such file"], b"", 3, "No such file"),
            (["-"], b"REFUSED 1 FORM line 6\n", 1, "is not a section text: fku refused its input"),
            (["-", "explain"], GOOD.encode(), 1, "USAGE fku"),
            ([], b"", 2, "FILE"),
        ]:
            with self.subTest(words=words):
                status, out, told = tool("explain", words, text)
                self.assertEqual((status, out), (want, b""))
                self.assertIn(part, told)


class Refusals(unittest.TestCase):
    """The table of refusals, and tools that are given the line of one in place of a surface."""

    def test_all_refusals_have_words(self):
        table = file("docs/formats.md").decode().partition("| Words | When |")[2].partition("\n\n")[0]
        rows = [line.split("`")[1].split() for line in table.split("\n")[2:]]
        self.assertEqual([int(row[0]) for row in rows], sorted(faults.KINDS))
        for number, *rest in rows:
            kind = faults.KINDS[int(number)].words.split()
            self.assertEqual(rest[: len(kind)], kind)

    def test_all_limits_have_words(self):
        table = file("docs/formats.md").decode().partition("| What is limited |")[2].partition("\n\n")[0]
        rows = [row.split("|") for row in table.split("\n")[2:]]
        limits = {name.strip(" `"): most for _, _, most, name, _ in rows}
        self.assertEqual(sorted(limits), sorted(section_text.LIMITS))
        self.assertEqual(sorted(limits), sorted(faults.LIMIT_REMEDIES))
        for name, most in section_text.LIMITS.items():
            self.assertIn(f"{most:,}", limits[name])

    def test_show_and_convert(self):
        status, refusal = fku(["reconstruct"], with_line(6, "0.5 0").encode())
        self.assertEqual(status, 1)
        _, usage = fku(["rebuild"], b"")
        for name, words in [
            ("convert", ["--to=ply", "-", "-"]), ("show", ["--surface", "-", "x.png"]),
            ("show", ["--outlines", "-", "x.png"]), ("show", ["--loops", "-", "x.png"]),
        ]:  # fmt: skip
            for text, part in [(refusal, "REFUSED 1 FORM line 6"), (usage, "printed its usage")]:
                with self.subTest(tool=name, words=words):
                    status, out, told = tool(name, words, text)
                    self.assertEqual((status, out), (1, b""))
                    self.assertIn(part, told)
                    self.assertFalse(os.path.exists("x.png"))

    def test_a_file_by_its_name(self):
        with tempfile.TemporaryDirectory() as folder:
            with open(f"{folder}/my.txt", "w", encoding="ascii") as opened:
                opened.write(with_line(6, "0.5 0"))
            _, out, _ = tool("explain", [f"{folder}/my.txt"])
            self.assertTrue(out.startswith(f"{folder}/my.txt: REFUSED 1 FORM line 6\n".encode()))


class Program(unittest.TestCase):
    """Where the program is looked for, and that the package itself needs no other one."""

    def test_without_numpy(self):
        code = "import fku; print(fku.FkuError('no', 'INPUT').kind, 'tilings' in dir(fku)); fku.tilings"
        words = [sys.executable, "-S", "-c", code]  # no site, so no package but those of Python itself
        ran = subprocess.run(words, cwd=TOOLS, capture_output=True, check=False)
        self.assertEqual((ran.returncode, ran.stdout), (1, b"INPUT True\n"))
        self.assertIn(b"No module named 'numpy'", ran.stderr)

    def test_where_it_is(self):
        with tempfile.TemporaryDirectory() as folder:
            os.makedirs(f"{folder}/bin")
            shutil.copytree(f"{TOOLS}/fku", f"{folder}/fku", ignore=shutil.ignore_patterns("__pycache__"))
            words = [sys.executable, "-c", "from fku import program; print(program.find())"]
            places = [f"{folder}/bin/fku", f"{folder}/fku/program/fku-linux-x86-64", f"{folder}/named"]
            for at, place in enumerate(places):
                os.makedirs(os.path.dirname(place), exist_ok=True)
                shutil.copy(PROGRAM, place)
                env = {"PATH": f"{folder}/bin", **({"FKU": place} if at == 2 else {})}
                ran = subprocess.run(words, cwd=folder, env=env, capture_output=True, check=False)
                self.assertEqual(ran.stdout.decode().strip(), place, ran.stderr)

    def test_no_program(self):
        kept = os.environ.get("FKU")
        os.environ["FKU"] = "no such program"
        try:
            status, out, told = tool("explain", ["-"], GOOD.encode())
        finally:
            os.environ.pop("FKU")
            os.environ.update({"FKU": kept} if kept else {})
        self.assertEqual((status, out), (1, b""))
        self.assertIn("the variable FKU names no such program", told)
