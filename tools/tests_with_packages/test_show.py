"""Pictures of surfaces, outlines and loops. Debian's VTK wants a display, or Xvfb, which `show` starts."""
import os
import shutil
import struct
import tempfile
import unittest

from tests.common import TOP, file, fku, tool
from tests_with_packages.makers import needs

NO_DISPLAY = not os.environ.get("DISPLAY") and not shutil.which("Xvfb")


@needs("vtk", "PIL")
@unittest.skipIf(NO_DISPLAY, "needs a display, or the package xvfb")
class Pictures(unittest.TestCase):
    """Each kind of picture."""

    def test_pictures(self):
        rows = [
            ["--surface", f"{TOP}/examples/squares.byu"],
            ["--surface", f"{TOP}/examples/squares.byu", "--edges", "--outlines", f"{TOP}/examples/squares.txt"],
            ["--outlines", f"{TOP}/examples/squares.txt"],
            ["--loops", "LOOPS", "--outlines", f"{TOP}/examples/squares.txt"],
        ]
        seen = set()
        with tempfile.TemporaryDirectory() as folder:
            with open(f"{folder}/loops", "wb") as opened:
                opened.write(fku(["slice", "--height=5"], file("examples/squares.txt"))[1])
            for words in rows:
                words = [f"{folder}/loops" if it == "LOOPS" else it for it in words]
                status, out, told = tool("show", [*words, "--size=200,120", f"{folder}/a.png"])
                self.assertEqual((status, out), (0, b""), told)
                with open(f"{folder}/a.png", "rb") as opened:
                    data = opened.read()
                self.assertEqual((data[:8], struct.unpack(">II", data[16:24])), (b"\x89PNG\r\n\x1a\n", (200, 120)))
                seen.add(data)
        self.assertEqual(len(seen), len(rows))

    def test_parts_have_colours(self):
        from PIL import Image

        with tempfile.TemporaryDirectory() as folder:
            with open(f"{folder}/thalami.byu", "wb") as opened:
                opened.write(fku(["reconstruct"], file("examples/thalami.txt"))[1])
            with open(f"{folder}/loops", "wb") as opened:
                opened.write(fku(["slice", "--height=6950"], file("examples/thalami.txt"))[1])
            words = ["--surface", f"{folder}/thalami.byu", "--size=200,120", f"{folder}/a.png"]
            self.assertEqual(tool("show", words)[0], 0)
            dots = list(Image.open(f"{folder}/a.png").convert("RGB").getdata())
            for colour, sign in [("orange", 1), ("blue", -1)]:
                self.assertGreater(sum(sign * (r - b) > 60 for r, _, b in dots), 2000, colour)
            words = ["--loops", f"{folder}/loops", "--outlines", f"{TOP}/examples/thalami.txt", f"{folder}/b.png"]
            self.assertEqual(tool("show", words)[0], 0)

    def test_marked_triangles_are_red_alone(self):
        from PIL import Image

        marks = b"PARTS 1\nPART 1\nCROSS 3 1\nCROSS 4 1\nCROSSINGS 1\n"
        reds = []
        with tempfile.TemporaryDirectory() as folder:
            for text, more in [(marks, []), (marks, ["--opacity=0.3"]), (b"PARTS 1\nPART 1\nCROSSINGS 0\n", [])]:
                words = ["--surface", f"{TOP}/examples/squares.byu", "--view=0,0", "--mark", "-", *more]
                status, _, told = tool("show", [*words, "--size=200,120", f"{folder}/a.png"], text)
                self.assertEqual(status, 0, told)
                dots = Image.open(f"{folder}/a.png").convert("RGB").getdata()
                reds.append(sum(r > 120 and r > 4 * g and r > 4 * b for r, g, b in dots))
        self.assertGreater(reds[0], 2000)
        self.assertGreater(reds[1], 0.8 * reds[0])
        self.assertEqual(reds[2], 0)

    def test_a_picture_that_cannot_be_written(self):
        words = ["--surface", f"{TOP}/examples/squares.byu", "/no such folder/a.png"]
        status, _, told = tool("show", words)
        self.assertEqual(status, 4)
        self.assertIn("No such file", told)
