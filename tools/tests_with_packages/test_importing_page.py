"""The commands of docs/importing.md run as they stand there, and the files of examples/traced are what they say."""
import math
import os
import subprocess
import sys
import tempfile
import unittest

from fku import byu, importers, section_text, space
from fku.importers import KINDS
from tests import traced_examples
from tests.common import PROGRAM, TOP, file, fku, is_closed, tool, volume
from tests.outline_makers import roi, roi_zip
from tests_with_packages.makers import needs
from tests_with_packages.test_pages import blocks

PAGE = file("docs/importing.md").decode()
IMAGEJ = ["--pixel", "0.5", "--spacing", "2", "--length", "mm"]
HAS_LIKE = "--like" in tool("convert", ["--help"])[1].decode()


@needs("shapely", "pydicom")
class Page(unittest.TestCase):
    """The page, in a folder of its own."""

    def test_commands(self):
        with tempfile.TemporaryDirectory() as folder:
            for name in ("tools", "examples"):
                os.symlink(f"{TOP}/{name}", f"{folder}/{name}")
            os.symlink(os.path.abspath(PROGRAM), f"{folder}/fku")
            os.mkdir(f"{folder}/bin")
            os.symlink(sys.executable, f"{folder}/bin/python3")
            env = {**os.environ, "PATH": f"{folder}/bin:{os.environ['PATH']}"}
            for commands, wanted in blocks(PAGE):
                if "--like" in commands and not HAS_LIKE:
                    continue
                with self.subTest(commands=commands):
                    ran = subprocess.run(["sh", "-c", commands], cwd=folder, env=env, capture_output=True, check=False)
                    told = (ran.stdout + ran.stderr).decode()
                    self.assertEqual(ran.returncode, 0, told)
                    if wanted is not None:
                        self.assertEqual(told, wanted)

    def test_kinds(self):
        rows = PAGE.partition("| You have |")[2].partition("\n\n")[0]
        for kind in KINDS:
            self.assertIn(f"`{kind}`", rows)


@needs("shapely", "pydicom")
class Vessel(unittest.TestCase):
    """The same vessel in four kinds of files."""

    def test_files(self):
        for name, make in traced_examples.FILES.items():
            self.assertEqual(file(f"examples/traced/{name}"), make(), name)

    def test_same_surface(self):
        # Ten slices 2 mm apart, of polygons with 24 corners; with half slices at the ends they are 20 mm long.
        polygon = 12 * math.sin(math.pi / 12)
        wall, stone = polygon * (36 - 16) * 20, polygon * 4 * 6
        moves = {"vessel.csv": (0, 0, 0), "vessel.zip": (0, -100, 0), "vessel.dcm": (0, 0, 0), "vessel.mod": (0, 0, 1)}
        for name, moved in moves.items():
            with self.subTest(name=name):
                words = [*(IMAGEJ if name.endswith("zip") else []), "--half-ends", "--unit", "0.001"]
                status, text, told = tool("contours", [*words, f"{TOP}/examples/traced/{name}"])
                self.assertEqual(status, 0, told)
                status, out = fku(["reconstruct"], text)
                self.assertEqual((status, is_closed(out)), (0, True))
                mesh = byu.parse(out)
                place = space.read(text)
                self.assertEqual(place.length, "mm")
                found = [abs(volume(part.points, part.triangles())) * place.factor() ** 3 for part in parts_of(mesh)]
                self.assertAlmostEqual(found[0] / wall, 1, delta=0.01)
                self.assertAlmostEqual(found[1] / stone, 1, delta=0.01)
                points = [place.place(it) for it in mesh.points]
                low = [min(it[axis] - moved[axis] for it in points) for axis in range(3)]
                self.assertAlmostEqual(math.dist(low, (24, 19, -1)), 0, delta=0.05)

    def test_parts_lie_over_each_other(self):
        # The stone exported alone is where it is when all is exported together.
        path = f"{TOP}/examples/traced/vessel.dcm"
        found = []
        for words in (["--object", "stone", "--centre", "--unit", "0.01"], ["--unit", "0.001"]):
            status, text, _ = tool("contours", [*words, path])
            self.assertEqual(status, 0)
            points = [space.read(text).place(it) for it in byu.parse(fku(["reconstruct"], text)[1]).points]
            found.append(points[-72:])
        for one, other in zip(*found):
            self.assertAlmostEqual(math.dist(one, other), 0, delta=0.015)


@needs("numpy", "PIL", "shapely")
class Overlay(unittest.TestCase):
    """A region of ImageJ, and the same pixels as a label of its images, traced by tools/outlines."""

    def test_region_over_label(self):
        import numpy
        from PIL import Image

        values = numpy.zeros((40, 60), dtype=numpy.uint8)
        values[20:26, 10:14] = 7
        boxes = []
        with tempfile.TemporaryDirectory() as folder:
            for number in range(3):
                Image.fromarray(values).save(f"{folder}/s{number}.png")
            with open(f"{folder}/regions.zip", "wb") as data:
                regions = {f"r{k}": roi(1, box=(10, 20, 14, 26), at=(1, k, 1), name="r") for k in (1, 2, 3)}
                data.write(roi_zip(regions))
            images = [f"{folder}/s{number}.png" for number in range(3)]
            for name, words in (
                ("outlines", ["--label", "7", "--spacing", "0.5,0.5,2", "--unit", "0.01", *images]),
                ("contours", ["--pixel", "0.5", "--spacing", "2", "--unit", "0.01", f"{folder}/regions.zip"]),
            ):
                status, text, told = tool(name, words)
                self.assertEqual(status, 0, told)
                found = [(x, y, it.height) for it in section_text.read(text, name)[0].sections
                         for _, ring in it.contours for x, y in ring]  # fmt: skip
                placed = [space.read(text).place(it) for it in found]
                boxes.append([f(it[axis] for it in placed) for axis in range(3) for f in (min, max)])
        for one, other in zip(*boxes):
            self.assertAlmostEqual(one, other, delta=0.011)


def parts_of(mesh):
    """Gives the parts of a mesh as meshes of their own."""
    return [mesh.part(number) for number in range(1, len(mesh.parts) + 1)]


class Reading(unittest.TestCase):
    """What the package says of the examples."""

    def test_kinds_are_found(self):
        for name, kind in zip(traced_examples.FILES, ("table", "imagej", "dicom", "imod")):
            self.assertEqual(importers.kind_of(f"{TOP}/examples/traced/{name}"), kind)
