"""The examples of docs/python.md run as they stand, one after another, and give what their comments say."""
import contextlib
import io
import os
import re
import tempfile
import unittest

from tests.common import TOP, file
from tests_with_packages.makers import needs

TOLD = re.search(r"source.length\)  # (.*)", file("docs/python.md").decode())[1]
AREA = re.search(r"mesh.area\) *# (.*)", file("docs/python.md").decode())[1]
BLOCKS = re.findall(r"(?ms)^```python\n(.*?)^```$", file("docs/python.md").decode())


@needs("numpy", "meshio", "shapely")
class Examples(unittest.TestCase):
    """The blocks of the page."""

    def test_all(self):
        names, told, here = {}, io.StringIO(), os.getcwd()
        with tempfile.TemporaryDirectory() as folder, contextlib.redirect_stdout(told):
            os.chdir(folder)
            os.symlink(f"{TOP}/examples", "examples")
            try:
                for block in BLOCKS:
                    exec(compile(block, "docs/python.md", "exec"), names)
                self.assertEqual(sorted(os.listdir()), ["examples", "tower.ply"])
            finally:
                os.chdir(here)
        lines = told.getvalue()
        self.assertTrue(lines.startswith("(180, 3) (356, 3)\n301.6"), lines)
        self.assertIn(f"\n{AREA}\n[", lines)
        self.assertIn("\n[[-4.8 -5.1  0. ]\n [ 5.4  5.1  5. ]]\n0 []\n534 0\n", lines)
        self.assertIn(f"\n{TOLD}\n", lines)
        self.assertIn("\nring 0 of the slice at z = 0: the last point was the first one again, and went\n", lines)
        self.assertRegex(lines, r"\n(95\.\d+|96(\.\d+)?)\n")
        self.assertIn("\nCROSSING\n(Key(object='', z=2.5, ring=0), Key(object='', z=2.5, ring=1))\n([(", lines)
