"""The commands of the README, the tutorial, the page on commands and the examples run as they stand there, and write
what stands after them.
"""
import os
import re
import shutil
import subprocess
import sys
import tempfile
import unittest

from tests.common import PROGRAM, TOP, file
from tests_with_packages.makers import needs

ATLAS = "/usr/share/mricron/templates/aal.nii.gz"
NO_DISPLAY = not os.environ.get("DISPLAY") and not shutil.which("Xvfb")


def blocks(page):
    """Gives the blocks of commands of a page, each with the block of text that follows it, or none."""
    found = re.findall(r"```(\w*)\n(.*?)```(?=\n)", page, re.DOTALL)
    for (kind, text), (next_kind, next_text) in zip(found, [*found[1:], ("sh", "")]):
        if kind == "sh" and "apt-get" not in text and "slices/" not in text:
            yield text, next_text if next_kind == "" else None


@needs("numpy", "nibabel", "vtk")
@unittest.skipIf(NO_DISPLAY, "needs a display, or the package xvfb")
class Pages(unittest.TestCase):
    """Each page, in a folder of its own."""

    def run_page(self, page):
        """Runs the blocks of a page one after another, with this Python before all others."""
        with tempfile.TemporaryDirectory() as folder:
            for name in ("tools", "examples"):
                os.symlink(f"{TOP}/{name}", f"{folder}/{name}")
            os.symlink(os.path.abspath(PROGRAM), f"{folder}/fku")
            os.mkdir(f"{folder}/bin")
            os.symlink(sys.executable, f"{folder}/bin/python3")
            env = {**os.environ, "PATH": f"{folder}/bin:{os.environ['PATH']}"}
            for commands, wanted in blocks(page):
                with self.subTest(commands=commands):
                    ran = subprocess.run(["sh", "-c", commands], cwd=folder, env=env, capture_output=True, check=False)
                    told = (ran.stdout + ran.stderr).decode()
                    if wanted is not None and wanted.split()[0] != "#":
                        self.assertEqual(told, wanted)
                    self.assertEqual(ran.returncode, 1 if wanted and ("limit" in told or "fault" in told) else 0, told)

    @unittest.skipUnless(os.path.exists(ATLAS), "needs the package mricron-data")
    def test_tutorial(self):
        self.run_page(file("docs/tutorial.md").decode())

    def test_readme(self):
        self.run_page(file("README.md").decode())

    def test_commands(self):
        self.run_page(file("docs/commands.md").decode())

    def test_examples(self):
        page = file("examples/README.md").decode()
        self.assertEqual(len(list(blocks(page))), 5)
        self.run_page(page)
