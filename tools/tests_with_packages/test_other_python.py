"""A Python that lacks the packages hands the work over to Debian's own, which has them."""
import os
import subprocess
import sys
import tempfile
import unittest

from fku.trouble import DEBIANS_PYTHON, has_packages
from tests.common import TOOLS
from tests_with_packages.makers import needs, write_nrrd

HAS_NUMPY = os.access(DEBIANS_PYTHON, os.X_OK) and has_packages(DEBIANS_PYTHON, ["numpy"])


@needs("numpy")
@unittest.skipUnless(HAS_NUMPY, "needs numpy for Debian's own Python")
class OtherPython(unittest.TestCase):
    """A Python that was told to look for no packages (-S)."""

    def test_outlines(self):
        import numpy

        with tempfile.TemporaryDirectory() as folder:
            write_nrrd(f"{folder}/a.nrrd", numpy.ones((2, 3, 3), dtype="u1"), (1, 1, 1))
            words = [f"{TOOLS}/outlines", "--label=1", f"{folder}/a.nrrd"]
            ran = [subprocess.run([sys.executable, *more, *words], capture_output=True, check=False) for more in ([], ["-S"])]
            self.assertEqual([it.returncode for it in ran], [0, 0], ran[1].stderr)
            self.assertEqual(ran[0].stdout, ran[1].stdout)
