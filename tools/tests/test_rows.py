"""Each row of `tools/tests/rows/` is what the program answers: see `row_files.py` for what a row is."""
import unittest

from tests.common import fku
from tests.row_files import all_rows


class WorkedRow(unittest.TestCase):
    """The program answers one row as it says, byte for byte."""

    def __init__(self, row=None):
        super().__init__("runTest")
        self.row = row

    def id(self):
        return f"{self.row.place}:{'_'.join(self.row.words)}"

    __str__ = id

    def runTest(self):
        self.assertEqual(self.row.complaint(*fku(self.row.words, self.row.input)), "")


def load_tests(_loader, _tests, _pattern):
    """Gives a test for each row."""
    return unittest.TestSuite(map(WorkedRow, all_rows()))
