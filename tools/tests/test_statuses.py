"""Each status of the program, where the system fails it: what it writes then, and that the standard error is empty."""
import os
import resource
import subprocess
import unittest

from tests.common import PROGRAM, TOP, file
from tests.row_files import shared_text

SQUARES = f"{TOP}/examples/squares.txt"
USAGE = shared_text("usage").encode()


class Statuses(unittest.TestCase):
    """The program ends with each of its statuses, and with no other answer than that one's."""

    def ends(self, words, status, wanted, source=SQUARES, **how):
        """A run on this file ends so and writes this."""
        with open(source, "rb") if os.path.isfile(source) else open(os.devnull, "rb") as opened:
            how = {"stdin": opened, "stdout": subprocess.PIPE, **how}
            ran = subprocess.run([PROGRAM, *words], stderr=subprocess.PIPE, timeout=60, check=False, **how)
        self.assertEqual((ran.returncode, ran.stdout or b"", ran.stderr), (status, wanted, b""))

    def test_done(self):
        self.ends(["reconstruct", "--workers=2"], 0, file("examples/squares.byu"))

    def test_refused(self):
        cut = file("examples/squares.txt").rpartition(b"END")[0]
        how = {"input": cut, "capture_output": True}
        ran = subprocess.run([PROGRAM, "reconstruct"], timeout=60, check=False, **how)
        self.assertEqual((ran.returncode, ran.stdout, ran.stderr), (1, b"REFUSED 6 END MISSING\n", b""))

    def test_bad_words(self):
        self.ends(["reconstruct", "--workers=65"], 2, USAGE)

    def test_read_fault(self):
        folder = os.open("/", os.O_RDONLY)
        try:
            self.ends(["reconstruct"], 3, b"", stdin=folder)
        finally:
            os.close(folder)

    def test_write_fault(self):
        with open("/dev/full", "wb") as full:
            self.ends(["reconstruct"], 4, b"", stdout=full)

    def test_no_memory(self):
        def limit():
            resource.setrlimit(resource.RLIMIT_AS, (8192 * 1024, 8192 * 1024))

        self.ends(["demo", "7", "64", "1000"], 5, b"", source=os.devnull, preexec_fn=limit)

    def test_no_words(self):
        self.ends([b"\377"], 6, b"")
