"""The bar that tells how far a long work is: on a terminal alone, and only after two seconds."""
import io
import unittest

from fku.progress import Progress


class Stream(io.StringIO):
    """A stream that is a terminal or none."""

    def __init__(self, is_terminal):
        super().__init__()
        self.is_terminal = is_terminal

    def isatty(self):
        return self.is_terminal


def shown(seconds, is_terminal=True):
    """Gives what is shown of ten steps that take so many seconds each."""
    stream, now = Stream(is_terminal), [0.0]
    for _ in Progress("slices", 10, stream, lambda: now[0]).over(range(10)):
        now[0] += seconds
    return stream.getvalue()


class Bar(unittest.TestCase):
    """What is shown, and when."""

    def test_short_works_show_nothing(self):
        self.assertEqual(shown(0.19), "")

    def test_no_terminal(self):
        self.assertEqual(shown(9, is_terminal=False), "")

    def test_a_long_work(self):
        text = shown(0.5)
        self.assertIn(f"\rslices [{'#' * 12}{'.' * 18}] 4 of 10", text)
        self.assertNotIn("3 of 10", text)
        self.assertTrue(text.endswith("9 of 10\x1b[K\r\x1b[K"))
        self.assertEqual(text.count(" of 10"), 6)

    def test_bars_are_not_drawn_too_often(self):
        self.assertEqual(shown(0.25).count(" of 10"), 2)
        stream, now = Stream(True), [0.0]
        for _ in Progress("slices", 1000, stream, lambda: now[0]).over(range(1000)):
            now[0] += 0.01
        self.assertLess(stream.getvalue().count(" of 1000"), 45)
