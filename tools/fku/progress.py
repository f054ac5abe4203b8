"""Reports on the standard error how far a long work is, where that is a terminal. The standard library is enough."""
import sys
import time

FIRST = 2.0  # seconds before anything is shown
NEXT = 0.2  # seconds between two pictures of the bar
WIDTH = 30  # signs of the bar


class Progress:
    """A bar for a work of so many steps. What takes less than two seconds shows none."""

    def __init__(self, what: str, total: int, stream=None, clock=time.monotonic):
        self.what, self.total, self.clock = what, total, clock
        self.stream = sys.stderr if stream is None else stream
        self.due = clock() + FIRST if self.stream.isatty() else None
        self.drawn = False

    def at(self, done: int) -> None:
        """Shows that so many steps are done."""
        if self.due is None or self.clock() < self.due:
            return
        self.due, self.drawn = self.clock() + NEXT, True
        full = WIDTH * done // max(self.total, 1)
        self.stream.write(f"\r{self.what} [{'#' * full}{'.' * (WIDTH - full)}] {done} of {self.total}\x1b[K")
        self.stream.flush()

    def end(self) -> None:
        """Takes the bar away."""
        if self.drawn:
            self.stream.write("\r\x1b[K")
            self.stream.flush()
            self.drawn = False

    def over(self, steps):
        """Gives the steps one by one, and shows how many were taken."""
        if self.due is None:
            yield from steps
            return
        try:
            for done, step in enumerate(steps):
                self.at(done)
                yield step
        finally:
            self.end()
