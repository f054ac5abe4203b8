"""Finds and runs the program `fku`, which does all the geometry. The standard library is enough."""
import functools
import os
import shutil
import subprocess

from fku.section_text import FARTHEST

HERE = os.path.dirname(os.path.abspath(__file__))
TOP = os.path.dirname(os.path.dirname(HERE))  # the checkout, where this is one
RELEASED = "fku-linux-x86-64"
WHICH = f"{TOP}/tools/which"  # prints the program of a checkout
PACKAGED = f"{HERE}/program/{RELEASED}"

# The words of a call that finds each fault of a text up to its composites, and solves no pair: no section lies above
# that height, so the height is refused where nothing else is.
FAULTS = ["slice", f"--height={FARTHEST}"]

REFUSED, USAGE = 1, 2
STATUSES = {
    3: "the input could not be read",
    4: "the output could not be written to its end",
    5: "out of memory",
    6: "the system did not pass on the words of the call",
}


class NoProgram(Exception):
    """There is no program, or it cannot be run; the message says where it was looked for."""


class Ended(Exception):
    """The program ended with a status that is neither an answer nor a refusal; the message says which."""


def can_run(path: str | None) -> bool:
    """Whether this is a file that can be run."""
    return bool(path) and os.path.isfile(path) and os.access(path, os.X_OK)


@functools.lru_cache(maxsize=1)
def of_checkout() -> tuple[str, str]:
    """Gives the path of the program that ./fku runs in this checkout, or nothing, and what tools/which says of it."""
    ran = subprocess.run([WHICH], stdin=subprocess.DEVNULL, capture_output=True, check=False)
    return ran.stdout.decode().rstrip("\n"), ran.stderr.decode().strip()


def find() -> str:
    """Gives the path of the program: the one that the variable FKU names; else, in a checkout, the one that ./fku runs;
    else the one that was installed with this package; else `fku` on the PATH.

    NoProgram is raised where there is none, also where FKU names no program.
    """
    named = os.environ.get("FKU")
    if named:
        if can_run(named):
            return named
        raise NoProgram(f"the variable FKU names {named}, which is not a program that can be run")
    own, why = of_checkout() if can_run(WHICH) else ("", f"looked for {PACKAGED}")
    for path in (own, PACKAGED, shutil.which("fku")):
        if can_run(path):
            return path
    raise NoProgram(f"there is no program ({why}), and no fku on the PATH: name one by the variable FKU")


def run(words: list[str], text: bytes) -> tuple[int, bytes]:
    """Runs the program with these words and this input, and gives its status and what it wrote: 0 and an answer, 1 and
    the line of a refusal, or 2 and the usage.

    Ended is raised at any other status, and NoProgram where there is no program.
    """
    path = find()
    try:
        ran = subprocess.run([path, *words], input=text, capture_output=True, check=False)
    except OSError as it:
        raise NoProgram(f"{path} cannot be run: {it.strerror}") from None
    if ran.returncode in (0, REFUSED, USAGE):
        return ran.returncode, ran.stdout
    ends = f"by the signal {-ran.returncode}" if ran.returncode < 0 else f"with the status {ran.returncode}"
    meaning = STATUSES.get(ran.returncode, "not a status of this program")
    raise Ended(f"{path} {' '.join(words)} ended {ends}: {meaning}")
