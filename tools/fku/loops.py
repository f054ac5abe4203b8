"""Reads what `fku slice` prints. The standard library is enough."""
from fractions import Fraction

from fku.faults import see_answer
from fku.trouble import Trouble


def numbers(words, keys):
    """Gives the numbers of a line of keywords, each with a number after it."""
    if words[0::2] != keys:
        raise ValueError
    return [int(it) for it in words[1::2]]


def take(lines):
    """Gives the height and the loops: lists of points (x, y) as fractions."""
    lines = iter([line.split() for line in lines if line.split()[:1] != ["OBJECT"]])
    heights, loops = set(), []
    for head in lines:
        height, over, count = numbers(head, ["SLICE", "DEN", "LOOPS"])
        heights.add(height)
        for _ in range(count):
            (size,) = numbers(next(lines), ["LOOP"])
            loops.append([tuple(Fraction(int(it), over) for it in next(lines)) for _ in range(size)])
    (height,) = heights
    return height, loops


def read(data: bytes, path: str) -> tuple[int, list[list[tuple[Fraction, Fraction]]]]:
    """Gives the height and the loops, those of all objects, of a text that `fku slice` printed."""
    see_answer(data, path, "slice")
    try:
        return take(data.decode("ascii").splitlines())
    except (ValueError, StopIteration, RuntimeError, ZeroDivisionError):
        raise Trouble(f"{path}: is not the complete output of `fku slice`") from None
