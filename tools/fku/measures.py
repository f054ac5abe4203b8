"""Reads what `fku measure` prints: the measures of each part of a surface. The standard library is enough."""
import re
from dataclasses import dataclass

from fku.faults import see_answer
from fku.trouble import Trouble

FORMS = {"COUNT": "(0|[1-9][0-9]*)", "WHOLE": "(0|-?[1-9][0-9]*)"}  # without a needless 0, as fku spells numbers

Point = tuple[int, int, int]


@dataclass(frozen=True)
class Measures:
    """The measures of one part, in whole units of the text.

    `vertices` says how many vertices its triangles name, and `polygons` how many triangles it has; `box` is the least
    x, y, z of these vertices, and the greatest; the area lies between `low` / 2000 and `high` / 2000; of its `edges`,
    `many` have more than two triangles. `six_volume` is six times the volume inside, and `moment` 24 times the integral
    of x, of y and of z over it: both are None where the part is not `closed`.
    """

    vertices: int
    polygons: int
    box: tuple[Point, Point]
    low: int
    high: int
    edges: int
    many: int
    closed: bool
    six_volume: int | None = None
    moment: Point | None = None


def numbers(line: str, form: str) -> list[int]:
    """Gives the numbers of a line, which must be that form with an integer for WHOLE, and one from 0 on for COUNT.
    """
    pattern = re.sub("|".join(FORMS), lambda it: FORMS[it[0]], form)
    match = re.fullmatch(pattern, line)
    if not match:
        raise ValueError
    return [int(it) for it in match.groups()]


def closedness(line: str) -> bool:
    """Whether a line says that the part is closed."""
    return {"CLOSED yes": True, "CLOSED no": False}[line]


def fits(it: Measures) -> bool:
    """Whether the measures can be those of one part."""
    corners = 3 * it.polygons
    counts = 1 <= it.vertices <= corners and 1 <= it.edges <= corners and it.many <= it.edges
    return counts and all(map(int.__le__, *it.box)) and 0 <= it.high - it.low <= it.polygons


def take_part(lines) -> Measures:
    """Gives the measures of a part, from the lines after that with its number."""
    (vertices,) = numbers(next(lines), "VERTICES COUNT")
    (polygons,) = numbers(next(lines), "POLYGONS COUNT")
    box = tuple(numbers(next(lines), "BOX" + 6 * " WHOLE"))
    low, high = numbers(next(lines), "AREA COUNT COUNT DEN 2000")
    edges, many = numbers(next(lines), "EDGES COUNT MANY COUNT")
    closed, volume, moment = closedness(next(lines)), None, None
    if closed:
        (volume,) = numbers(next(lines), "SIXVOLUME WHOLE")
        moment = tuple(numbers(next(lines), "MOMENT WHOLE WHOLE WHOLE"))
    found = Measures(vertices, polygons, (box[:3], box[3:]), low, high, edges, many, closed, volume, moment)
    if not fits(found):
        raise ValueError
    return found


def take(lines) -> list[Measures]:
    """Gives the measures of all parts, one after another; the line after the last line feed is empty."""
    (count,) = numbers(next(lines), "PARTS COUNT")
    found = []
    for part in range(1, count + 1):
        numbers(next(lines), f"PART {part}")
        found.append(take_part(lines))
    if list(lines) != [""]:
        raise ValueError
    return found


def read(data: bytes, path: str) -> list[Measures]:
    """Gives the measures of each part of a text that `fku measure` printed; a text that is not whole, or whose numbers
    cannot be those of a part, is a Trouble, and so is a refusal of fku.
    """
    see_answer(data, path, "text of measures")
    try:
        return take(iter(data.decode("ascii").split("\n")))
    except (KeyError, ValueError, StopIteration):
        raise Trouble(f"{path}: is not the complete output of `fku measure`") from None


def see_fits(found: list[Measures], sizes: list[int], path: str) -> None:
    """Refuses measures that are not of a surface whose parts have these numbers of triangles, one after another."""
    if [it.polygons for it in found] != sizes:
        raise Trouble(f"{path}: has the measures of another surface")
