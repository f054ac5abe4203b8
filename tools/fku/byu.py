"""Reads a surface of fku: a MOVIE.BYU text of its profile, byte for byte, or its first line at fault.

A text is read as `byu_text` reads it: each line is taken for numbers, and must then be the line that fku would write
of them. The standard library is enough; where numpy is there, it reads long texts, the same ones and many times as
fast.
"""
import importlib.util
import re

from fku.faults import see_answer
from fku.progress import Progress
from fku.trouble import Trouble, read_bytes

LONGEST = 268435456  # bytes
LONG = 100000  # bytes from which on numpy is worth its start
MOST_PARTS, MOST_VERTICES, MOST_POLYGONS = 4096, 2097152, 5000000
FARTHEST = 999999  # a coordinate, either way

Point = tuple[int, int, int]
Triangle = tuple[int, int, int]

COORDINATE = re.compile(rb"([ -])(\d)\.(\d{5})E\+0([0-5])")


class FaultAt(Exception):
    """A line, counted from 1, that stands in no such text; one past the last line where the text stops too soon."""

    def __init__(self, line):
        super().__init__(f"line {line}")
        self.line = line


class Mesh:
    """Points (x, y, z) in whole units, and for each part its triangles, three places of points counted from 0, and its
    name: part_1, part_2 and so on, where none is given.
    """

    def __init__(self, points: list[Point], parts: list[list[Triangle]], names: list[str] | None = None):
        self.points = points
        self.parts = parts
        self.names = names or [f"part_{number}" for number in range(1, len(parts) + 1)]

    def triangles(self) -> list[Triangle]:
        """Gives the triangles of all parts."""
        return [triangle for part in self.parts for triangle in part]

    def part(self, number: int) -> "Mesh":
        """Gives a part alone, counted from 1: its triangles, and the points that they have, in their order."""
        triangles = self.parts[number - 1]
        used = sorted({place for triangle in triangles for place in triangle})
        now = {place: at for at, place in enumerate(used)}
        moved = [tuple(now[place] for place in triangle) for triangle in triangles]
        return Mesh([self.points[place] for place in used], [moved], [self.names[number - 1]])


def number_line(numbers: list[int]) -> bytes:
    """Gives the line of integers, each right in 8 columns."""
    return b"".join(b"%8d" % number for number in numbers) + b"\n"


def coordinate_field(value: int) -> bytes:
    """Gives the 12 columns of a coordinate."""
    digits = b"%d" % abs(value)
    sign = b"-" if value < 0 else b" "
    return sign + digits[:1] + b"." + digits[1:].ljust(5, b"0") + b"E+0%d" % (len(digits) - 1)


class Lines:
    """The lines of a text, each with its line feed, taken one by one."""

    def __init__(self, text):
        self.lines = re.findall(rb"[^\n]*\n|[^\n]+", text)
        self.taken = 0

    def next(self, length: int) -> bytes:
        """Gives the next line, which must have this many bytes."""
        line = self.lines[self.taken] if self.taken < len(self.lines) else b""
        self.taken += 1
        if len(line) != length or not line.endswith(b"\n"):
            raise FaultAt(self.taken)
        return line

    def see(self, good):
        """Tells the line that was taken last where this does not hold of it."""
        if not good:
            raise FaultAt(self.taken)


def numbers_of(lines: Lines, count: int) -> list[int]:
    """Gives the integers of the next line, which is spelled as fku spells it."""
    line = lines.next(8 * count + 1)
    try:
        numbers = [int(line[8 * at : 8 * at + 8]) for at in range(count)]
    except ValueError:
        raise FaultAt(lines.taken) from None
    lines.see(number_line(numbers) == line)
    return numbers


def read_head(lines: Lines) -> tuple[int, int, int]:
    """Gives the numbers of parts, vertices and polygons."""
    parts, vertices, polygons, entries = numbers_of(lines, 4)
    lines.see(1 <= parts <= MOST_PARTS and parts <= polygons <= MOST_POLYGONS)
    lines.see(1 <= vertices <= MOST_VERTICES and entries == 3 * polygons)
    return parts, vertices, polygons


def read_sizes(lines: Lines, parts: int, polygons: int) -> list[int]:
    """Gives how many polygons each part has; none is empty, and all polygons are in a part."""
    sizes, behind = [], 0
    for part in range(parts):
        first, last = numbers_of(lines, 2)
        later = parts - part - 1
        lines.see(first == behind + 1 and first <= last <= polygons - later)
        lines.see(later > 0 or last == polygons)
        sizes.append(last - behind)
        behind = last
    return sizes


def read_points(lines: Lines, vertices: int) -> list[Point]:
    """Gives the points, two a line, an odd last one alone."""
    points, progress = [], Progress("vertices", vertices)
    while len(points) < vertices:
        progress.at(len(points))
        count = min(2, vertices - len(points))
        line = lines.next(36 * count + 1)
        values = []
        for at in range(3 * count):
            field = line[12 * at : 12 * at + 12]
            told = COORDINATE.fullmatch(field)
            lines.see(told)
            sign, first, more, power = told.groups()
            value = int((first + more)[: 1 + int(power)])
            values.append(-value if sign == b"-" else value)
            lines.see(coordinate_field(values[-1]) == field)
        points += [tuple(values[at : at + 3]) for at in range(0, 3 * count, 3)]
    progress.end()
    return points


def read_triangles(lines: Lines, vertices: int, polygons: int) -> list[Triangle]:
    """Gives the triangles; the third number has a minus, which ends the polygon."""
    triangles = []
    for _ in Progress("triangles", polygons).over(range(polygons)):
        a, b, c = numbers_of(lines, 3)
        lines.see(1 <= a <= vertices and 1 <= b <= vertices and 1 <= -c <= vertices)
        triangles.append((a - 1, b - 1, -c - 1))
    return triangles


def split(triangles: list[Triangle], sizes: list[int]) -> list[list[Triangle]]:
    """Gives the triangles of each part, of which it has so many."""
    of_parts, at = [], 0
    for size in sizes:
        of_parts.append(triangles[at : at + size])
        at += size
    return of_parts


def parse_lines(text: bytes) -> Mesh:
    """Gives the mesh of a text, line by line, or raises FaultAt."""
    lines = Lines(text)
    parts, vertices, polygons = read_head(lines)
    sizes = read_sizes(lines, parts, polygons)
    points = read_points(lines, vertices)
    triangles = read_triangles(lines, vertices, polygons)
    if lines.taken < len(lines.lines):
        raise FaultAt(lines.taken + 1)
    return Mesh(points, split(triangles, sizes))


def parse(text: bytes) -> Mesh:
    """Gives the mesh of a text, or raises FaultAt."""
    mesh = None
    if len(text) >= LONG and importlib.util.find_spec("numpy"):
        from fku import fast_byu

        mesh = fast_byu.parse(text)
    return mesh or parse_lines(text)


def read_mesh(path: str) -> Mesh:
    """Gives the mesh of a file, `-` being the standard input."""
    text = read_bytes(path, LONGEST)
    if len(text) > LONGEST:
        raise Trouble(f"{path}: a surface of fku has at most {LONGEST} bytes")
    see_answer(text, path, "surface")
    try:
        return parse(text)
    except FaultAt as it:
        raise Trouble(f"{path}: no surface of fku: its first fault is at line {it.line}") from None
