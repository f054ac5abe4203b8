"""Outlines as a caller of the package gives them, and the section text of them. It needs numpy.

Rings come as arrays in the caller's unit of length and at the caller's place. The section text has them in whole units,
counted from an origin that is a multiple of the unit; what comes back is put into the caller's unit and place again.
"""
import bisect
import math
from collections.abc import Mapping
from dataclasses import dataclass, field
from fractions import Fraction
from numbers import Real
from typing import NamedTuple

import numpy

from fku import space
from fku.faults import FkuError
from fku.names import Names
from fku.section_text import FARTHEST

EXACT = 2**53  # up to this all integers are exact as floating-point numbers


class Key(NamedTuple):
    """The name of a ring: the name of its object, or "" for one without; the height as it was given; and the ring's
    index in the list of this height, from 0, or its name where the rings of the height were given by names.
    """

    object: str
    z: float
    ring: int | str

    def __str__(self):
        ring = f"ring {self.ring!r} of the slice at z = {self.z:g}"
        return f"{ring} of {self.object!r}" if self.object else ring


@dataclass
class Ring:
    """One outline: its key, its name in the section text, and its points in whole units, an array n x 2."""

    key: Key
    points: numpy.ndarray
    name: str = ""


@dataclass
class Slice:
    """The outlines of an object at a height: as given, and in whole units. `by_name` says that they came as a dict."""

    z: float
    height: int
    rings: list[Ring]
    by_name: bool = False


@dataclass
class Stack:
    """An object: its name as given and in the section text, and its slices from below to above."""

    name: str
    short: str
    slices: list[Slice]


class Grid:
    """Whole units: what the unit is, and at which unit the section text counts from along x, y and z."""

    def __init__(self, unit):
        if not (isinstance(unit, Real) and math.isfinite(unit) and unit > 0):
            raise FkuError(f"unit = {unit!r}: a number above 0 is required", "INPUT")
        self.unit, self.shift = float(unit), numpy.zeros(3, dtype=numpy.int64)
        parts = round(1 / self.unit) if self.unit < 1 else 0
        self.parts = parts if parts and math.isclose(1 / self.unit, parts, rel_tol=1e-12) else 0

    def whole(self, values, where) -> numpy.ndarray:
        """Gives numbers in whole units, rounded to the nearest, not yet counted from the origin."""
        numbers = numpy.asarray(values, dtype=numpy.float64)
        farthest = numpy.abs(numbers).max(initial=0)
        if not numpy.isfinite(farthest):
            raise FkuError(f"{where}: a coordinate is not a finite number", "INPUT")
        if farthest / self.unit > EXACT:
            message = f"{where}: a coordinate is too large for a unit of {self.unit:g}"
            raise FkuError(message, "RANGE", "take a larger unit")
        return numpy.rint(numbers / self.unit).astype(numpy.int64)

    def back(self, units, over=1):
        """Gives whole units, divided by `over`, in the caller's unit. With a unit such as 0.01 the result is the
        decimal number that is meant, such as 0.57, and not one beside it.
        """
        return units / (self.parts * over) if self.parts else units * self.unit / over

    def exact_unit(self) -> Fraction:
        """Gives the unit exactly as `back` takes it: a hundredth for 0.01."""
        return Fraction(1, self.parts) if self.parts else Fraction(self.unit)

    def volume(self, six: int) -> float:
        """Gives a volume in the cube of the caller's unit, from six times the volume in cubed whole units."""
        return float(self.back(six) * self.back(1) ** 2 / 6)

    def choose(self, low: numpy.ndarray, high: numpy.ndarray) -> None:
        """Chooses the origin for whole units between these, three each: none where all are in the range as they are."""
        reach = int((high - low).max())
        if max(abs(int(low.min())), abs(int(high.max()))) <= FARTHEST:
            return
        if reach > 2 * FARTHEST:
            larger = rounded_up(self.unit * reach / (2 * FARTHEST))
            message = f"the outlines reach over {reach} units of {self.unit:g}, and the program takes {2 * FARTHEST}"
            raise FkuError(message, "RANGE", f"take a unit of {larger:g} or more")
        self.shift = (low + high) // 2


def rounded_up(number: float) -> float:
    """Gives the next 1, 2 or 5 times a power of ten."""
    power = 10.0 ** math.floor(math.log10(number))
    return next(it * power for it in (1, 2, 5, 10) if it * power >= number)


def sorted_objects(outlines) -> list[tuple[str, Mapping]]:
    """Gives the objects with their names: {z: rings} is one without a name, and so is {"": {z: rings}} with no other;
    {name: {z: rings}} are several.
    """
    if not isinstance(outlines, Mapping):
        raise FkuError("outlines must be a dict {z: [ring, ..]}, or {name: {z: [ring, ..]}}", "INPUT")
    if not outlines:
        raise FkuError("there are no outlines", "NO CONTOURS")
    if all(isinstance(it, str) for it in outlines):
        for name, slices in outlines.items():
            if not (isinstance(slices, Mapping) and (name or len(outlines) == 1)):
                due = "a name and a dict {z: [ring, ..]} are required"
                raise FkuError(f"object {name!r}: {due}", "INPUT", object=name)
        return list(outlines.items())
    return [("", outlines)]


def at(key: Key) -> dict:
    """Gives what an FkuError is to say of a ring at fault."""
    return {"object": key.object, "z": key.z, "keys": [key]}


def ring_values(ring, key: Key) -> numpy.ndarray:
    """Gives the points of a ring as float64 of shape n x 2."""
    try:
        values = numpy.asarray(ring, dtype=numpy.float64)
    except (TypeError, ValueError):
        values = numpy.zeros(0)
    if values.ndim != 2 or values.shape[1] != 2:
        hint = "each height has a list of rings: {z: [ring]}" if values.shape == (2,) else ""
        raise FkuError(f"{key}: a ring must be an array n x 2 of numbers, a row a point", "INPUT", hint, **at(key))
    return values


def ring_points(ring, key: Key, grid: Grid) -> numpy.ndarray:
    """Gives the points of a ring in whole units, without points that are the same as the next one, the last one being
    before the first.
    """
    points = grid.whole(ring_values(ring, key), key)
    following = numpy.concatenate([points[1:], points[:1]])
    kept = points[(points != following).any(axis=1)]
    if len(kept) < 3:
        message = f"{key}: {len(kept)} different points are left of {len(points)} in units of {grid.unit:g}"
        raise FkuError(message, "TOO FEW", "take a smaller unit, or leave the ring out", **at(key))
    return kept


def height_of(z, name: str, grid: Grid) -> int:
    """Gives the height of a slice in whole units."""
    if not isinstance(z, Real) or isinstance(z, bool):
        raise FkuError(f"{z!r}: the key of a slice must be its height, a number", "INPUT", object=name)
    return int(grid.whole([z], f"the height {z!r}")[0])


def keyed(name: str, z, rings) -> list[tuple[Key, object]]:
    """Gives the rings of a slice with their keys."""
    try:
        pairs = rings.items() if isinstance(rings, Mapping) else enumerate(rings)
    except TypeError:
        raise FkuError(f"the slice at z = {z:g} has no list of rings", "INPUT", object=name, z=z) from None
    return [(Key(name, z, ring), points) for ring, points in pairs]


def slices_of(name: str, slices: Mapping, grid: Grid) -> list[Slice]:
    """Gives the slices of an object by rising height."""
    found = []
    for z, given in slices.items():
        height = height_of(z, name, grid)
        rings = [Ring(key, ring_points(ring, key, grid)) for key, ring in keyed(name, z, given)]
        found.append(Slice(z, height, rings, isinstance(given, Mapping)))
    found.sort(key=lambda it: it.height)
    for low, high in zip(found, found[1:]):
        if low.height == high.height:
            message = f"the heights {low.z!r} and {high.z!r} are the same in units of {grid.unit:g}"
            hint = "take a smaller unit, or put the rings into one slice"
            raise FkuError(message, "HEIGHT", hint, object=name, z=low.z)
    if not any(it.rings for it in found):
        raise FkuError(f"object {name!r} has no ring" if name else "there is no ring", "NO CONTOURS", object=name)
    return found


@dataclass
class Text:
    """A section text, and for each of its lines where a section or a contour begins what stands there."""

    data: bytes = b""
    starts: list[int] = field(default_factory=list)
    places: list[tuple] = field(default_factory=list)

    def place(self, line: int) -> tuple:
        """Gives the stack, the slice and the ring in which a line stands, each None where there is none."""
        at = bisect.bisect_right(self.starts, line)
        return self.places[at - 1] if at else (None, None, None)


class Outlines:
    """All objects of a call, ready to be written as a section text.

    `outlines` is {z: rings} or {name: {z: rings}}; `rings` is a list of rings, or a dict of rings by their names.
    FkuError says which ring or slice cannot be used.
    """

    def __init__(self, outlines, unit, links=None):
        self.grid, self.names = Grid(unit), Names()
        self.stacks = [
            Stack(name, self.names.name(name) if name else "", slices_of(name, slices, self.grid))
            for name, slices in sorted_objects(outlines)
        ]
        for number, ring in enumerate(self.rings(), 1):
            ring.name = f"c{number}"
        self.choose_origin()
        self.links = None if links is None else self.read_links(links)

    def slices(self) -> list[tuple[Stack, Slice]]:
        """Gives all slices with their objects, in file order."""
        return [(stack, it) for stack in self.stacks for it in stack.slices]

    def rings(self) -> list[Ring]:
        """Gives all rings in file order."""
        return [ring for _, it in self.slices() for ring in it.rings]

    def keys(self) -> dict[str, Key]:
        """Gives the keys of the rings by their names in the section text."""
        return {ring.name: ring.key for ring in self.rings()}

    def choose_origin(self):
        """Chooses the origin."""
        points = [it.points for it in self.rings()]
        heights = [it.height for _, it in self.slices()]
        low = numpy.array([*numpy.min([it.min(axis=0) for it in points], axis=0), min(heights)])
        high = numpy.array([*numpy.max([it.max(axis=0) for it in points], axis=0), max(heights)])
        self.grid.choose(low, high)

    def read_links(self, links) -> dict[str, list[tuple[str, str]]]:
        """Gives the links of each object, as pairs of names in the section text, the lower one first."""
        known = {(stack.name, it.height, ring.key.ring): (it.height, ring.name)
                 for stack, it in self.slices() for ring in it.rings}  # fmt: skip
        found = {it.name: [] for it in self.stacks}
        for link in links:
            try:
                one, other = (self.key_of(it) for it in link)
            except (TypeError, ValueError):
                raise FkuError(f"{link!r}: a link is a pair of keys (object, z, ring) or (z, ring)", "INPUT") from None
            for key in (one, other):
                if key not in known:
                    message = f"the link {link!r}: there is no ring {key[2]!r} of this object at this height"
                    raise FkuError(message, "INPUT")
            if one[0] != other[0]:
                raise FkuError(f"the link {link!r} names two objects", "INPUT", "link rings of one object")
            low, high = sorted((known[one], known[other]), key=lambda it: it[0])
            found[one[0]].append((low[1], high[1]))
        return found

    def key_of(self, words) -> tuple[str, int, int | str]:
        """Gives the object, the whole height and the ring that a caller's key has."""
        name, z, ring = words if len(words) == 3 else ("", *words)
        return name, height_of(z, name, self.grid), ring

    def without(self, keys) -> "Outlines":
        """Gives the same without some rings, and without the objects that have none left. No link may name them."""
        gone, left = set(keys), object.__new__(Outlines)
        left.grid, left.names, left.links, left.stacks = self.grid, self.names, self.links, []
        for stack in self.stacks:
            slices = [Slice(it.z, it.height, [ring for ring in it.rings if ring.key not in gone], it.by_name)
                      for it in stack.slices]  # fmt: skip
            if any(it.rings for it in slices):
                left.stacks.append(Stack(stack.name, stack.short, slices))
        return left

    def pieces(self, cost: str):
        """Gives the pieces of the section text, each with the stack, the slice and the ring where it stands, or None.
        """
        named = any(it.name for it in self.stacks)
        rule = "overlap" if self.links is None else "links"
        x, y, z = self.grid.shift.tolist()
        yield f"SECTIONS {2 if named else 1}\nCOST {cost}\nPAIR {rule}\n", (None, None, None)
        for stack in self.stacks:
            if named:
                yield f"OBJECT {stack.short}\n", (stack, None, None)
            for it in stack.slices:
                yield f"SECTION {it.height - z}\n", (stack, it, None)
                for ring in it.rings:
                    points = (ring.points - (x, y)).ravel().tolist()
                    lines = "%d %d\n" * len(ring.points) % tuple(points)
                    yield f"CONTOUR {ring.name} {len(ring.points)}\n{lines}", (stack, it, ring)
            for low, high in (self.links or {}).get(stack.name, ()):
                yield f"LINK {low} {high}\n", (stack, None, None)
        yield "END\n", (None, None, None)

    def notes(self) -> list[str]:
        """Gives the comments that say where the text lies, and what the names of its objects stand for."""
        rows = []
        for axis, place in enumerate(self.grid.back(self.grid.shift).tolist()):
            rows += [self.grid.unit if it == axis else 0.0 for it in range(3)] + [place]
        return [*space.notes(space.Space(tuple(rows))), *self.names.notes()]

    def text(self, cost: str, notes=()) -> Text:
        """Gives the section text, after a comment for each note."""
        pieces, text, line = [f"# {it}\n" for it in notes], Text(), len(notes) + 1
        for piece, place in self.pieces(cost):
            pieces.append(piece)
            text.starts.append(line)
            text.places.append(place)
            line += piece.count("\n")
        text.data = "".join(pieces).encode()
        return text
