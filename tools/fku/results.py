"""What the calls of the package `fku` give. Lengths are in the unit of the given rings, unless a line says otherwise.

The arrays are of numpy. A `Key` is (object, z, ring): the name of a ring, as `fku.stacks.Key` says.
"""
from dataclasses import dataclass, field
from typing import NamedTuple

import numpy

from fku.faults import FkuError
from fku.instruments import Measured
from fku.stacks import Key


class Area(NamedTuple):
    """Two numbers between which an area lies, in squared units of length: it is `low` at least and `high` at most."""

    low: float
    high: float


class Instruments:
    """The measures and crossings of a part or a mesh: of the surface as the program wrote it, even if the arrays have
    changed. The program runs at the first use of a measure, or of a crossing, and the package keeps its answer.
    FkuError is raised where the program refuses, and for a mesh that no call of the package made.
    """

    _measured: Measured | None

    def _measures(self) -> Measured:
        """Gives the measures."""
        if self._measured is None:
            raise FkuError("the mesh is not from `reconstruct`, and cannot be measured", "INPUT")
        return self._measured

    @property
    def area(self) -> Area:
        """The area of the faces in the square of the unit of length: two numbers between which it lies, `low` and
        `high`. They differ by at most a 2,000th of the squared `unit` for each face, and by the rounding of floats.
        """
        return Area(*self._measures().area())

    @property
    def centroid(self) -> numpy.ndarray | None:
        """The centre of mass of the inside, filled evenly: float64 of 3, rounded once. Parts count by their volumes,
        and one whose volume is below 0 is taken away. None where the volume is 0.
        """
        return self._measures().centroid()

    @property
    def bounds(self) -> numpy.ndarray:
        """The least x, y, z of the vertices, and the greatest: float64 of shape 2 x 3."""
        return self._measures().bounds()

    @property
    def crossing_pairs(self) -> int:
        """How many pairs of faces of one part cross: an edge of one passes through the inside of the other. Faces that
        share a vertex, touch, or overlap in one plane do not cross by that alone.
        """
        return self._measures().crossing_pairs()


@dataclass(frozen=True, eq=False)
class Part(Instruments):
    """The surface of one object, which is closed by itself.

    `name` is the object's name, "" for the one without. `faces` is int64 of shape k x 3, indices of the whole mesh's
    vertices; `vertices` the range of these indices that are this object's; `volume` the volume inside, in cubed units
    of length: what lies in a hole does not count. `area`, `centroid`, `bounds`, `crossing_pairs`, `edges`, `many` and
    `closed` are found when they are first asked for.
    """

    name: str
    faces: numpy.ndarray
    vertices: range
    volume: float
    _measured: Measured | None = None

    @property
    def edges(self) -> int:
        """How many edges the part has, an edge and its reverse being one."""
        return self._measures().edges()[0]

    @property
    def many(self) -> int:
        """How many of its edges more than two faces have: such edges arise where rings branch."""
        return self._measures().edges()[1]

    @property
    def closed(self) -> bool:
        """Whether the part is closed: each directed edge occurs as often as its reverse."""
        return self._measures().closed()

    def __repr__(self):
        return f"Part({self.name!r}, {len(self.faces)} faces, volume {self.volume:g})"


@dataclass(frozen=True, eq=False)
class Mesh(Instruments):
    """A closed triangle surface.

    `vertices` is float64 of shape n x 3: the points of the rings, rounded to the unit, in file order. `faces` is int64
    of shape m x 3, indices of vertices from 0: from outside, a triangle runs counterclockwise. `parts` has a `Part` for
    each object, in order, and its faces stand so in `faces`. `volume` is that of all parts together; what objects share
    counts for each. `lone` has the keys of all rings given that are joined to nothing; with `lone="drop"` the mesh is
    without them, but for holes around something that is joined. `rings` says which vertices are those of a ring: a
    range for the key of each ring of the mesh. `area`, `centroid`, `bounds`, `crossings` and `crossing_pairs` are found
    when they are first asked for.
    """

    vertices: numpy.ndarray
    faces: numpy.ndarray
    parts: list[Part]
    volume: float
    lone: list[Key]
    rings: dict[Key, range] = field(default_factory=dict)
    _measured: Measured | None = None

    @property
    def crossings(self) -> numpy.ndarray:
        """For each face, how many faces of its part it crosses, as `crossing_pairs` says: int64 of shape m."""
        return self._measures().crossings()

    @property
    def names(self) -> list[str]:
        """The names of the parts, in order."""
        return [it.name for it in self.parts]

    @property
    def volumes(self) -> numpy.ndarray:
        """The volumes of the parts: float64, one for each."""
        return numpy.array([it.volume for it in self.parts])

    def part(self, which: str | int) -> "Mesh":
        """Gives a part alone, by its name or its index from 0: a mesh with its own vertices, faces and rings.

        A KeyError or an IndexError says that there is no such part.
        """
        if isinstance(which, str) and which not in self.names:
            raise KeyError(which)
        it = self.parts[self.names.index(which) if isinstance(which, str) else which]
        first, end = it.vertices.start, it.vertices.stop
        faces = it.faces - first
        alone = Part(it.name, faces, range(end - first), it.volume, it._measured)
        lone = [key for key in self.lone if key.object == it.name]
        rings = {
            key: range(at.start - first, at.stop - first) for key, at in self.rings.items() if key.object == it.name
        }  # fmt: skip
        return Mesh(self.vertices[first:end], faces, [alone], it.volume, lone, rings, it._measured)

    def __repr__(self):
        shape = f"{len(self.vertices)} vertices, {len(self.faces)} faces, {len(self.parts)} parts"
        return f"Mesh({shape}, volume {self.volume:g}, {len(self.lone)} lone rings)"


class Report(NamedTuple):
    """The numbers of `report`: what was given (integers), the triangles of the surface, how many of them are
    folded caps, the pairs of rings that are joined, what their tilings cost together (an integer; in squared whole
    units for `span`, and to the power of four for `area`), and the volume inside the surface, in cubed units of length.
    """

    sections: int
    contours: int
    vertices: int
    triangles: int
    folded: int
    pairs: int
    cost: int
    volume: float


class Tiling(NamedTuple):
    """The chosen tiling of one pair of rings.

    `pair` is its number from 1, through all objects; `object` the object's name; `below` and `above` are lists of the
    keys of the rings that are joined; `rows` and `columns` say how many vertices the lower and the upper ring have,
    where a bridge counts two more; `cost` is an integer, in whole units as `Report` says; the tiling begins at the
    span from vertex `start` of the lower ring to vertex 0 of the upper one, and `word` has a letter for each triangle:
    `V` goes on along the lower ring, `H` along the upper one.
    """

    pair: int
    object: str
    below: list[Key]
    above: list[Key]
    rows: int
    columns: int
    cost: int
    start: int
    word: str


class Loop(NamedTuple):
    """One closed loop of a slice: the name of its object, the height, and its points, float64 of shape k x 2; the last
    is joined to the first. The height is the one asked for, rounded to the unit; the points are not rounded.
    """

    object: str
    z: float
    points: numpy.ndarray


@dataclass(frozen=True, eq=False)
class Certificate:
    """What shows that a tiling is least: see docs/formats.md.

    `pair`, `rows`, `columns`, `cost`, `start` and `word` are as in `Tiling`; `potential` has an integer for each
    place of the strip, of shape 2 rows x (columns + 1): int64, or Python's integers where these are too small. `text`
    is the certificate as the program wrote it, which `check` takes.
    """

    pair: int
    rows: int
    columns: int
    cost: int
    start: int
    word: str
    potential: numpy.ndarray
    text: bytes


class Verdict(NamedTuple):
    """What `check` says of a certificate: whether it holds, and the line that the program printed, such as `ACCEPT PAIR
    1 COST 1200` or `REJECT COST`. It is true where the certificate holds.
    """

    accepted: bool
    line: str

    def __bool__(self):
        return self.accepted


class Source(NamedTuple):
    """What `read_outlines` gives: outlines as the other calls take them, in the unit and place of the file; the name of
    the unit of length, such as mm, and of the axes, RAS or LPS, each empty where the file does not say; the slice
    spacing or None; and what was passed over, in plain words.
    """

    outlines: dict
    length: str
    world: str
    spacing: float | None
    notes: list[str]


class Note(NamedTuple):
    """What `clean` changed of one ring: its key among the rings given; a word for the kind of change, one of those at
    the front of `fku.cleaning`; and plain words.
    """

    key: Key
    kind: str
    text: str

    def __str__(self):
        return f"{self.key}: {self.text}"


class Cleaned(NamedTuple):
    """What `clean` gives: outlines as the other calls take them, in the form of those given but with lists of rings,
    rounded to the unit; and a `Note` for each change.
    """

    outlines: dict
    notes: list[Note]


class Dense(NamedTuple):
    """What `densify` gives: outlines as the other calls take them, {z: [ring, ..]} or {name: {z: [ring, ..]}}, with the
    rings rounded to the unit; the links between them, for `links=`; and the keys of the rings that are new.
    """

    outlines: dict
    links: list[tuple[Key, Key]]
    added: list[Key]
