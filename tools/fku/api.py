"""The calls of the package `fku`: surfaces from outlines, tilings, slices, certificates and more. It needs numpy.

The arguments that several calls have:

- `outlines`: `{z: [ring, ..]}`, z being the height of a slice and a ring an array of shape n x 2 with a point x, y in
  each row; or several objects, `{name: {z: [ring, ..]}}`. A ring has at least three points, is closed whether or not it
  repeats its first point, and may run either way round. A ring inside another is a hole, one in a hole an island. In
  place of a list, a slice may have a dict of rings by name. x, y and z are in one unit of length, the caller's.
- `unit`: the length, above 0, to which all coordinates are rounded, in the caller's unit. The program works with
  integers from -999,999 to 999,999, so the outlines may reach over 1,999,998 units; the package chooses the origin.
- `cost`: what the least surface is measured by: "area" (squared doubled areas of tiles), "span" (squared lengths of the
  edges between slices), or ("mix", a, b), integer weights of span and area from 0 to 1000, not both 0.
- `links`: None, where overlaps decide which rings are joined; or a list of pairs of keys, and no other rings are
  joined. For an object without a name a key may be (z, ring).
- `workers`: threads, 1 to 64; they do not change the result.

A ring has the key `(object, z, ring)`: the name of its object, or ""; its height; its index from 0, or its name.

The program does all the geometry; `fku.program.find` says where the package looks for it. Each call raises `FkuError`
where the program refuses the outlines, where they have another shape, and where there is no program. Its attributes say
which slice and which ring is at fault, and what to change.
"""
import re
from dataclasses import replace
from numbers import Real

import numpy

from fku import at_fault, cleaning, contour_text, fast_byu, importers, lone as lone_rings, program
from fku.exact_volume import six_volume
from fku.faults import FkuError
from fku.instruments import Measured, Surface
from fku.results import Area, Certificate, Cleaned, Dense, Loop, Mesh, Note, Part, Report, Source, Tiling, Verdict
from fku.section_text import FARTHEST, Section
from fku.stacks import Grid, Key, Outlines, height_of, keyed, ring_values, sorted_objects
from fku.trouble import Trouble

__all__ = [
    "Area", "Certificate", "Cleaned", "Dense", "FkuError", "Key", "Loop", "Mesh", "Note", "Part", "Report", "Source",
    "Tiling", "Verdict", "certify", "check", "clean", "densify", "read_outlines", "reconstruct", "report", "slice",
    "tilings", "to_text",
]  # fmt: skip


def cost_words(cost) -> str:
    """Gives a cost as a section text has it."""
    words = cost.split() if isinstance(cost, str) else [str(it) for it in cost] if isinstance(cost, tuple) else []
    if not words or any(set(it) & set("#\r\n") or not it.isascii() for it in words):
        raise FkuError(f"cost = {cost!r}", "INPUT", at_fault.COSTS)
    return " ".join(words)


class Call:
    """One call: the outlines, their section text, and the answers of the program."""

    def __init__(self, outlines: Outlines, cost):
        self.outlines, self.cost = outlines, cost_words(cost)
        self.text = outlines.text(self.cost)

    def answer(self, words: list[str], more: bytes = b"") -> bytes:
        """Gives what the program writes for these words and the section text, with `more` after it."""
        status, out = at_fault.started(words, self.text.data + more)
        if status == program.REFUSED:
            raise at_fault.refused(out, self.outlines, self.text, self.cost)
        return out

    def lines(self, words: list[str], more: bytes = b"") -> list[list[str]]:
        """Gives the lines that the program writes, each as its words."""
        return [line.split() for line in self.answer(words, more).decode("ascii").splitlines()]

    def names(self) -> dict[str, str]:
        """Gives the names of the objects by those in the section text."""
        return {it.short: it.name for it in self.outlines.stacks}


def with_workers(command: str, workers) -> list[str]:
    """Gives the words of a command with a number of workers."""
    if isinstance(workers, bool) or not isinstance(workers, int) or not 1 <= workers <= 64:
        raise FkuError(f"workers = {workers!r}: an integer from 1 to 64 is required", "INPUT")
    return [command, f"--workers={workers}"]


def reconstruct(outlines, unit=0.01, cost="area", links=None, ring_caps=False, lone="keep", workers=4) -> Mesh:
    """Gives the closed triangle surface of outlines, a `Mesh`: walls of least cost between neighbouring slices, and
    caps where a ring is joined to nothing below or above.

    With `ring_caps` an outline and the holes that end with it get one cap, which leaves the holes open; otherwise each
    ring has its own cap. A ring that is joined to nothing at all is a flat flake of two caps; `lone="drop"` leaves such
    rings out, and an object of which none is left has no part. `mesh.lone` names them in either case. `fku.api` says
    what the other arguments are, and when FkuError is raised.
    """
    if lone not in ("keep", "drop"):
        raise FkuError(f'lone = {lone!r}: "keep" or "drop" is required', "INPUT")
    words = with_workers("ringcaps" if ring_caps else "reconstruct", workers)
    given = Outlines(outlines, unit, links)
    mesh = mesh_of(Call(given, cost), words)
    gone = droppable(given, mesh.lone) if lone == "drop" else []
    if not gone:
        return mesh
    if len(gone) == len(given.rings()):
        raise FkuError("no ring is left: each is joined to nothing", "NO CONTOURS", 'take lone="keep"')
    less = mesh_of(Call(given.without(gone), cost), words)
    return replace(less, lone=mesh.lone)


def mesh_of(call: Call, words: list[str]) -> Mesh:
    """Gives the mesh that the program makes."""
    text, grid = call.answer(words), call.outlines.grid
    found = fast_byu.arrays(text)
    if found is None:
        raise FkuError("the output of the program is not a surface", "ENDED")
    points, faces = (numpy.ascontiguousarray(it, dtype=numpy.int64) for it in found[:2])
    surface, ranges = Surface(text, grid, found[2]), vertex_ranges(call.outlines)
    parts, whole = parts_of(call.outlines, points, faces, surface), Measured(surface, range(len(surface.sizes)))
    volume, lone = sum(it.volume for it in parts), lone_in(points, faces, ranges)
    return Mesh(grid.back(points + grid.shift), faces, parts, volume, lone, ranges, whole)


def parts_of(outlines: Outlines, points, faces, surface: Surface) -> list[Part]:
    """Gives the parts of a surface. The points are in whole units."""
    parts, first, face = [], 0, 0
    for number, (stack, size) in enumerate(zip(outlines.stacks, surface.sizes)):
        count = sum(len(ring.points) for it in stack.slices for ring in it.rings)
        of_part = faces[face : face + size]
        volume = outlines.grid.volume(six_volume(points, of_part))
        own = Measured(surface, range(number, number + 1))
        parts.append(Part(stack.name, of_part, range(first, first + count), volume, own))
        first, face = first + count, face + size
    return parts


def vertex_ranges(outlines: Outlines) -> dict[Key, range]:
    """Gives which vertices of the surface each ring has."""
    ranges, first = {}, 0
    for ring in outlines.rings():
        ranges[ring.key] = range(first, first + len(ring.points))
        first += len(ring.points)
    return ranges


def lone_in(points, faces, ranges) -> list[Key]:
    """Gives the keys of the rings of which no triangle leads to another height: all others are joined."""
    heights = points[faces, 2]
    leads = (heights != heights[:, :1]).any(axis=1)
    joined = numpy.zeros(len(points), dtype=bool)
    joined[faces[leads]] = True
    return [key for key, at in ranges.items() if not joined[at.start]]


def droppable(outlines: Outlines, keys: list[Key]) -> list[Key]:
    """Gives those of some keys whose rings can go without a change of the other rings."""
    found, wanted = [], set(keys)
    for _, it in outlines.slices():
        places = [(0, number) for number, ring in enumerate(it.rings) if ring.key in wanted]
        if places:
            section = Section(it.height, [(ring.name, list(map(tuple, ring.points.tolist()))) for ring in it.rings])
            found += [it.rings[number].key for _, number in lone_rings.droppable([section], places)]
    return found


def report(outlines, unit=0.01, cost="area", links=None, workers=4) -> Report:
    """Gives the numbers of outlines and of their surface, a `Report`.

    `fku.api` says what the arguments are, and when FkuError is raised.
    """
    call = Call(Outlines(outlines, unit, links), cost)
    numbers = [int(words[1]) for words in call.lines(with_workers("report", workers))]
    return Report(*numbers[:7], volume=call.outlines.grid.volume(numbers[7]))


def tilings(outlines, unit=0.01, cost="area", links=None, workers=4) -> list[Tiling]:
    """Gives the least tiling of each pair of rings that are joined, a list of `Tiling`.

    `fku.api` says what the arguments are, and when FkuError is raised.
    """
    call = Call(Outlines(outlines, unit, links), cost)
    keys, lines = call.outlines.keys(), call.lines(with_workers("tilings", workers))
    found = []
    for at, words in enumerate(lines):
        if words[0] == "PAIR":
            below, above = ([keys[name] for name in lines[at + side][1:]] for side in (1, 2))
            rows, columns, cost_of, start = (int(it) for it in lines[at + 3][1::2])
            word = lines[at + 4][1]
            found.append(Tiling(int(words[1]), below[0].object, below, above, rows, columns, cost_of, start, word))
    return found


def slice(outlines, z, unit=0.01, cost="area", links=None, workers=4) -> list[Loop]:
    """Gives the loops in which the surface passes the height z, a list of `Loop`, object by object.

    z is in the outlines' unit of length, and is rounded to `unit`. FkuError is raised where it does not lie strictly
    between two slices of some object (kind `HEIGHT OUTSIDE`), or is the height of a slice (`HEIGHT ON SECTION`).
    `fku.api` says what the other arguments are, and when else FkuError is raised.
    """
    if not isinstance(z, Real):
        raise FkuError(f"z = {z!r} is not a number", "INPUT")
    call = Call(Outlines(outlines, unit, links), cost)
    grid, names = call.outlines.grid, call.names()
    height = int(grid.whole([z], f"z = {z!r}")[0]) - int(grid.shift[2])
    if abs(height) > FARTHEST:
        raise FkuError(f"z = {z!r} lies below the first slice, or above the last one", "HEIGHT OUTSIDE", z=z)
    lines = iter(call.lines([*with_workers("slice", workers), f"--height={height}"]))
    found, name, over, place = [], "", 1, float(grid.back(height + int(grid.shift[2])))
    for words in lines:
        if words[0] == "OBJECT":
            name = names[words[1]]
        elif words[0] == "SLICE":
            over = int(words[3])
        else:
            points = numpy.array([next(lines) for _ in range(int(words[1]))], dtype=numpy.int64)
            found.append(Loop(name, place, grid.back(points + grid.shift[:2] * over, over)))
    return found


def certify(outlines, pair=1, unit=0.01, cost="area", links=None) -> Certificate:
    """Gives the certificate that the chosen tiling of a pair is least, a `Certificate`. `pair` is the number of the
    pair in `tilings`, from 1; FkuError of kind `NO PAIR` says that there are fewer.

    `fku.api` says what the other arguments are, and when else FkuError is raised.
    """
    if isinstance(pair, bool) or not isinstance(pair, int) or pair < 1:
        raise FkuError(f"pair = {pair!r}: an integer of 1 or more is required", "INPUT")
    text = Call(Outlines(outlines, unit, links), cost).answer(["certify", f"--pair={pair}"])
    lines = [line.split() for line in text.decode("ascii").splitlines()]
    number, rows, columns, cost_of, start = (int(it) for it in lines[0][3::2])
    potential = [[int(it) for it in line] for line in lines[2 : 2 + 2 * rows]]
    large = max(max(map(abs, row)) for row in potential) >= 2**63
    values = numpy.array(potential, dtype=object if large else numpy.int64)
    return Certificate(number, rows, columns, cost_of, start, lines[1][1], values, text)


def check(outlines, certificate, unit=0.01, cost="area", links=None) -> Verdict:
    """Gives the program's verdict on a certificate for these outlines, a `Verdict`, which is true where it holds. The
    check does not depend on how the certificate was found.

    `certificate` is a `Certificate`, or its text as bytes; FkuError of kind `CERT FORM` says that the text is not a
    certificate. `fku.api` says what the other arguments are, and when else FkuError is raised.
    """
    text = certificate.text if isinstance(certificate, Certificate) else certificate
    if not isinstance(text, bytes):
        raise FkuError("the certificate must be a Certificate, or its text as bytes", "INPUT")
    line = Call(Outlines(outlines, unit, links), cost).answer(["check"], text).decode("ascii").strip()
    return Verdict(line.startswith("ACCEPT"), line)


def densify(outlines, unit=0.01, cost="area", links=None, workers=4) -> Dense:
    """Gives outlines of one object with a new slice half way between two that are at least two units apart, where
    rings are joined one to one: a `Dense`, whose outlines and links the other calls take.

    `fku.api` says what the arguments are, and when FkuError is raised; it also is for several objects (kind `ONE
    OBJECT`), and where a new slice, rounded to the unit, has a fault (kind `MID`).
    """
    call = Call(Outlines(outlines, unit, links), cost)
    return dense_of(call, call.lines(with_workers("densify", workers)))


def dense_of(call: Call, lines: list[list[str]]) -> Dense:
    """Gives the outlines that the lines of `densify` have."""
    grid, (stack,) = call.outlines.grid, call.outlines.stacks
    given = {it.height: it for it in stack.slices}
    old, keys, added, slices, pairs = call.outlines.keys(), {}, [], {}, []
    lines = iter(lines)
    for words in lines:
        if words[0] == "SECTION":
            height = int(words[1]) + int(grid.shift[2])
            z = given[height].z if height in given else float(grid.back(height))
            rings = slices[z] = {} if height in given and given[height].by_name else []
        elif words[0] == "CONTOUR":
            points = numpy.array([next(lines) for _ in range(int(words[2]))], dtype=numpy.int64)
            values = grid.back(points + grid.shift[:2])
            keys[words[1]] = old.get(words[1]) or Key(stack.name, z, len(rings))
            added += [] if words[1] in old else [keys[words[1]]]
            if isinstance(rings, dict):
                rings[keys[words[1]].ring] = values
            else:
                rings.append(values)
        elif words[0] == "LINK":
            pairs.append((keys[words[1]], keys[words[2]]))
    return Dense({stack.name: slices} if stack.name else slices, pairs, added)


def to_text(outlines, unit=0.01, cost="area", links=None) -> bytes:
    """Gives the section text of outlines, for the program's other commands and the companion tools. Comments at its
    front say where it lies and what the names of its objects stand for; contours are named c1, c2 and so on, in order.

    `fku.api` says what the arguments are. FkuError is raised where they have another shape; the program does not run.
    """
    given = Outlines(outlines, unit, links)
    return given.text(cost_words(cost), given.notes()).data


def read_outlines(path, kind=None, objects=(), **options) -> Source:
    """Gives the outlines of a file that another program wrote, a `Source`: a table of points, regions of ImageJ, a
    DICOM structure set, a model of IMOD and more; docs/importing.md has the list.

    `kind` is one of `fku.importers.KINDS`; None finds it by the file's first bytes and suffix. `objects` are the names
    to take, in which * and ? stand for any letters; none takes all. `options` are those of `tools/contours` for this
    kind, such as `spacing=2.5`, `pixel=0.5`, `close=True`. Heights that are far nearer to each other than slices count
    as one. FkuError says what cannot be read or used. Give the outlines to `clean` next.
    """
    if kind not in (None, *importers.KINDS):
        raise FkuError(f"kind = {kind!r}: one of {', '.join(importers.KINDS)} is required", "INPUT")
    try:
        traced = importers.read(str(path), kind, **options)
        chosen = contour_text.chosen(traced, [objects] if isinstance(objects, str) else list(objects))
    except Trouble as it:
        raise FkuError(re.sub(r"--([a-z]+)", r"`\1=`", str(it)), "INPUT") from None
    found = {
        name: {z: [numpy.array(ring, dtype=float).reshape(-1, 2) for ring in rings]
               for z, rings in contour_text.merged(slices).items()}
        for name, slices in chosen.items()
    }  # fmt: skip
    outlines = found[""] if list(found) == [""] else found
    return Source(outlines, traced.length, traced.world, traced.spacing, traced.notes)


def clean(outlines, unit=0.01, smallest=0.0, thinning=0.0) -> Cleaned:
    """Gives outlines that the program accepts, a `Cleaned`, of rings that cross or touch themselves or others, such as
    keyholes and bow ties, or that lose their shape by rounding.

    The rings of a slice bound a region by the even-odd rule: the points inside an odd number of them. The result bounds
    the same region, rounded to `unit`; give it to the other calls with the same unit. `smallest` is the least area of a
    ring, `thinning` the least area of a point's triangle with its neighbours, both from 0 in the square of the rings'
    unit of length; what has less is left out. An object without a ring is left out; a slice without one stays, empty.
    Rings that cross need shapely. FkuError is raised where `outlines` have another shape, or shapely is missing.
    """
    grid, objects, notes = Grid(unit), {}, []
    for name, slices in sorted_objects(outlines):
        found = {}
        for z, given in slices.items():
            height_of(z, name, grid)
            found[z], told = clean_slice(keyed(name, z, given), grid, smallest, thinning)
            notes += told
        if any(found.values()):
            objects[name] = found
    return Cleaned(objects.get("", {}) if "" in objects or not objects else objects, notes)


def clean_slice(rings, grid: Grid, smallest: float, thinning: float):
    """Gives the rings of one slice, as arrays in the caller's unit, and notes. The rings given have their keys."""
    values = [ring_values(ring, key) for key, ring in rings]
    try:
        whole, notes = cleaning.clean(values, grid.unit, (0.0, 0.0), smallest, thinning)
    except Trouble as it:
        raise FkuError(str(it), "INPUT") from None
    told = [Note(rings[it.ring][0], it.kind, it.text) for it in notes]
    return [grid.back(numpy.array(points)) for points in whole], told
