"""From outlines that were traced elsewhere to the objects of a section text: whole units, clean rings, ends, gaps."""
import fnmatch
import math
from collections import Counter
from dataclasses import dataclass, field

from fku import cleaning, lone
from fku.importers.traced import Traced
from fku.names import Names
from fku.progress import Progress
from fku.section_text import FARTHEST, Object, Section
from fku.space import Space
from fku.trouble import Trouble

FINEST = 20000  # units at least that the largest extent has, where no unit is given
NEAR = 0.02  # of the slice spacing: heights that are nearer belong to one slice
WIDE = 1.5  # of the slice spacing: wider gaps are reported


@dataclass
class Wishes:
    """What the caller asks for. Lengths are in the source's unit, areas in its square; None leaves the choice open.

    `names` are patterns of names of objects, none for all. `half_ends` puts half a slice on at either end of an object.
    Slices farther apart than `apart` are not joined. `drop_lone` leaves outlines out that are joined to nothing.
    """

    unit: float | None = None
    names: list[str] = field(default_factory=list)
    smallest: float = 0.0
    tolerance: float = 0.0
    centre: bool = False
    half_ends: bool = False
    apart: float | None = None
    drop_lone: bool = False


def chosen(traced: Traced, patterns: list[str]) -> dict:
    """Gives the objects whose names match a pattern, or all; Trouble says what cannot be used of them."""
    found = {name: it for name, it in traced.objects.items() if not patterns or any(
        matches(name, pattern) for pattern in patterns)}  # fmt: skip
    for pattern in patterns:
        if not any(matches(name, pattern) for name in found):
            raise Trouble(f"no object is named {pattern}; there are: {', '.join(traced.objects) or 'none'}")
    faults = [f"{shown(name)}: {text}" for name in found for text in traced.faults.get(name, [])]
    if faults:
        more = [f"and {len(faults) - 10} more"] if len(faults) > 10 else []
        advice = "to leave such objects out, name the others with --object" if len(traced.objects) > 1 else ""
        raise Trouble("\n".join(faults[:10] + more + ([advice] if advice else [])))
    return {name: it for name, it in found.items() if any(ring for rings in it.values() for ring in rings)}


def matches(name: str, pattern: str) -> bool:
    """Whether a name is a pattern, in which * and ? stand for any letters, and nothing else does."""
    return fnmatch.fnmatchcase(name, pattern.replace("[", "[[]"))


def shown(name: str) -> str:
    """Gives the words for an object's name."""
    return name or "the object without a name"


def levels(heights: list[float]) -> dict[float, float]:
    """Gives the height of the slice to which each height belongs: those that are far nearer than slices are one."""
    ordered = sorted(heights)
    steps = [b - a for a, b in zip(ordered, ordered[1:])]
    near = NEAR * sorted(steps)[len(steps) // 2] if steps else 0
    found, level = {}, None
    for height in ordered:
        level = height if level is None or height - level > near else level
        found[height] = level
    return found


def merged(slices: dict) -> dict[float, list]:
    """Gives the rings by the heights of slices, from below to above."""
    level_of, found = levels(list(slices)), {}
    for height in sorted(slices):
        found.setdefault(level_of[height], []).extend(slices[height])
    return found


@dataclass
class Frame:
    """The unit, and the place (x, y, z) in the source from which whole units count."""

    unit: float
    origin: tuple[float, float, float]
    moved: bool = False  # whether the origin had to be moved for the range of coordinates

    def space(self, length: str, world: str) -> Space:
        """Gives the place of whole units in the source's space."""
        u, (x, y, z) = self.unit, self.origin
        return Space((u, 0.0, 0.0, x, 0.0, u, 0.0, y, 0.0, 0.0, u, z), length, world)

    def height(self, z: float) -> int:
        """Gives a height in whole units, rounded."""
        return math.floor((z - self.origin[2]) / self.unit + 0.5)


def frame_of(objects: dict, wishes: Wishes) -> Frame:
    """Gives the unit and the origin for some objects."""
    points = [point for it in objects.values() for rings in it.values() for ring in rings for point in ring]
    lists = [*zip(*points), [height for it in objects.values() for height in it]]
    if not all(map(math.isfinite, (it for values in lists for it in values))):
        raise Trouble("a coordinate is not a finite number: the file may be damaged")
    spans = [(min(values), max(values)) for values in lists]
    extent = max(high - low for low, high in spans)
    unit = wishes.unit or (10.0 ** math.floor(math.log10(extent / FINEST)) if extent > 0 else 1.0)
    far = max(abs(it) for span in spans for it in span) / unit > FARTHEST - 1
    middle = [round((low + high) / 2 / unit) * unit for low, high in spans]
    if wishes.centre or far and extent / unit <= 2 * (FARTHEST - 2):
        return Frame(unit, tuple(middle), not wishes.centre)
    return Frame(unit, (0.0, 0.0, 0.0))


class Writer:
    """Makes the objects of a text, and keeps what to report."""

    def __init__(self, traced: Traced, wishes: Wishes):
        self.traced, self.wishes = traced, wishes
        chosen_objects = {name: merged(it) for name, it in chosen(traced, wishes.names).items()}
        if not chosen_objects:
            raise Trouble("no closed outline is left")
        self.frame = frame_of(chosen_objects, wishes)
        self.changes = []  # (object, height, note of the cleaner)
        self.notes = list(traced.notes)
        self.lone = []  # (object, outlines that are joined to nothing, how many of them were left out)
        self.names = Names()
        self.progress = Progress("contours: slice", sum(map(len, chosen_objects.values())))
        self.cleaned = 0  # slices so far
        try:
            self.objects = [self.object_of(name, slices) for name, slices in chosen_objects.items()]
        finally:
            self.progress.end()
        gone = [f"{shown(it.name)}: no outline is left" for it in self.objects if not it.sections]
        self.notes += gone
        self.objects = [it for it in self.objects if it.sections]
        if not self.objects:
            raise Trouble("\n".join([*self.told_changes(), *gone]))
        self.name_all()

    def clean(self, name, height, rings) -> list:
        """Gives clean rings of a slice."""
        x, y, _ = self.frame.origin
        self.progress.at(self.cleaned)
        self.cleaned += 1
        try:
            kept, notes = cleaning.clean(rings, self.frame.unit, (x, y), self.wishes.smallest, self.wishes.tolerance)
        except Trouble as it:
            raise Trouble(f"{shown(name)} at height {height:g}: {it}", it.status) from None
        self.changes += [(name, height, note) for note in notes]
        return kept

    def object_of(self, name: str, slices: dict) -> Object:
        """Gives the object of clean sections, as far as some are left."""
        found = {z: self.clean(name, z, rings) for z, rings in slices.items()}
        runs = self.runs(name, [(z, rings) for z, rings in found.items() if rings])
        sections = []
        for number, run in enumerate(runs):
            if number:
                sections.append(Section(self.frame.height((runs[number - 1][-1][0] + run[0][0]) / 2)))
            sections += [Section(self.frame.height(z), [("", ring) for ring in rings]) for z, rings in run]
        for low, high in zip(sections, sections[1:]):
            if low.height >= high.height:
                raise Trouble(f"{shown(name)}: two slices have the same height in whole units: give a smaller --unit")
        return Object(name, self.without_lone(name, sections))

    def runs(self, name, slices) -> list[list]:
        """Gives the runs of slices (height, rings) that are to be joined, with half slices at their ends if asked."""
        if not slices:
            return []
        steps = [b - a for (a, _), (b, _) in zip(slices, slices[1:])]
        thickness = min(steps) if steps else self.traced.spacing
        if self.wishes.half_ends and steps and (self.wishes.apart or thickness) < thickness:
            apart = f"--apart {self.wishes.apart:g} joins none: give more"
            raise Trouble(f"{shown(name)}: slices are {thickness:g} apart, so {apart}")
        runs = [[slices[0]]]
        for step, it in zip(steps, slices[1:]):
            if self.wishes.apart is not None and step > self.wishes.apart:
                runs.append([it])
            else:
                runs[-1].append(it)
        if steps and self.wishes.apart is None and max(steps) > WIDE * thickness:
            wide = sum(it > WIDE * thickness for it in steps)
            self.notes.append(
                f"{shown(name)}: slices are {thickness:g} apart; wider gaps, up to {max(steps):g}, that are bridged: "
                f"{wide} (--apart {WIDE * thickness:g} leaves them open)"
            )
        return [self.with_ends(name, run, thickness) for run in runs] if self.wishes.half_ends else runs

    def with_ends(self, name, run, thickness):
        """Gives a run with its first and last slice once more, half a thickness farther out."""
        if thickness is None:
            raise Trouble(f"{shown(name)} has one slice, and half slices need its thickness: give --spacing")
        (low, below), (high, above) = run[0], run[-1]
        return [(low - thickness / 2, below), *run, (high + thickness / 2, above)]

    def without_lone(self, name, sections):
        """Gives sections without the outlines that are joined to nothing, if asked for, and counts them."""
        for it in sections:
            it.contours = [(f"{at}", ring) for at, (_, ring) in enumerate(it.contours)]
        found = lone.find(sections)
        gone = lone.droppable(sections, found) if self.wishes.drop_lone else []
        if found:
            self.lone.append((name, len(found), len(gone)))
        sections = lone.without(sections, gone) if gone else sections
        while sections and not sections[-1].contours:
            sections.pop()
        while sections and not sections[0].contours:
            sections.pop(0)
        return sections

    def name_all(self):
        """Names objects and contours, each contour by the number of its slice among all heights, from 0."""
        heights = sorted({section.height for it in self.objects for section in it.sections})
        number_of, count = {height: at for at, height in enumerate(heights)}, Counter()
        for it in self.objects:
            for section in it.sections:
                number = number_of[section.height]
                named = [(f"s{number}_{count[number] + at}", ring) for at, (_, ring) in enumerate(section.contours)]
                count[number] += len(named)
                section.contours = named
        if len(self.objects) > 1 or self.objects[0].name:
            for it in self.objects:
                it.name = self.names.name(it.name or "unnamed")

    def told_changes(self) -> list[str]:
        """Gives the lines of the report for changes of single outlines: those worth a look one by one, and a count of
        the others.
        """
        told, counts = [], Counter()
        for name, height, note in self.changes:
            counts[note.kind] += 1
            if note.kind in (cleaning.CROSSING, cleaning.CUT, cleaning.LOST, cleaning.TWICE):
                told.append(f"{shown(name)} at height {height:g}: {note}")
        more = [f"{len(told) - 20} more of this sort"] if len(told) > 20 else []
        words = {cleaning.CLOSING: "repeated their first point at the end", cleaning.REPEATS: "repeated points",
                 cleaning.BACK: "ran back over an edge",
                 cleaning.KEYHOLE: "ran along themselves, as keyholes do, and became several of the same area",
                 cleaning.SMALL: "were smaller than --smallest, and were left out",
                 cleaning.THINNED: "were thinned"}  # fmt: skip
        return told[:20] + more + [f"outlines that {it}: {counts[kind]}" for kind, it in words.items() if counts[kind]]
