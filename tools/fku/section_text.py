"""Section texts of fku: their parts, their limits, how they are written, and a plain reader.

The standard library is enough.
"""
import math
import re
from dataclasses import dataclass, field

from fku.faults import see_answer
from fku.trouble import Trouble

FARTHEST = 999999
MOST_OBJECTS, MOST_SECTIONS, MOST_CONTOURS, MOST_VERTICES = 1024, 16384, 65536, 2097152
MOST_SECTION_VERTICES, MOST_CONTOUR_VERTICES, MOST_BYTES = 16384, 4096, 67108864
MOST_NAME = 64  # letters of a name
NAME_RULE = f"1 to {MOST_NAME} ASCII letters, digits, `_`, `-` and `.`"

# The limits by the names that refusals have for them.
LIMITS = {
    "bytes": MOST_BYTES, "objects": MOST_OBJECTS, "sections": MOST_SECTIONS, "contours": MOST_CONTOURS,
    "vertices": MOST_VERTICES, "section_vertices": MOST_SECTION_VERTICES, "contour_vertices": MOST_CONTOUR_VERTICES,
    "links": 131072, "edits": 1000,
}  # fmt: skip


@dataclass
class Section:
    """A height, and the contours at it: pairs of a name and a list of points (x, y). All numbers are whole."""

    height: int
    contours: list = field(default_factory=list)

    def vertices(self) -> int:
        """Gives how many points its contours have."""
        return sum(len(points) for _, points in self.contours)


@dataclass
class Object:
    """A name, which is empty for the one object of a text of version 1, and sections."""

    name: str
    sections: list[Section] = field(default_factory=list)


FEWER_POINTS = "raise --tolerance, so that fewer points are kept"


def see(number: int, most: int, limit: str, advice: str) -> None:
    """Refuses a number above a limit, with what to change."""
    if number > most:
        raise Trouble(f"{limit}: {number}, and the limit is {most}: {advice}")


def is_name(word: str) -> bool:
    """Whether a word is a name, by the rule above."""
    return re.fullmatch(f"[A-Za-z0-9_.-]{{1,{MOST_NAME}}}", word) is not None


def check(objects: list[Object]) -> None:
    """Refuses objects that are past a limit of the section text, and says which, and what to change."""
    for it in objects:
        if not any(section.contours for section in it.sections):
            raise Trouble("there is no outline" + (f" of {it.name}" if it.name else ""))
    see(len(objects), MOST_OBJECTS, "objects", "give fewer")
    sections = [section for it in objects for section in it.sections]
    contours = [(it, name, points) for it in sections for name, points in it.contours]
    see(len(sections), MOST_SECTIONS, "slices", "raise --every, or give --first and --last")
    see(len(contours), MOST_CONTOURS, "outlines", "raise --smallest, --smooth or --every")
    for section, name, points in contours:
        see(len(points), MOST_CONTOUR_VERTICES, f"points of {name} at height {section.height}", FEWER_POINTS)
    for it in sections:
        see(it.vertices(), MOST_SECTION_VERTICES, f"points of the slice at height {it.height}", FEWER_POINTS)
    see(sum(it.vertices() for it in sections), MOST_VERTICES, "points", f"{FEWER_POINTS}, or raise --every")
    far = max(max(map(abs, (it.height, *point))) for it, _, points in contours for point in points)
    larger = math.ceil(far / FARTHEST * 100) / 100
    see(far, FARTHEST, "farthest coordinate or height", f"give --centre, or a --unit {larger:g} times as large")


def lines_of(sections: list[Section]) -> list[str]:
    """Gives the lines of sections."""
    lines = []
    for section in sections:
        lines.append(f"SECTION {section.height}")
        for name, points in section.contours:
            lines.append(f"CONTOUR {name} {len(points)}")
            lines += [f"{x} {y}" for x, y in points]
    return lines


def text_of(objects: list[Object], cost: str, notes: list[str]) -> bytes:
    """Gives the text: a comment for each note, and the objects under `PAIR overlap`; the version is 2 where they have
    names.
    """
    version = 2 if any(it.name for it in objects) else 1
    lines = [f"# {it}" for it in notes] + [f"SECTIONS {version}", f"COST {cost}", "PAIR overlap"]
    for it in objects:
        lines += [f"OBJECT {it.name}"] if it.name else []
        lines += lines_of(it.sections)
    data = ("\n".join(lines) + "\nEND\n").encode("utf-8", "replace")
    see(len(data), MOST_BYTES, "bytes", FEWER_POINTS)
    return data


def read(data: bytes, path: str) -> list[Object]:
    """Gives the objects of a text that fku takes; what fku refuses may be read or not."""
    see_answer(data, path, "section text")
    objects, due = [], 0
    for number, line in enumerate(data.decode("ascii", "replace").split("\n"), 1):
        words = line.split()
        if not words or words[0].startswith("#"):
            continue
        try:
            if due:
                objects[-1].sections[-1].contours[-1][1].append((int(words[0]), int(words[1])))
                due -= 1
            elif words[0] == "SECTIONS":
                objects += [Object("")] if int(words[1]) == 1 else []
            elif words[0] == "OBJECT":
                objects.append(Object(words[1]))
            elif words[0] == "SECTION":
                objects[-1].sections.append(Section(int(words[1])))
            elif words[0] == "CONTOUR":
                objects[-1].sections[-1].contours.append((words[1], []))
                due = int(words[2])
            elif words[0] == "END":
                return objects
            elif words[0] not in ("COST", "PAIR", "LINK"):
                raise ValueError
        except (ValueError, IndexError):
            raise Trouble(f"{path}: line {number} is not a line of a section text") from None
    raise Trouble(f"{path}: has no END: the section text is not complete")
