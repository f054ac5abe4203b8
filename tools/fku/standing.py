"""What may stand at a line of a section text, seen from the lines before it. The standard library is enough."""
import re
from dataclasses import dataclass, field

from fku.section_text import Section

KEYWORDS = ("SECTIONS", "COST", "PAIR", "OBJECT", "SECTION", "CONTOUR", "LINK", "END")
COSTS = "`COST span`, `COST area` or `COST mix a b`"


def lines_of(text: bytes) -> list[bytes]:
    """Gives the lines of a text, each without its line feed and one carriage return before it."""
    lines = text.split(b"\n")
    if lines[-1] == b"":
        lines.pop()
    return [it[:-1] if it.endswith(b"\r") else it for it in lines]


def words_of(line: bytes) -> list[str]:
    """Gives the words of a line, with blanks and tabs between them; bytes that are no ASCII stay recognizable."""
    return [it for it in re.split(r"[ \t]+", line.decode("utf-8", "backslashreplace")) if it]


def is_kept(words: list[str]) -> bool:
    """Whether a line of these words is neither empty nor a comment."""
    return bool(words) and not words[0].startswith("#")


@dataclass
class Contour:
    """A contour as it stands in a text: its name, the line where it begins, how many points it says it has, its points
    (x, y) in integers, and the line of each.
    """

    name: str
    line: int
    size: int
    points: list = field(default_factory=list)
    lines: list[int] = field(default_factory=list)


@dataclass
class Part:
    """An object as it stands in a text: its name, its line (0 without a name), its sections, each with its line, whose
    contours are of the type above, and its links: the line and two names of each.
    """

    name: str
    line: int
    sections: list[tuple[int, Section]] = field(default_factory=list)
    links: list[tuple[int, str, str]] = field(default_factory=list)

    def contours(self) -> list[tuple[Section, Contour]]:
        """Gives its contours, each with its section."""
        return [(section, it) for _, section in self.sections for it in section.contours]


class Standing:
    """How far a section text has come: its head, its objects so far, and what may stand on the next line.

    `head` has the words of the first lines, up to three, and `ended` the line of END, 0 before it.
    """

    def __init__(self):
        self.head, self.parts, self.ended = [], [], 0

    @property
    def version(self) -> str:
        """The version, empty where it is not known yet."""
        return self.head[0][1] if self.head else ""

    @property
    def part(self) -> Part | None:
        """The object of the next line."""
        return self.parts[-1] if self.parts else None

    @property
    def section(self) -> Section | None:
        """The section of the next line."""
        return self.part.sections[-1][1] if self.part and self.part.sections else None

    @property
    def contour(self) -> Contour | None:
        """The last contour of the section."""
        return self.section.contours[-1] if self.section and self.section.contours else None

    def wants_point(self) -> bool:
        """Whether the next line must be a point of the last contour."""
        return self.contour is not None and len(self.contour.points) < self.contour.size

    def take(self, number: int, words: list[str]) -> None:
        """Takes a line that may stand here: its number from 1, and its words."""
        if len(self.head) < 3:
            self.head.append(words)
            if len(self.head) == 3 and self.version == "1":
                self.parts.append(Part("", 0))
        elif self.wants_point():
            self.contour.points.append((int(words[0]), int(words[1])))
            self.contour.lines.append(number)
        elif words[0] == "OBJECT":
            self.parts.append(Part(words[1], number))
        elif words[0] == "SECTION":
            self.part.sections.append((number, Section(int(words[1]))))
        elif words[0] == "CONTOUR":
            self.section.contours.append(Contour(words[1], number, int(words[2])))
        elif words[0] == "LINK":
            self.part.links.append((number, words[1], words[2]))
        else:
            self.ended = number

    def due(self) -> str:
        """Gives the words for what may stand on the next line."""
        if len(self.head) < 3:
            return (
                "`SECTIONS 1` (one object), or `SECTIONS 2` (objects with names)",
                f"the rule of cost: {COSTS}",
                "the rule of pairs: `PAIR overlap` or `PAIR links`",
            )[len(self.head)]
        if self.ended:
            return "nothing but empty lines and comments, since END comes last"
        if self.wants_point():
            it = self.contour
            count = f"point {len(it.points) + 1} of the {it.size} of contour {it.name}"
            return f"{count}: two integers, x and y"
        return f"one of {', '.join(self.due_lines())}"

    def due_lines(self) -> list[str]:
        """Gives the kinds of lines that may stand here, where neither a point nor a line of the head must follow."""
        lines = ["`END`"]
        if self.version == "2":
            lines.insert(0, "`OBJECT name`")
        if self.part:
            if self.head[2][1] == "links" and self.part.sections:
                lines.insert(0, "`LINK name name`")
            if not self.part.links:
                lines = (["`CONTOUR name k`"] if self.section else []) + ["`SECTION z`"] + lines
        return lines

    def place(self) -> str:
        """Gives the words for where the next line stands, empty in the head and after END."""
        told = []
        if self.ended:
            return ""
        if self.wants_point():
            told.append(f"contour {self.contour.name} (line {self.contour.line})")
        if self.section:
            told.append(f"the section at height {self.section.height} (line {self.part.sections[-1][0]})")
        if self.part and self.part.name:
            told.append(f"object {self.part.name} (line {self.part.line})")
        return ", in ".join(told)


def stand(lines: list[bytes], number: int) -> Standing:
    """Gives how far a text has come before a line, counted from 1. All lines before it must be good."""
    standing = Standing()
    for at, line in enumerate(lines[: number - 1], 1):
        words = words_of(line)
        if is_kept(words) and not standing.ended:
            standing.take(at, words)
    return standing
