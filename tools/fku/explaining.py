"""Explains the first fault of a section text: the lines that it is about, what is wrong, and what to change.

The program finds the fault, and this module looks into the text for it. The standard library is enough.
"""
from dataclasses import dataclass, field
from fractions import Fraction

from fku import form_faults, joining, program
from fku.faults import Refusal, parse
from fku.section_text import FARTHEST, LIMITS
from fku.standing import Contour, Part, Standing, is_kept, lines_of, stand, words_of
from fku.thinning import Point, side
from fku.trouble import Trouble

WIDTH = 100  # letters of a line that are shown
APART = (
    "move points, so that the edges lie apart; an outline that is meant to meet itself there may be two outlines, or "
    "one with a hole"
)


@dataclass
class Explanation:
    """What is wrong, and what to change; the numbers of lines to show; what may stand on the first of them, or nothing,
    and where it stands.
    """

    wrong: str
    remedy: str
    lines: list[int] = field(default_factory=list)
    due: str = ""
    place: str = ""


def edge_ends(contour: Contour, number: int) -> tuple[Point, Point]:
    """Gives the two ends of an edge of a contour."""
    return contour.points[number], contour.points[(number + 1) % len(contour.points)]


def edge_lines(contour: Contour, number: int) -> list[int]:
    """Gives the lines of the two ends of an edge."""
    return [contour.lines[number], contour.lines[(number + 1) % len(contour.lines)]]


def point_text(point) -> str:
    """Gives the words for a point, with a few decimals where it is not whole."""
    return "({}, {})".format(*(str(it) if Fraction(it).denominator == 1 else f"{float(it):.3f}" for it in point))


def edge_text(contour: Contour, number: int) -> str:
    """Gives the words for an edge and its lines."""
    a, b = edge_ends(contour, number)
    first, last = edge_lines(contour, number)
    return f"from {point_text(a)} to {point_text(b)} (lines {first} and {last})"


def shared_text(p: Point, q: Point, r: Point, s: Point) -> str:
    """Gives the words for what two edges share: from p to q, and from r to s. They share a point."""
    if side(p, q, r) == side(p, q, s) == 0:
        low, high = max(sorted((p, q))[0], sorted((r, s))[0]), min(sorted((p, q))[1], sorted((r, s))[1])
        if low != high:
            return f"share all from {point_text(low)} to {point_text(high)}"
        return f"touch at {point_text(low)}"
    part = Fraction(side(r, s, p), side(r, s, p) - side(r, s, q))
    at = tuple(a + part * (b - a) for a, b in zip(p, q))
    return ("touch" if at in (p, q, r, s) else "cross") + f" at {point_text(at)}"


class Text:
    """A section text that the program refused, its lines, and all that stands before the fault or, where that has no
    line, in the whole text.
    """

    def __init__(self, text: bytes, refusal: Refusal):
        self.text, self.lines, self.refusal = text, lines_of(text), refusal
        self.standing: Standing = stand(self.lines, refusal.line or len(self.lines) + 1)

    def contours(self) -> list[tuple[Part, object, Contour]]:
        """Gives all contours with their objects and sections."""
        return [(part, section, it) for part in self.standing.parts for section, it in part.contours()]

    def named(self, name: str):
        """Gives the object, the section and the contour of a name."""
        return next(it for it in self.contours() if it[2].name == name)

    def words(self) -> list[str]:
        """Gives the words of the line at fault."""
        return words_of(self.lines[self.refusal.line - 1]) if self.refusal.line else []

    def place_of(self, part: Part, section) -> str:
        """Gives the words for a section of an object."""
        of_object = f" of object {part.name}" if part.name else ""
        return f"the section at height {section.height}{of_object}"


def form(text: Text) -> Explanation:
    """A line that cannot be read."""
    case = form_faults.Case(text.lines, text.refusal.line)
    wrong, remedy = form_faults.advice(case)
    lines = [text.refusal.line]
    if case.standing.contour and case.standing.wants_point() or "CONTOUR" in remedy and case.standing.contour:
        lines.append(case.standing.contour.line)
    return Explanation(wrong, remedy, lines, case.standing.due(), case.standing.place())


def out_of_range(text: Text) -> Explanation:
    """A number out of its range."""
    words, line = text.words(), text.refusal.line
    if words[0] == "COST":
        wrong = "a weight is out of its range, or both are 0"
        return Explanation(wrong, "weights are from 0 to 1000, and not both 0", [line])
    far = int(form_faults.decimal_places(form_faults.Case(text.lines, line))[1])
    bad = next(it for it in words if form_faults.WHOLE.fullmatch(it) and abs(int(it)) > FARTHEST)
    return Explanation(
        f"{bad} is out of the range from -{FARTHEST} to {FARTHEST}",
        f"divide all coordinates and heights by {-(-far // FARTHEST)} or more, and round, which is a larger unit; or "
        "count from a point near the outlines: take the same x, y and z from all of them",
        [line], place=text.standing.place(),
    )  # fmt: skip


def name_twice(text: Text) -> Explanation:
    """A name that is taken."""
    word, name = text.words()[:2]
    if word == "OBJECT":
        first = next(it.line for it in text.standing.parts if it.name == name)
    else:
        first = text.named(name)[2].line
    what = "object" if word == "OBJECT" else "contour"
    wrong = f"the {what} on line {first} has the name {name} too"
    return Explanation(wrong, f"give one of them another name; no two {what}s of the text have one name",
                       [text.refusal.line, first])  # fmt: skip


def not_rising(text: Text) -> Explanation:
    """A section that is not above the one before it."""
    line, section = text.standing.part.sections[-1]
    height = int(text.words()[1])
    remedy = "sort the sections of the object by height, the lowest first; a line `OBJECT name` begins another object"
    if height == section.height:
        remedy = "put the contours of both into one section"
    wrong = f"the section before it, on line {line}, has the height {section.height}: this one must be above it"
    return Explanation(wrong, remedy, [text.refusal.line, line])


def limit(text: Text) -> Explanation:
    """A number of things past a limit."""
    it = text.refusal
    if it.limit == "contour_vertices" and int(text.words()[2]) < 3:
        return Explanation("an outline has three points at least", "add points, or leave the outline out", [it.line])
    most = f", which is {LIMITS[it.limit]}" if it.limit in LIMITS else ""
    what = it.limit.replace("_vertices", " vertices").replace("vertices", "points")
    wrong = f"this exceeds the limit of {what}{most}"
    return Explanation(wrong, it.remedy(), [it.line] if it.line else [], place=text.standing.place() if it.line else "")


def end_missing(text: Text) -> Explanation:
    """A text that ends too soon."""
    standing, last = text.standing, len(text.lines)
    missing = standing.contour.size - len(standing.contour.points) if standing.wants_point() else 0
    if missing:
        wrong = f"the text ends where {missing} more of the points of contour {standing.contour.name} should follow"
        return Explanation(wrong, "the file was cut off: write it again, whole", [last, standing.contour.line],
                           place=standing.place())  # fmt: skip
    if not last:
        return Explanation("the text is empty", "check that the file was written, and that this is the right one")
    wrong = f"the text ends after line {last}, and its last line is not END"
    return Explanation(wrong, "write END as the last line, if nothing else is missing", [last])


def no_contours(text: Text) -> Explanation:
    """An object without a contour."""
    empty = [it for it in text.standing.parts if not it.contours()]
    if empty and empty[0].name:
        wrong = f"object {empty[0].name} has no contour"
        return Explanation(wrong, "give it a contour, or take its lines out", [empty[0].line])
    return Explanation("there is no contour in the text", text.refusal.remedy())


def self_crossing(text: Text) -> Explanation:
    """A contour that is not simple."""
    part, section, contour = text.named(text.refusal.names[0])
    place, points = text.place_of(part, section), contour.points
    count = len(points)
    if points[-1] == points[0]:
        return Explanation(
            f"the last point of contour {contour.name} is its first one again: an outline is closed by itself",
            f"take line {contour.lines[-1]} out, and write `CONTOUR {contour.name} {count - 1}` on line {contour.line}",
            [contour.lines[-1], contour.line, contour.lines[0]], place=place,
        )  # fmt: skip
    again = next((at for at in range(1, count) if points[at] == points[at - 1]), None)
    if again:
        return Explanation(
            f"contour {contour.name} has the point {point_text(points[again])} twice in a row",
            f"take one of the two lines out, and write `CONTOUR {contour.name} {count - 1}` on line {contour.line}",
            [contour.lines[again], contour.lines[again - 1], contour.line], place=place,
        )  # fmt: skip
    return crossing_edges(text, [(contour, int(it)) for it in text.refusal.words[1:3]], place)


def crossing_edges(text: Text, edges, place: str) -> Explanation:
    """Two edges that share a point."""
    one, other = edges
    told = " and the edge ".join(edge_text(*it) for it in edges)
    of = f"of contour {one[0].name}" if one[0] is other[0] else f"of the contours {one[0].name} and {other[0].name}"
    wrong = f"two edges {of} meet: the edge {told} {shared_text(*edge_ends(*one), *edge_ends(*other))}"
    lines = [*edge_lines(*one), *edge_lines(*other)]
    return Explanation(wrong, APART if one[0] is other[0] else text.refusal.remedy(), lines, place=place)


def crossing(text: Text) -> Explanation:
    """Two contours of a section that share a point."""
    (part, section, one), (_, _, other) = (text.named(it) for it in text.refusal.names)
    place = text.place_of(part, section)
    if set(one.points) == set(other.points):
        wrong = f"the contours {one.name} and {other.name} have the same points: perhaps one outline was written twice"
        return Explanation(wrong, "leave one of them out", [one.line, other.line], place=place)
    first, second = min(joining.meeting_edges(one.points, other.points))
    return crossing_edges(text, [(one, first), (other, second)], place)


def link(text: Text) -> Explanation:
    """A link that is not good."""
    names, it = text.refusal.names, text.refusal
    found = [(part, *entry) for part in text.standing.parts for entry in part.links if entry[1:] == tuple(names)]
    part, line = found[-1 if it.cause == "REPEATED" else 0][:2]
    own = {contour.name: section for section, contour in part.contours()}
    if it.cause == "UNKNOWN":
        unknown = next(name for name in names if name not in own)
        wrong, lines = f"no contour of this object has the name {unknown}", [line]
    elif it.cause == "NOT NEIGHBOURS":
        wrong, lines = not_neighbours(part, [own[name].height for name in names]), [line]
    elif it.cause == "REPEATED":
        wrong, lines = f"the same link stands on line {found[0][1]}", [line, found[0][1]]
    else:
        wrong, lines = f"one of {names[0]} and {names[1]} is a hole, and the other is none", [line]
    return Explanation(wrong, it.remedy(), lines, place=f"object {part.name}" if part.name else "")


def not_neighbours(part: Part, heights: list[int]) -> str:
    """Gives the words for a link of contours whose sections are not neighbours, the lower first."""
    low, high = heights
    if low == high:
        return f"both contours are in the section at height {low}"
    order = [section.height for _, section in part.sections]
    if order.index(high) + 1 == order.index(low):
        return f"the first contour is at height {low}, above the second one at {high}: write them the other way round"
    return f"the contours are at the heights {low} and {high}, and these are no neighbours"


def object_at_fault(text: Text) -> Part | None:
    """Gives the first object that has the refusal by itself; the refusal does not say of which object it is."""
    parts = text.standing.parts
    head = [it for it in text.lines if is_kept(words_of(it))][:3]
    ends = [it.line - 1 for it in parts[1:]] + [text.standing.ended - 1]
    words = ["ringcaps"] if text.refusal.number == 26 else program.FAULTS
    for part, end in zip(parts, ends):
        alone = text.text if not part.line else b"\n".join([*head, *text.lines[part.line - 1 : end], b"END", b""])
        if parse_or_none(program.run(words, alone)[1]) == text.refusal:
            return part
    return None


def parse_or_none(line: bytes) -> Refusal | None:
    """Gives the refusal in a line, or None where there is none."""
    return parse(line) if line.startswith(b"REFUSED") else None


def too_long(text: Text) -> Explanation:
    """A composite or a cap with too many vertices."""
    number, count = int(text.refusal.words[1]), text.refusal.words[3]
    part = object_at_fault(text)
    if part is None:
        return Explanation(text.refusal.meaning(), text.refusal.remedy())
    line, section = part.sections[number - 1]
    points = sum(it.size for it in section.contours)
    wrong = (
        f"{text.refusal.meaning()}: {count}, and the limit is {joining.MOST}; the section has {len(section.contours)} "
        f"contours with {points} points"
    )
    return Explanation(wrong, text.refusal.remedy(), [line], place=text.place_of(part, section))


def other(text: Text) -> Explanation:
    """Any other refusal."""
    lines = [text.refusal.line] if text.refusal.line else []
    return Explanation(text.refusal.meaning(), text.refusal.remedy(), lines)


BY_NUMBER = {
    1: form, 2: out_of_range, 3: name_twice, 4: not_rising, 5: limit, 6: end_missing, 7: no_contours, 8: self_crossing,
    9: crossing, 10: link, 11: too_long, 26: too_long,
}  # fmt: skip


def explanation(text: bytes, refusal: Refusal) -> Explanation:
    """Gives what is to be said of a text that the program refused so."""
    if refusal.number in (12, 22, 27):
        lines = len(lines_of(text))
        return Explanation(refusal.meaning(), refusal.remedy(), [refusal.line] if refusal.line <= lines else [])
    if refusal.limit == "bytes":
        most = LIMITS["bytes"]
        return Explanation(f"the text has {len(text)} bytes, and the limit is {most}", refusal.remedy())
    return BY_NUMBER.get(refusal.number, other)(Text(text, refusal))


def shown(lines: list[bytes], numbers: list[int]) -> list[str]:
    """Gives lines with their numbers, in order; the first of the numbers is marked."""
    width, told, last = len(str(max(numbers))), [], None
    for number in sorted(set(numbers)):
        line = lines[number - 1].decode("utf-8", "backslashreplace")
        line = "".join(it if it.isprintable() else it.encode("unicode_escape").decode() for it in line)
        line = line if len(line) <= WIDTH else f"{line[:WIDTH]} .."
        told += ["  .."] if last and number > last + 1 else []
        told.append(f"{'>' if number == numbers[0] else ' '} {number:{width}}  {line}")
        last = number
    return told


def lines_for(path: str, text: bytes, refusal: Refusal) -> list[str]:
    """Gives the lines that explain a refusal of a file."""
    it = explanation(text, refusal)
    lines = lines_of(text)
    told = [f"{path}: {refusal.text}", ""]
    told += [*shown(lines, it.lines), ""] if it.lines else []
    told += [f"what is wrong: {it.wrong}"]
    told += [f"where: {it.place}"] if it.place else []
    told += [f"what may stand there: {it.due}"] if it.due else []
    return [*told, f"what to do: {it.remedy}"]


def answer(words: list[str], text: bytes) -> tuple[int, bytes]:
    """Runs the program, and gives its status and answer; Trouble says that it cannot run, or how it ended."""
    try:
        return program.run(words, text)
    except (program.NoProgram, program.Ended) as it:
        raise Trouble(str(it)) from None
