"""Tables of points, one point in a line: CSV and TSV files, and the text that IMOD's model2point writes.

A head names the columns: object, contour, x, y, and z or slice. Without a head, three columns are x y z, four contour x
y z, and five object contour x y z, as IMOD's point2model and model2point have them. The standard library is enough.
"""
import csv
import io
import math
import re

from fku.importers.traced import FLAT, Traced, above_0, height_of
from fku.trouble import Trouble, read_bytes

COLUMNS = {
    "object": "object", "name": "object", "label": "object", "roi": "object", "structure": "object",
    "region": "object", "contour": "contour", "outline": "contour", "ring": "contour", "polygon": "contour",
    "loop": "contour", "x": "x", "y": "y", "z": "z", "height": "z", "slice": "slice", "section": "slice",
}  # fmt: skip
WITHOUT_HEAD = {3: "x y z", 4: "contour x y z", 5: "object contour x y z"}
MARKS = ((b"\xef\xbb\xbf", "utf-8-sig"), (b"\xff\xfe", "utf-16"), (b"\xfe\xff", "utf-16"))  # at a text's front


def text_of(data: bytes, path: str) -> str:
    """Gives the text of a file."""
    for mark, code in (*MARKS, (b"", "utf-8"), (b"", "latin-1")):
        try:
            text = data.decode(code) if data.startswith(mark) else None
        except UnicodeError:
            continue
        if text is not None and "\0" not in text:
            return text
    raise Trouble(f"{path}: is not a text file")


def parting(line: str) -> str | None:
    """Gives the sign that parts the columns of a line, or None where blanks do."""
    return next((it for it in "\t;," if it in line), None)


def rows_of(text: str):
    """Gives the number and the words of each line that is not a comment; an empty line has no words."""
    lines = text.splitlines()
    first = next((it for it in lines if it.strip() and not it.lstrip().startswith("#")), "")
    sign = parting(first.strip())
    for number, line in enumerate(lines, 1):
        if line.lstrip().startswith("#"):
            continue
        if sign:
            words = [it.strip() for it in next(csv.reader(io.StringIO(line), delimiter=sign), [])]
            yield number, words if any(words) else []
        else:
            yield number, line.split()


def number_of(word: str) -> float:
    """Gives the number of a word, whose decimal sign may be a comma."""
    value = float(word.replace(",", "."))
    if not math.isfinite(value):
        raise ValueError
    return value


def is_number(word: str) -> bool:
    """Whether a word is a number."""
    try:
        number_of(word)
    except ValueError:
        return False
    return True


def column_of(word: str) -> str:
    """Gives the meaning of a column by its head such as X, "y (mm)" or z_um; or nothing."""
    plain = re.sub(r"[(\[].*?[)\]]", "", word).strip().lower()
    return COLUMNS.get(plain) or COLUMNS.get(re.split(r"[\s_.\-]", plain)[0], "")


def unit_of(head: list[str]) -> str:
    """Gives the unit of length that the head of x tells, as in "x (mm)", or nothing."""
    found = [re.search(r"[(\[]\s*(\w+)\s*[)\]]", it) for it in head if column_of(it) == "x"]
    return found[0][1] if found and found[0] else ""


def columns_of(words: list[str], path: str) -> dict[str, int]:
    """Gives the place of each column by its meaning; of several with one meaning, the first."""
    places = {}
    for at, word in enumerate(words):
        places.setdefault(column_of(word), at)
    missing = [it for it in ("x", "y") if it not in places]
    if "z" not in places and "slice" not in places:
        missing.append("z or slice")
    if missing:
        there = ", ".join(it[:20] for it in words[:8]) + (" and more" if len(words) > 8 else "")
        raise Trouble(
            f"{path}: the table has no column {', '.join(missing)}, only {there}: name the columns in the first line "
            "(object, contour, x, y, z or slice), or with --columns"
        )
    return places


class Table:
    """Reads rows into outlines: the points of one object, contour and height, in their order."""

    def __init__(self, path, places):
        self.path, self.places = path, places
        self.outlines = {}  # points (x, y) by object, contour and height
        self.run, self.last = 0, None

    def word(self, words, column):
        """Gives the word of a column, or nothing."""
        return words[self.places[column]] if column in self.places else ""

    def take(self, number, words):
        """Takes a row."""
        try:
            x, y = (number_of(self.word(words, it)) for it in "xy")
            height = number_of(self.word(words, "z" if "z" in self.places else "slice"))
            key = (self.word(words, "object"), self.word(words, "contour"), height)
        except (ValueError, IndexError):
            wanted = "x, y, and z or slice must be numbers"
            raise Trouble(f"{self.path}: line {number}: {wanted}: {' '.join(words)}") from None
        if "contour" not in self.places:
            self.run += key != self.last
            self.last = key
            key = (key[0], f"{self.run}", height)
        self.outlines.setdefault(key, []).append((x, y))

    def blank(self):
        """Ends an outline, where no column tells which one a point belongs to."""
        self.last = None

    def traced(self, factor: float, step: float) -> Traced:
        """Gives the outlines, with x and y times a factor and heights times a step."""
        traced, heights = Traced(), {}
        for (name, contour, height), points in self.outlines.items():
            heights.setdefault((name, contour), []).append((height, len(points)))
            traced.add(name, height * step, [(x * factor, y * factor) for x, y in points])
        for (name, contour), found in heights.items():
            levels = [height for height, _ in found]
            if max(count for _, count in found) < 3 and height_of(levels, FLAT) is None:
                place = f"its z goes from {min(levels):g} to {max(levels):g}"
                traced.fault(name, f"contour {contour} is not in one slice: {place}")
        return traced


def read(path, *, columns=None, spacing=None, pixel=None, length="") -> Traced:
    """Gives the outlines of a table. `columns` names the columns by their place; x and y are multiplied by `pixel`, and
    z or slice by `spacing`, where these are given; `length` is the name of the unit of length.
    """
    rows = list(rows_of(text_of(read_bytes(path), path)))
    first = next((words for _, words in rows if words), None)
    if first is None:
        raise Trouble(f"{path}: is empty")
    if first[0] == "SECTIONS":
        raise Trouble(f"{path}: is a section text already: give it to ./fku")
    head = [] if any(map(is_number, first)) else first
    if not head and not columns and len(first) not in WITHOUT_HEAD:
        raise Trouble(f"{path}: {len(first)} columns without names: name them with --columns, as object,contour,x,y,z")
    places = columns_of(columns or head or WITHOUT_HEAD[len(first)].split(), path)
    if "z" not in places:
        above_0(spacing, "spacing", "the table has numbers of slices, and not the slice spacing")
    table = Table(path, places)
    for number, words in rows:
        if not words:
            table.blank()
        elif words is not head:
            table.take(number, words)
    if not table.outlines:
        raise Trouble(f"{path}: this table has no point")
    traced = table.traced(pixel or 1, spacing or 1)
    traced.spacing, traced.length = spacing, length or unit_of(head)
    return traced
