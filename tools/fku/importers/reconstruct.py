"""Series of Reconstruct: a file NAME.ser with a file NAME.N for each section, in XML. The standard library is enough.

A trace's points are taken back through the transform of its section, to the coordinates of the series, in its unit of
length (micrometres). Section N has the height (N + 1/2) times the thickness of sections, so that heights count from the
lower face of section 0; where thicknesses differ, they are summed up from the first section that is there.
"""
import glob
import os
import re
import xml.etree.ElementTree

from fku.importers.traced import Traced
from fku.trouble import Trouble, read_bytes

STEPS = 50  # of Newton's method
UNITS = {"microns": "um", "micrometers": "um", "millimeters": "mm", "nanometers": "nm", "": "um"}


def root_of(path: str):
    """Gives the root of an XML file."""
    try:
        return xml.etree.ElementTree.fromstring(read_bytes(path))
    except xml.etree.ElementTree.ParseError as it:
        raise Trouble(f"{path}: not a complete XML file: {it}") from None


def numbers(text: str) -> list[float]:
    """Gives the numbers of a text, with blanks and commas between them."""
    return [float(it) for it in text.replace(",", " ").split()]


class Transform:
    """A polynomial map of degree 2 from the series' coordinates to those of traces, by its inverse."""

    def __init__(self, element):
        kind = int(element.get("dim", "0"))
        x, y = ((numbers(element.get(it, "")) + [0.0] * 6)[:6] for it in ("xcoef", "ycoef"))
        if kind == 0:
            x, y = [0, 1, 0, 0, 0, 0], [0, 0, 1, 0, 0, 0]
        elif kind == 1:
            x, y = [x[0], 1, 0, 0, 0, 0], [y[0], 0, 1, 0, 0, 0]
        elif kind == 2:  # the scale of y stands where that of x does
            x, y = [x[0], x[1], 0, 0, 0, 0], [y[0], 0, y[1] or y[2], 0, 0, 0]
        elif kind == 3:
            x, y = x[:3] + [0, 0, 0], y[:3] + [0, 0, 0]
        self.x, self.y = x, y

    def value(self, c, x, y):
        """Gives a polynomial at a point, and its two derivatives: its terms are 1, x, y, xy, x^2 and y^2."""
        value = c[0] + c[1] * x + c[2] * y + c[3] * x * y + c[4] * x * x + c[5] * y * y
        return value, c[1] + c[3] * y + 2 * c[4] * x, c[2] + c[3] * x + 2 * c[5] * y

    def back(self, u: float, v: float) -> tuple[float, float]:
        """Gives the point that the map takes to (u, v), by Newton's method; a ValueError says that there is none."""
        x, y = u, v
        for _ in range(STEPS):
            (p, px, py), (q, qx, qy) = self.value(self.x, x, y), self.value(self.y, x, y)
            det = px * qy - py * qx
            if det == 0:
                break
            dx, dy = ((u - p) * qy - (v - q) * py) / det, ((v - q) * px - (u - p) * qx) / det
            x, y = x + dx, y + dy
            if abs(dx) + abs(dy) <= 1e-12 * (1 + abs(x) + abs(y)):
                return x, y
        raise ValueError("a transform has no inverse")


def section_files(path: str) -> list[str]:
    """Gives the files of sections of a series, by its .ser file or one of its sections."""
    stem = path.removesuffix(".ser") if path.endswith(".ser") else path.rpartition(".")[0]
    found = [it for it in glob.glob(f"{glob.escape(stem)}.*") if re.fullmatch(r"\d+", it[len(stem) + 1 :])]
    return sorted(found, key=lambda it: int(it[len(stem) + 1 :]))


def heights_of(sections) -> list[float]:
    """Gives the heights of sections (index, thickness)."""
    if len({thickness for _, thickness in sections}) == 1:
        return [(index + 0.5) * thickness for index, thickness in sections]
    heights, face = [], sections[0][0] * sections[0][1]
    for at, (index, thickness) in enumerate(sections):
        missing = index - sections[at - 1][0] - 1 if at else 0
        face += missing * thickness
        heights.append(face + thickness / 2)
        face += thickness
    return heights


def take_section(traced: Traced, root, height: float, path: str, close: bool):
    """Takes the traces of a section."""
    for transform in root.iter("Transform"):
        if transform.find("Image") is not None:  # its contour is the border of the image
            continue
        back = Transform(transform).back
        for contour in transform.iter("Contour"):
            name = contour.get("name", "").strip()
            values = numbers(contour.get("points", ""))
            points = [back(u, v) for u, v in zip(values[0::2], values[1::2])]
            what = f"a trace of {name} in {os.path.basename(path)}"
            if len(values) % 2:
                traced.fault(name, f"{what} is damaged: it has {len(values)} numbers for its points")
            elif len(points) < 3:
                traced.notes.append(f"{what} has {len(points)} points, which enclose nothing, and was left out")
            elif contour.get("closed", "true").lower() != "true":
                traced.add_line(name, height, points, what, close)
            else:
                traced.add(name, height, points)


def read(path, *, close=False, spacing=None, length="") -> Traced:
    """Gives the traces of a series, by the path of its .ser file or of one of its sections. Where `spacing` is given,
    it is taken for the thickness of sections, and `length` for the name of the unit of length.
    """
    root = root_of(path)
    if root.tag not in ("Series", "Section"):
        raise Trouble(f"{path}: this XML file is a {root.tag}, not a series or section of Reconstruct")
    files = section_files(path)
    if not files:
        raise Trouble(f"{path}: no section file is beside it, such as {os.path.basename(path).removesuffix('.ser')}.1")
    roots = [root_of(it) for it in files]
    traced = Traced(length=length or UNITS.get(root.get("units", ""), ""))
    try:
        sections = [(int(it.get("index", "")), spacing or float(it.get("thickness", ""))) for it in roots]
        if min(thickness for _, thickness in sections) <= 0:
            raise ValueError("a section has no thickness: give --spacing")
        traced.spacing = sections[0][1]
        for file, section, height in zip(files, roots, heights_of(sections)):
            take_section(traced, section, height, file, close)
    except (ValueError, OverflowError) as it:
        raise Trouble(f"{path}: the series is damaged: {it}") from None
    return traced
