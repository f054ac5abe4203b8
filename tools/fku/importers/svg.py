"""Drawings in SVG whose layers are slices, by python3-svgelements.

A layer, or a group, whose name is `z=2.5` or `height 2.5` stands at this height; one whose name ends in an integer,
as `slice 12`, at this number times the slice spacing. Names are Inkscape's labels, or ids where there are none. A
shape belongs to the object of its own label or class, else of the label of the group in which it is inside its layer.
Where the drawing says how large it is, coordinates are in mm, else in its own unit. They count from its left upper
corner, y upward; SVG's own count, which can be asked for, goes downward.
"""
import io
import math
import re
import xml.etree.ElementTree
from dataclasses import dataclass

from fku.importers.traced import Traced, above_0
from fku.trouble import Trouble, read_bytes, wanted

LABEL = "{http://www.inkscape.org/namespaces/inkscape}label"
HEIGHT = re.compile(r"(?i)\s*(?:z|height)\s*[=:_ ]?\s*(-?\d+(?:\.\d+)?)\s*$")
NUMBER = re.compile(r".*?(\d+)\s*$", re.DOTALL)
UNITS = {"mm": 1.0, "cm": 10.0, "in": 25.4, "pt": 25.4 / 72, "pc": 25.4 / 6, "Q": 0.25}  # in mm
PIXEL = 25.4 / 96  # mm, where a drawing has a size and no box of coordinates
SIZE = re.compile(r"\s*([\d.]+(?:[eE][-+]?\d+)?)\s*(mm|cm|in|pt|pc|Q)\s*$")
CURVE, ARC = 32, math.radians(5)  # edges for a Bezier curve, and the angle of an arc for each edge


def own(element, name: str) -> str:
    """Gives an attribute that an element has itself, and not from what it is in."""
    return str((element.values.get("attributes") or {}).get(name, "")).strip()


def layer_of(element) -> tuple[str, float] | None:
    """Gives the height, or the number of the slice, that the name of a group has, and which of the two it is."""
    name = own(element, LABEL) or own(element, "id")
    if match := HEIGHT.match(name):
        return "height", float(match[1])
    if match := NUMBER.match(name):
        return "number", float(match[1])
    return None


def corners(segment) -> list:
    """Gives the points of a part of a path after its first one."""
    kind = type(segment).__name__
    if kind in ("CubicBezier", "QuadraticBezier"):
        count = CURVE
    elif kind == "Arc":
        count = max(1, math.ceil(abs(segment.sweep) / ARC))
    else:
        return [segment.end]
    return [segment.point(at / count) for at in range(1, count + 1)]


@dataclass
class Frame:
    """The left upper corner of a drawing in its own unit, and how many mm that is, or None where it is not said."""

    left: float
    top: float
    millimetres: float | None

    @classmethod
    def of(cls, root) -> "Frame":
        """Gives the frame of the root of a drawing, and takes it away there: the drawing keeps its own unit."""
        told = [SIZE.match(root.attrib.pop(it, "")) for it in ("width", "height")]
        sizes = [float(it[1]) * UNITS[it[2]] if it else None for it in told]
        box = [float(it) for it in root.attrib.pop("viewBox", "").replace(",", " ").split()]
        if not box:
            return cls(0.0, 0.0, PIXEL if any(sizes) else None)
        scales = [size / extent for size, extent in zip(sizes, box[2:4]) if size]
        return cls(box[0], box[1], min(scales) if scales else None)

    def placed(self, factor: float, down: bool):
        """Gives what takes a point of the drawing to the source's space."""
        sign = factor if down else -factor
        return lambda x, y: ((x - self.left) * factor, (y - self.top) * sign)


class Drawing:
    """Walks through a drawing."""

    def __init__(self, elements, traced, place, close):
        self.elements, self.traced, self.place, self.close = elements, traced, place, close
        self.outside = 0  # shapes in no layer

    def height(self, layer) -> float:
        """Gives the height of a layer."""
        kind, value = layer
        if kind == "height":
            return value
        why = "layers have numbers, and not the slice spacing"
        return value * above_0(self.traced.spacing, "spacing", why)

    def walk(self, element, layer=None, name=""):
        """Takes what is in an element; `layer` and `name` are those of the groups in which it is."""
        if isinstance(element, self.elements.Shape):
            if layer is None:
                self.outside += 1
            else:
                self.take(element, self.height(layer), own(element, LABEL) or own(element, "class") or name)
        elif isinstance(element, list):
            if layer is None and not isinstance(element, self.elements.SVG):
                layer = layer_of(element)
            elif layer is not None:
                name = own(element, LABEL) or name
            for it in element:
                self.walk(it, layer, name)

    def take(self, shape, height, name):
        """Takes the rings of a shape."""
        for part in self.elements.Path(shape).as_subpaths():
            segments = list(self.elements.Path(part))
            points = [it for segment in segments for it in corners(segment) if it]
            points = [self.place(it.x, it.y) for it in points]
            what = f"a {type(shape).__name__.lower()} {own(shape, 'id')} at height {height:g}"
            if len(points) < 3:
                self.traced.notes.append(f"{what} encloses nothing, and was left out")
            elif type(segments[-1]).__name__ == "Close" or points[0] == points[-1]:
                self.traced.add(name, height, points)
            else:
                self.traced.add_line(name, height, points, what, self.close)


def read(path, *, close=False, spacing=None, pixel=None, length="", down=False) -> Traced:
    """Gives the shapes of a drawing. `spacing` is the slice spacing, where layers are numbered; `pixel` is a
    factor of x and y, and `length` the name of the unit of length, where the drawing does not say how large it is.
    With `down` y counts as SVG's does.
    """
    elements = wanted("svgelements", "python3-svgelements", "a drawing in SVG")
    data = read_bytes(path)
    try:
        tree = xml.etree.ElementTree.fromstring(data)
        frame = Frame.of(tree)
        drawn = elements.SVG.parse(io.StringIO(xml.etree.ElementTree.tostring(tree, "unicode")))
    except MemoryError:
        raise
    except Exception as it:  # svgelements has many of its own
        raise Trouble(f"{path}: not a complete SVG drawing: {it}") from None
    known = frame.millimetres is not None and not pixel
    traced = Traced(spacing=spacing, length="mm" if known else length)
    drawing = Drawing(elements, traced, frame.placed(frame.millimetres if known else pixel or 1.0, down), close)
    drawing.walk(drawn)
    if drawing.outside:
        where = "in no layer whose name gives a slice"
        drawing.traced.notes.append(f"shapes {where}, which were left out: {drawing.outside}")
    return drawing.traced
