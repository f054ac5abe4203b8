"""Makes a page of HTML that shows a surface, outlines and the loops of a slice in a browser. The standard library is
enough.

The page is one file that needs no network: the style, the scripts and all data stand in it. `page.html` is its frame,
`page.css` its style, and the scripts of `SCRIPTS` draw by WebGL 2 and answer the controls. Names and numbers stand in
a JSON text, points and triangles as arrays of numbers in base64, lowest byte first. A browser runs no script but these:
the page's Content-Security-Policy names their checksums.
"""
import base64
import hashlib
import html
import itertools
import json
import os
import string
import sys
from array import array
from dataclasses import dataclass, field
from fractions import Fraction

from fku.byu import Mesh
from fku.scene import colour_of_part
from fku.section_text import Object

HERE = os.path.dirname(os.path.abspath(__file__))
SCRIPTS = [
    "data.js", "normals.js", "camera.js", "picking.js", "state.js", "shaders.js", "buffers.js", "drawing.js",
    "controls.js", "hands.js", "page.js",
]  # fmt: skip


@dataclass
class Content:
    """What a page shows, and how it shows it first."""

    title: str
    sources: list[tuple[str, str]]  # what each file is, such as Surface, and its name
    mesh: Mesh | None = None
    names: list[str] = field(default_factory=list)  # of the parts, in their order
    outlines: list[Object] = field(default_factory=list)
    loop_height: int = 0
    loops: list[list[tuple[Fraction, Fraction]]] = field(default_factory=list)
    marks: dict[int, int] | None = None  # from a triangle, counted from 0, to how many others it crosses
    unit: tuple[float, str] | None = None  # the length of a whole unit, and the name of its unit of length
    view: tuple[float, float] = (30, 20)  # azimuth and elevation in degrees
    edges: bool = False
    opacity: float = 1.0


def text_of(name: str) -> str:
    """Gives the text of a file that stands beside this one."""
    with open(f"{HERE}/{name}", encoding="utf-8") as file:
        return file.read()


def in_base64(numbers: array) -> str:
    """Gives the bytes of an array, those of each number from the lowest on, in base64."""
    if sys.byteorder == "big":
        numbers = array(numbers.typecode, numbers)
        numbers.byteswap()
    return base64.b64encode(numbers.tobytes()).decode("ascii")


def flat(kind: str, rows) -> array:
    """Gives the numbers of all rows, one row after another."""
    return array(kind, itertools.chain.from_iterable(rows))


def is_wide(content: Content) -> bool:
    """Whether the numbers of vertices need four bytes."""
    return content.mesh is not None and len(content.mesh.points) > 65536


def arrays(content: Content) -> dict[str, array]:
    """Gives the arrays of a page by their names. Each line has an object's number from 0, its height, and how many
    points it has; the points of all lines follow one another.
    """
    mesh = content.mesh or Mesh([], [])
    rings = [
        (number, section.height, points)
        for number, it in enumerate(content.outlines)
        for section in it.sections
        for _, points in section.contours
    ]
    marks = sorted((content.marks or {}).items())
    return {
        "points": flat("i", mesh.points),
        "triangles": flat("I" if is_wide(content) else "H", mesh.triangles()),
        "marks": flat("I", marks),
        "outline_sizes": flat("i", ((number, height, len(points)) for number, height, points in rings)),
        "outline_points": flat("i", (point for _, _, points in rings for point in points)),
        "loop_sizes": flat("i", ((0, content.loop_height, len(points)) for points in content.loops)),
        "loop_points": flat("d", ((float(x), float(y)) for points in content.loops for x, y in points)),
    }


def parts(content: Content) -> list[dict]:
    """Gives the name, the colour and the number of triangles of each part."""
    sizes = [len(part) for part in content.mesh.parts] if content.mesh else []
    names = content.names or [f"part {number}" for number in range(1, len(sizes) + 1)]
    return [
        {"name": name, "colour": colour_of_part(at, len(sizes)), "count": size}
        for at, (name, size) in enumerate(zip(names, sizes, strict=True))
    ]


def data(content: Content) -> dict:
    """Gives the names and numbers that the scripts read. The outlines of an object are `matched` with a part of the
    surface where there are as many objects as parts.
    """
    found = parts(content)
    return {
        "sources": [{"role": role, "name": name} for role, name in content.sources],
        "parts": found,
        "wide": is_wide(content),
        "matched": len(content.outlines) == len(found),
        "marked": content.marks is not None,
        "unit": content.unit and {"factor": content.unit[0], "name": content.unit[1]},
        "view": content.view,
        "edges": content.edges,
        "opacity": max(0.05, content.opacity),
    }


def json_text(value) -> str:
    """Gives a JSON text in which nothing can end the element of the page that it stands in."""
    return json.dumps(value, separators=(",", ":")).replace("<", "\\u003c")


def checksum(text: str) -> str:
    """Gives the word by which a Content-Security-Policy allows a script or a style."""
    return "'sha256-" + base64.b64encode(hashlib.sha256(text.encode()).digest()).decode("ascii") + "'"


def policy(scripts: list[str], style: str) -> str:
    """Gives the Content-Security-Policy: these scripts, this style, the empty picture for the tab, and nothing else."""
    allowed = " ".join(map(checksum, scripts))
    return f"default-src 'none'; script-src {allowed}; style-src {checksum(style)}; img-src data:"


def page(content: Content) -> bytes:
    """Gives the page."""
    scripts, style = [text_of(name) for name in SCRIPTS], text_of("page.css")
    stored = {name: in_base64(numbers) for name, numbers in arrays(content).items()}
    elements = [f'<script type="text/plain" id="array_{name}">{text}</script>' for name, text in stored.items()]
    filled = string.Template(text_of("page.html")).substitute(
        title=html.escape(content.title),
        policy=html.escape(policy(scripts, style)),
        style=style,
        data=json_text(data(content)),
        arrays="\n".join(elements),
        scripts="\n".join(f"<script>{text}</script>" for text in scripts),
    )
    return filled.encode("utf-8", "replace")
