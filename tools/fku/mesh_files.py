"""Writes a mesh as PLY, STL, OBJ, GIFTI or glTF. The standard library is enough, but for GIFTI.

PLY and OBJ are texts, and their coordinates are exact decimal numbers: the coordinate times the factor. The other kinds
are binary, and their coordinates have 24 binary digits.
"""
import re
import struct
from decimal import Decimal

from fku.byu import Mesh
from fku.gifti import gii
from fku.gltf import glb
from fku.progress import Progress


def decimal_text(value: int | Decimal, factor: Decimal) -> str:
    """Gives a coordinate times a factor, exactly, without an exponent."""
    text = f"{Decimal(value) * factor:f}"
    if "." in text:
        text = text.rstrip("0").rstrip(".")
    return "0" if text in ("-0", "") else text


def point_texts(mesh: Mesh, factor: Decimal) -> list[str]:
    """Gives the points as texts of three numbers."""
    points = Progress("vertices", len(mesh.points)).over(mesh.points)
    return [" ".join(decimal_text(value, factor) for value in point) for point in points]


def ply(mesh: Mesh, factor: Decimal) -> bytes:
    """Gives the PLY text: its vertices, and triangles of their numbers from 0. Where there are several parts, each
    triangle has a property more, the number of its part from 1, and comments name the parts.
    """
    triangles = mesh.triangles()
    several = len(mesh.parts) > 1
    ends = [f" {number}" if several else "" for number, part in enumerate(mesh.parts, 1) for _ in part]
    lines = ["ply", "format ascii 1.0", "comment a closed triangle surface, made by fku"]
    lines += [f"comment part {number} {name}" for number, name in enumerate(mesh.names, 1) if several]
    lines += [f"element vertex {len(mesh.points)}"]
    lines += [f"property double {axis}" for axis in "xyz"]
    lines += [f"element face {len(triangles)}", "property list uchar int vertex_indices"]
    lines += ["property int part"] * several + ["end_header"]
    lines += point_texts(mesh, factor)
    lines += [f"3 {a} {b} {c}{end}" for (a, b, c), end in zip(triangles, ends)]
    return ("\n".join(lines) + "\n").encode()


def obj(mesh: Mesh, factor: Decimal) -> bytes:
    """Gives the OBJ text: its vertices, and triangles of their numbers from 1, an object and a group for each part,
    with its name: some programs know the ones, some the others.
    """
    lines = ["# a closed triangle surface, made by fku"]
    lines += [f"v {text}" for text in point_texts(mesh, factor)]
    for name, part in zip(mesh.names, mesh.parts):
        word = re.sub(r"\s+", "_", name)
        lines += [f"o {word}", f"g {word}"]
        lines += [f"f {a + 1} {b + 1} {c + 1}" for a, b, c in part]
    return ("\n".join(lines) + "\n").encode()


def normal(a, b, c):
    """Gives the normal of a triangle, of length 1, or of length 0 where it has no area. Seen from its tip, the triangle
    runs counterclockwise.
    """
    u = [float(q - p) for p, q in zip(a, b)]
    v = [float(q - p) for p, q in zip(a, c)]
    n = (u[1] * v[2] - u[2] * v[1], u[2] * v[0] - u[0] * v[2], u[0] * v[1] - u[1] * v[0])
    length = sum(it * it for it in n) ** 0.5
    return tuple(it / length for it in n) if length else (0.0, 0.0, 0.0)


def stl(mesh: Mesh, factor: Decimal) -> bytes:
    """Gives the bytes of the binary STL: for each triangle its normal and its three points. It knows no parts."""
    points = [tuple(float(value * factor) for value in point) for point in mesh.points]
    triangles = mesh.triangles()
    data = [b"a closed triangle surface, made by fku".ljust(80), struct.pack("<I", len(triangles))]
    for triangle in Progress("triangles", len(triangles)).over(triangles):
        data.append(struct.pack("<3f", *normal(*(mesh.points[it] for it in triangle))))
        data += [struct.pack("<3f", *points[it]) for it in triangle]
        data.append(b"\0\0")
    return b"".join(data)


WRITERS = {"ply": ply, "stl": stl, "obj": obj, "gii": gii, "glb": glb}
