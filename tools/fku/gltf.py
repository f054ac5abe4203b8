"""Writes a mesh as glTF 2.0 in one binary file (.glb). The standard library is enough.

Numbers are written as the mesh has them. Programs that read glTF take y for up and a unit for a metre, so the node
above all parts turns z up, and where the mesh's unit of length is known, it brings it to metres.
"""
import itertools
import json
import struct
from array import array

from fku.byu import Mesh
from fku.scene import colour_of_part

METRES = {"m": 1.0, "cm": 0.01, "mm": 0.001, "um": 1e-6, "nm": 1e-9, "inch": 0.0254, "in": 0.0254}
FLOAT, WHOLE, POINTS, TRIANGLES = 5126, 5125, 34962, 34963  # numbers of glTF for kinds of numbers and of buffers
HALF = 0.5**0.5


def linear(colour):
    """Gives a colour of a screen as glTF counts it, in shares of light."""
    return [round(it / 12.92 if it <= 0.04045 else ((it + 0.055) / 1.055) ** 2.4, 6) for it in colour] + [1.0]


def little(kind, values):
    """Gives the bytes of numbers, the lowest byte first."""
    data = array(kind, values)
    if struct.pack("=H", 1) != struct.pack("<H", 1):
        data.byteswap()
    return data.tobytes()


class Writer:
    """The buffer of a file, and what describes it."""

    def __init__(self):
        self.data, self.views, self.accessors = bytearray(), [], []

    def add(self, data, count, kind, target, **more):
        """Adds numbers to the buffer, and gives the number of their accessor."""
        self.views.append({"buffer": 0, "byteOffset": len(self.data), "byteLength": len(data), "target": target})
        self.data += data
        words = {"bufferView": len(self.views) - 1, "componentType": kind, "count": count, **more}
        self.accessors.append(words)
        return len(self.accessors) - 1

    def add_points(self, points):
        """Adds points, with the least and the greatest of their numbers."""
        numbers = array("f", itertools.chain.from_iterable(points))
        least, most = [min(numbers[k::3]) for k in range(3)], [max(numbers[k::3]) for k in range(3)]
        return self.add(little("f", numbers), len(points), FLOAT, POINTS, type="VEC3", min=least, max=most)

    def add_triangles(self, triangles):
        """Adds the places of points that triangles have."""
        data = little("I", itertools.chain.from_iterable(triangles))
        return self.add(data, 3 * len(triangles), WHOLE, TRIANGLES, type="SCALAR")


def root(parts: int, length: str):
    """Gives the node above those of all parts."""
    node = {"name": "surface", "children": list(range(1, parts + 1)), "rotation": [-HALF, 0.0, 0.0, HALF]}
    if length in METRES:
        node["scale"] = [METRES[length]] * 3
    return node


def chunk(kind: bytes, data: bytes, filler: bytes) -> bytes:
    """Gives a chunk of the file, whose length is a multiple of 4."""
    data += filler * (-len(data) % 4)
    return struct.pack("<I", len(data)) + kind + data


def glb(mesh: Mesh, factor, length: str = "") -> bytes:
    """Gives the bytes of the file: for each part a node with its name, and a material with its colour."""
    writer, nodes, meshes, materials = Writer(), [root(len(mesh.parts), length)], [], []
    for number, name in enumerate(mesh.names):
        colour = colour_of_part(number, len(mesh.parts))
        part = mesh.part(number + 1)
        points = [tuple(float(value * factor) for value in point) for point in part.points]
        places = {"POSITION": writer.add_points(points)}
        triangles = writer.add_triangles(part.triangles())
        meshes.append({"name": name, "primitives": [{"attributes": places, "indices": triangles, "material": number}]})
        nodes.append({"name": name, "mesh": number})
        light = {"baseColorFactor": linear(colour), "metallicFactor": 0.0, "roughnessFactor": 0.8}
        materials.append({"name": name, "pbrMetallicRoughness": light, "doubleSided": True})
    words = {
        "asset": {"version": "2.0", "generator": "fku"}, "scene": 0, "scenes": [{"nodes": [0]}], "nodes": nodes,
        "meshes": meshes, "materials": materials, "accessors": writer.accessors, "bufferViews": writer.views,
        "buffers": [{"byteLength": len(writer.data)}],
    }  # fmt: skip
    text = chunk(b"JSON", json.dumps(words, ensure_ascii=False, separators=(",", ":")).encode(), b" ")
    data = chunk(b"BIN\0", bytes(writer.data), b"\0")
    return b"glTF" + struct.pack("<II", 2, 12 + len(text) + len(data)) + text + data
