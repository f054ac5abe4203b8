"""Drawings in SVG and height lines in shapefiles, which the tests write byte by byte."""
import math
import os
import struct
import unittest.mock

from fku import importers, space
from fku.trouble import Trouble
from tests.common import volume
from tests.outline_makers import circle
from tests.test_importers import SQUARE, WithFiles
from tests_with_packages.makers import needs

INKSCAPE = 'xmlns:inkscape="http://www.inkscape.org/namespaces/inkscape"'
FAR = [(500000 + 10 * x, 5200000 + 10 * y) for x, y in SQUARE]


def drawing(inside, size=""):
    """Gives the text of a drawing."""
    return f'<?xml version="1.0"?>\n<svg xmlns="http://www.w3.org/2000/svg" {INKSCAPE} {size}>{inside}</svg>\n'


def layer(name, inside, more=""):
    """Gives a layer as Inkscape writes it."""
    return f'<g inkscape:groupmode="layer" inkscape:label="{name}" id="layer" {more}>{inside}</g>'


def path_of(points, more="", end="Z"):
    """Gives a path."""
    told = " L ".join(f"{x},{y}" for x, y in points)
    return f'<path d="M {told} {end}" {more}/>'


@needs("svgelements")
class Drawings(WithFiles):
    """SVG."""

    def test_layers_and_objects(self):
        text = drawing(
            layer("slice 3", path_of(SQUARE, 'inkscape:label="nucleus" id="p1"') + path_of(SQUARE, 'class="cell"'))
            + layer("z=7.5", f'<g inkscape:label="cell">{path_of(SQUARE)}</g>{path_of(SQUARE)}')
            + f'<g id="height_9">{path_of(SQUARE)}</g>' + layer("notes", path_of(SQUARE)) + path_of(SQUARE)
            + layer("slice 4", path_of(SQUARE), 'style="display:none"') + layer("slice 5", "<text>not drawn</text>")
        )  # fmt: skip
        traced = self.read("a.svg", text, spacing=2, down=True)
        square = [[(float(x), float(y)) for x, y in SQUARE]]
        closed = [it + it[:1] for it in square]
        found = {name: {z: [[tuple(point) for point in ring[:4]] for ring in rings] for z, rings in it.items()}
                 for name, it in traced.objects.items()}  # fmt: skip
        cell, other = {6: square, 7.5: square}, {7.5: square, 9: square}
        self.assertEqual(found, {"nucleus": {6: square}, "cell": cell, "": other})
        self.assertEqual(traced.objects["nucleus"][6], closed)
        self.assertEqual(traced.notes, ["shapes in no layer whose name gives a slice, which were left out: 2"])
        upward = self.read("a.svg", text, spacing=2, pixel=0.5).objects["nucleus"]
        self.assertEqual(upward[6][0][:2], [(5, -10), (7, -10)])
        self.refused("a.svg", text, "give --spacing: layers have numbers")

    def test_sizes_and_moves(self):
        inside = layer("z=1", path_of(SQUARE), 'transform="translate(1,2)"')
        for size, scale, left, length in (
            ('width="50mm" height="50mm" viewBox="0 0 100 100"', 0.5, 0, "mm"),
            ('width="5cm" viewBox="0 0 100 80"', 0.5, 0, "mm"),
            ('height="2in" viewBox="-3,0,200,101.6"', 0.5, -3, "mm"),
            ('width="100mm" height="40mm" viewBox="0 0 80 80"', 0.5, 0, "mm"),
            ('width="200mm" height="100mm"', 25.4 / 96, 0, "mm"),
            ('width="50" height="50" viewBox="0 0 99 99"', 1, 0, ""),
            ('width="100%" viewBox="5 0 9 9"', 1, 5, ""), ("", 1, 0, ""),
        ):  # fmt: skip
            traced = self.read("a.svg", drawing(inside, size), down=True)
            ((ring,),) = traced.objects[""].values()
            self.assertEqual(traced.length, length, size)
            for point, (x, y) in zip(ring, SQUARE):
                want = ((x + 1 - left) * scale, (y + 2) * scale)
                self.assertAlmostEqual(math.dist(point, want), 0, delta=1e-5, msg=size)
        self.refused("a.svg", drawing(inside, 'width="5mm" viewBox="0 0 0 0"'), "not a complete SVG drawing")

    def test_shapes(self):
        shapes = {
            '<circle cx="50" cy="40" r="20"/>': math.pi * 400,
            '<ellipse cx="50" cy="40" rx="20" ry="10"/>': math.pi * 200,
            '<rect x="10" y="20" width="4" height="6"/>': 24, '<polygon points="0,0 4,0 4,3"/>': 6,
            '<path d="M 0 0 L 30 0 L 30 30 L 0 30 Z M 10 10 L 10 20 L 20 20 L 20 10 Z"/>': 800,
            '<path d="M 0 0 C 0 40 60 40 60 0 Z"/>': 1440,
        }  # fmt: skip
        for shape, want in shapes.items():
            (rings,) = self.read("a.svg", drawing(layer("z=1", shape)), down=True).objects[""].values()
            doubled = [sum(a[0] * b[1] - b[0] * a[1] for a, b in zip(it, it[1:] + it[:1])) for it in rings]
            self.assertAlmostEqual(abs(sum(doubled)) / 2 / want, 1, delta=0.005, msg=shape)

    def test_open_paths_and_refusals(self):
        text = drawing(layer("z=1", path_of(SQUARE, 'id="p7"', end="")))
        self.assertIn("a path p7 at height 1 is an open line: --close", self.read("a.svg", text).faults[""][0])
        self.assertEqual(self.read("a.svg", text, close=True).faults, {})
        self.refused("a.svg", drawing(""), "this file has no closed outline")
        self.refused("a.svg", text[:-20], "not a complete SVG drawing")
        self.refused("a.svg", "<svg", "not a complete SVG drawing")
        unnamed = drawing(layer("slice", path_of(SQUARE)))
        self.refused("a.svg", unnamed, "shapes in no layer whose name gives a slice, which were left out: 1")

    def test_surface(self):
        disk = '<circle cx="50" cy="40" r="20" inkscape:label="a rod"/>'
        text = drawing("".join(layer(f"slice {k}", disk) for k in range(6)), 'width="100mm" viewBox="0 0 100 100"')
        words = ["--spacing", "3", "--half-ends", "--unit", "0.01"]
        text, mesh, _ = self.surface([*words, self.path("a.svg", text)])
        points = [space.read(text).place(it) for it in mesh.points]
        self.assertAlmostEqual(abs(volume(points, mesh.triangles())) / (math.pi * 400 * 18), 1, delta=0.005)
        self.assertAlmostEqual(max(y for _, y, _ in points), -20, delta=0.02)


def shapefile(lines, kind=3, heights=None, name="ELEV"):
    """Gives the bytes of .shp, .shx and .dbf for lines, each (points, value of the column)."""
    records, places, at = b"", b"", 50
    for number, (points, _) in enumerate(lines, 1):
        xs, ys = zip(*points)
        box = struct.pack("<4d", min(xs), min(ys), max(xs), max(ys))
        body = struct.pack("<i", kind) + box + struct.pack("<3i", 1, len(points), 0)
        body += b"".join(struct.pack("<2d", *it) for it in points)
        if heights:
            zs = heights[number - 1]
            body += struct.pack("<2d", min(zs), max(zs)) + struct.pack(f"<{len(zs)}d", *zs)
        records += struct.pack(">2i", number, len(body) // 2) + body
        places += struct.pack(">2i", at, len(body) // 2)
        at += 4 + len(body) // 2
    xs, ys = zip(*(it for points, _ in lines for it in points))

    def head(size):
        front = struct.pack(">7i", 9994, 0, 0, 0, 0, 0, (100 + size) // 2) + struct.pack("<2i", 1000, kind)
        return front + struct.pack("<8d", min(xs), min(ys), max(xs), max(ys), 0, 0, 0, 0)

    rows = b"".join(b" " + f"{value:>10}".encode() for _, value in lines)
    field = name.encode().ljust(11, b"\0") + b"N" + bytes(4) + bytes([10, 2]) + bytes(14)
    table = struct.pack("<4BI2H20x", 3, 124, 1, 1, len(lines), 65, 11)
    return head(len(records)) + records, head(len(places)) + places, table + field + b"\r" + rows + b"\x1a"


@needs("shapefile")
class Shapefiles(WithFiles):
    """Shapefiles."""

    def written(self, *data, prj=""):
        """Writes the files, and gives the path of the .shp file."""
        for suffix, it in zip(("shx", "dbf"), data[1:]):
            self.path(f"hill.{suffix}", it)
        if prj:
            self.path("hill.prj", prj)
        return self.path("hill.shp", data[0])

    def test_lines(self):
        ring = FAR + FAR[:1]
        for kind, heights in ((3, None), (5, None), (13, [[100] * 5, [110] * 5])):
            path = self.written(*shapefile([(ring, 100), (ring, 110)], kind, heights))
            traced = importers.read(path)
            found = {z: [[tuple(it) for it in ring] for ring in rings] for z, rings in traced.objects[""].items()}
            self.assertEqual(found, {100: [ring], 110: [ring]})
        by_points = self.written(*shapefile([(ring, 1), (ring, 2)], 13, [[100] * 5, [110] * 5], name="ID"))
        self.assertEqual(list(importers.read(by_points).objects[""]), [100, 110])

    def test_projections(self):
        ring, degrees = FAR + FAR[:1], [(11, 47), (11.1, 47), (11, 47.1), (11, 47)]
        metres = 'PROJCS["WGS 84 / UTM zone 32N",GEOGCS["WGS 84"],UNIT["metre",1]]'
        self.assertEqual(importers.read(self.written(*shapefile([(ring, 5)]), prj=metres)).length, "m")
        os.unlink(os.path.join(self.folder, "hill.prj"))
        with self.assertRaisesRegex(Trouble, "look like degrees"):
            importers.read(self.written(*shapefile([(degrees, 5)])))

    def test_open_lines_and_refusals(self):
        path = self.written(*shapefile([(FAR, 5)]))
        self.assertIn("line 1, of height 5, is an open line", importers.read(path).faults[""][0])
        self.assertEqual(importers.read(path, close=True).faults, {})
        with self.assertRaisesRegex(Trouble, "no property is named top; there are: ELEV"):
            importers.read(path, height="top")
        good = shapefile([(FAR + FAR[:1], 5)])
        for cut in ((good[0][:90], *good[1:]), (good[0][:-20], *good[1:]), (good[0], good[1], good[2][:40])):
            with self.assertRaisesRegex(Trouble, "not a complete shapefile"):
                importers.read(self.written(*cut))
        with unittest.mock.patch.object(os.path, "exists", return_value=False):
            with self.assertRaisesRegex(Trouble, "No such file"):
                importers.read(os.path.join(self.folder, "none.shp"))

    def test_hill(self):
        lines = [(circle(500 - 5 * z, 96, 600000, 5200000), z) for z in range(0, 100, 5)]
        path = self.written(*shapefile([(ring + ring[:1], z) for ring, z in lines]), prj='PROJCS["a",UNIT["metre",1]]')
        text, mesh, _ = self.surface(["--unit", "0.1", path])
        points = [space.read(text).place(it) for it in mesh.points]
        want = math.pi * 500**2 * 100 / 3 - math.pi * 25**2 * 5 / 3
        moved = [(x - 600000, y - 5200000, z) for x, y, z in points]
        self.assertAlmostEqual(abs(volume(moved, mesh.triangles())) / want, 1, delta=0.005)
