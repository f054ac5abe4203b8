"""Series of Reconstruct and height lines in GeoJSON are read as their formats say; the files are made by the tests."""
import json
import math

from fku import importers, space
from fku.trouble import Trouble
from tests.common import tool, volume
from tests.outline_makers import circle
from tests.test_importers import SQUARE, WithFiles

AFFINE = ([3.0, 2.0, -1.0], [-4.0, 0.5, 1.5])  # x and y of a trace's point, from 1, x and y of the series


def contour(name, points, closed=True):
    """Gives the XML of a trace."""
    told = ", ".join(f"{x:.9g} {y:.9g}" for x, y in points)
    return (
        f'<Contour name="{name}" hidden="false" closed="{str(closed).lower()}" simplified="true" border="1 0 0" '
        f'fill="1 0 0" mode="11"\n points="{told},\n\t"/>'
    )


def transform(inside, kind=0, x=(0, 1, 0, 0, 0, 0), y=(0, 0, 1, 0, 0, 0)):
    """Gives the XML of a transform and what is in it."""
    told = [" ".join(f"{it:g}" for it in row) for row in (x, y)]
    return f'<Transform dim="{kind}"\n xcoef=" {told[0]}"\n ycoef=" {told[1]}">\n{inside}\n</Transform>\n'


def section(index, inside, thickness=0.05):
    """Gives the text of a file of a section."""
    image = '<Image mag="0.002" contrast="1" src="a.tif" />\n' + contour("domain1", [(0, 0), (9, 0), (9, 9), (0, 9)])
    return (
        '<?xml version="1.0"?>\n<!DOCTYPE Section SYSTEM "section.dtd">\n\n'
        f'<Section index="{index}" thickness="{thickness}" alignLocked="true">\n{transform(image)}{inside}</Section>'
    )


SERIES = '<?xml version="1.0"?>\n<!DOCTYPE Series SYSTEM "series.dtd">\n\n<Series index="1" units="microns"></Series>'


class Reconstruct(WithFiles):
    """Series of Reconstruct."""

    def series(self, sections, text=SERIES):
        """Writes the files of a series, and gives the path of the .ser file."""
        for number, data in sections.items():
            self.path(f"cells.{number}", data)
        return self.path("cells.ser", text)

    def test_traces_and_heights(self):
        path = self.series({
            10: section(10, transform(contour("axon a", SQUARE) + contour("b", SQUARE))),
            9: section(9, transform(contour("axon a", SQUARE))),
        })  # fmt: skip
        self.path("cells.bak", "no section")
        for it in (path, path.replace(".ser", ".9")):
            traced = importers.read(it)
            self.assertEqual({name: [round(z, 9) for z in it] for name, it in traced.objects.items()},
                             {"axon a": [0.475, 0.525], "b": [0.525]})  # fmt: skip
            self.assertEqual((traced.length, traced.spacing, traced.notes), ("um", 0.05, []))
        self.assertEqual(list(importers.read(path, spacing=2).objects["b"]), [21])

    def test_transforms_are_taken_back(self):
        a, b = AFFINE
        forth = {
            1: lambda x, y: (x + 3, y - 4), 2: lambda x, y: (3 + 2 * x, -4 + 1.5 * y),
            3: lambda x, y: (a[0] + a[1] * x + a[2] * y, b[0] + b[1] * x + b[2] * y),
            6: lambda x, y: (3 + x + 0.01 * x * y - 0.002 * x * x, -4 + y + 0.003 * y * y),
        }  # fmt: skip
        rows = {1: ([3, 1], [-4, 0, 1]), 2: ([3, 2], [-4, 1.5]), 3: AFFINE,
                6: ([3, 1, 0, 0.01, -0.002, 0], [-4, 0, 1, 0, 0, 0.003])}  # fmt: skip
        for kind, move in forth.items():
            traces = contour("t", [move(x, y) for x, y in SQUARE])
            x, y = ([*row, 0, 0, 0, 0, 0][:6] for row in rows[kind])
            path = self.series({1: section(1, transform(traces, kind, x, y))})
            ((ring,),) = importers.read(path).objects["t"].values()
            for point, want in zip(ring, SQUARE):
                self.assertAlmostEqual(math.dist(point, want), 0, delta=1e-6, msg=kind)

    def test_thicknesses_that_differ(self):
        path = self.series({n: section(n, transform(contour("t", SQUARE)), t) for n, t in ((2, 1), (3, 2), (5, 1))})
        self.assertEqual(list(importers.read(path).objects["t"]), [2.5, 4, 6.5])

    def test_open_traces(self):
        path = self.series({1: section(1, transform(contour("t", SQUARE, False) + contour("u", SQUARE[:2])))})
        traced = importers.read(path)
        self.assertIn("a trace of t in cells.1 is an open line: --close", traced.faults["t"][0])
        note = "a trace of u in cells.1 has 2 points, which enclose nothing, and was left out"
        self.assertEqual(traced.notes, [note])
        self.assertEqual(importers.read(path, close=True).faults, {})

    def test_refusals(self):
        good = section(1, transform(contour("t", SQUARE)))
        for data, part in (
            (good[:-20], "not a complete XML file"),
            (good.replace('"0.05"', '"thin"'), "the series is damaged: could not convert"),
            (good.replace('"0.05"', '"0"'), "a section has no thickness"),
            (good.replace("10 20", "10 x"), "the series is damaged: could not convert"),
            (good.replace('dim="0"', 'dim="3"').replace(" 0 1 0 0 0 0", " 0 0 0 0 0 0"), "a transform has no inverse"),
        ):  # fmt: skip
            with self.assertRaisesRegex(Trouble, part):
                importers.read(self.series({1: data}))
        self.refused("other.ser", SERIES, "no section file is beside it, such as other.1")
        self.refused("other.ser", "<html></html>", "this XML file is a html, not a series")
        odd = importers.read(self.series({1: good.replace("10 20,", "10 20 7,")}))
        self.assertIn("it has 9 numbers for its points", odd.faults["t"][0])

    def test_surface(self):
        sections = {}
        for number in range(5, 16):
            ring = circle(2, 72, 10, 20)
            sections[number] = section(number, transform(contour("spine", ring)), 0.5)
        path = self.series(sections)
        text, mesh, _ = self.surface(["--half-ends", path])
        points = [space.read(text).place(it) for it in mesh.points]
        self.assertAlmostEqual(abs(volume(points, mesh.triangles())), math.pi * 4 * 5.5, delta=0.2)
        self.assertAlmostEqual(min(z for _, _, z in points), 2.5, delta=1e-3)


def feature(kind, coordinates, **properties):
    """Gives a feature of GeoJSON."""
    return {"type": "Feature", "properties": properties, "geometry": {"type": kind, "coordinates": coordinates}}


def collection(*features):
    """Gives the text of a file of GeoJSON."""
    return json.dumps({"type": "FeatureCollection", "features": features})


def closed(points):
    """Gives points with the first one again."""
    return [*map(list, points), list(points[0])]


FAR = [(500000 + 10 * x, 5200000 + 10 * y) for x, y in SQUARE]


class HeightLines(WithFiles):
    """Lines of GeoJSON."""

    def test_kinds_of_lines(self):
        want = {"": {100: [closed(FAR)], 110: [closed(FAR)]}}
        for text in (
            collection(*(feature("LineString", closed(FAR), ELEV=z, id=1) for z in (100, 110))),
            collection(*(feature("MultiLineString", [closed(FAR)], Height=str(z)) for z in (100, 110))),
            collection(*(feature("Polygon", [closed(FAR)], ele=z) for z in (100, 110))),
            collection(*(feature("MultiPolygon", [[closed(FAR)]], level=z) for z in (100, 110))),
            collection(*(feature("LineString", [[*it, z] for it in closed(FAR)]) for z in (100, 110))),
            json.dumps({"type": "GeometryCollection", "geometries": [
                {"type": "LineString", "coordinates": [[*it, z] for it in closed(FAR)]} for z in (100, 110)]}),
        ):  # fmt: skip
            traced = self.read("hill.geojson", text)
            found = {name: {z: [[list(it) for it in ring] for ring in rings] for z, rings in slices.items()}
                     for name, slices in traced.objects.items()}  # fmt: skip
            self.assertEqual(found, want)
        text = collection(feature("Point", [1, 2]), feature("LineString", closed(FAR), z=5))
        self.assertEqual(self.read("a.json", text, length="m").length, "m")

    def test_property_by_name(self):
        text = collection(feature("LineString", closed(FAR), niveau=7, elev=1))
        self.assertEqual(list(self.read("a.json", text, height="niveau").objects[""]), [7])
        self.refused("a.json", text, "no property is named hoch; there are: niveau, elev", height="hoch")
        other = collection(feature("LineString", closed(FAR), n=7))
        self.refused("a.json", other, "name it with --height; there are: n")
        self.refused("a.json", collection(feature("LineString", closed(FAR), elev=None)), "no height in the property")

    def test_open_lines_and_degrees(self):
        text = collection(feature("LineString", FAR, elev=7))
        self.assertIn("line 1, of height 7, is an open line: --close", self.read("a.json", text).faults[""][0])
        self.assertEqual(self.read("a.json", text, close=True).faults, {})
        degrees = collection(feature("LineString", closed([(11, 47), (11.1, 47), (11, 47.1)]), elev=7))
        self.refused("a.json", degrees, "look like degrees; project them to lengths first")
        self.assertEqual(self.read("a.json", degrees, length="m").length, "m")

    def test_refusals(self):
        good = collection(feature("LineString", closed(FAR), elev=7))
        for text, part in (
            (good[:-5], "not a complete GeoJSON"), ("{}", "not a complete GeoJSON"),
            ('{"type": "Feature"}', "not a complete GeoJSON"),
            (good.replace("500100", '"x"'), "not a complete GeoJSON"),
            (good.replace("[500100, 5200200]", "[]"), "not a complete GeoJSON"),
            (collection(), "this file has no closed outline"),
        ):  # fmt: skip
            self.refused("a.geojson", text, part)
        tilted = collection(feature("LineString", [[*it, at] for at, it in enumerate(closed(FAR))]))
        self.assertIn("points of several heights", self.read("a.json", tilted).faults[""][0])

    def test_hill(self):
        # A cone of radius 500 and height 100, by its height lines, far from the origin.
        rings = {z: circle(500 - 5 * z, 96, 600000, 5200000) for z in range(0, 100, 5)}
        path = self.path("hill.geojson", collection(*(
            feature("LineString", closed(ring), contour=z) for z, ring in rings.items())))  # fmt: skip
        status, text, told = tool("contours", ["--unit", "0.1", "--length", "m", path])
        self.assertEqual((status, "since their own origin is too far away" in told), (0, True))
        text, mesh, _ = self.surface(["--unit", "0.1", "--length", "m", path])
        points = [space.read(text).place(it) for it in mesh.points]
        want = math.pi * 500**2 * 100 / 3 - math.pi * 25**2 * 5 / 3
        moved = [(x - 600000, y - 5200000, z) for x, y, z in points]
        self.assertAlmostEqual(abs(volume(moved, mesh.triangles())) / want, 1, delta=0.005)
        self.assertAlmostEqual(min(x for x, _, _ in points), 599500, delta=0.1)
