"""Outlines of other programs are read as their formats say; what needs no package. The files are made by the tests."""
import io
import math
import os
import struct
import tempfile
import unittest
import zipfile

from fku import byu, importers, space
from fku.importers import table
from fku.trouble import NOT_READ, Trouble
from tests.common import TOOLS, fku, is_closed, tool, volume
from tests.outline_makers import circle, imod, imod_object, old_roi, roi, roi_zip

SQUARE = [(10, 20), (14, 20), (14, 26), (10, 26)]


def signed_area(ring):
    """Gives the area of a ring, below 0 where it runs clockwise."""
    return sum(a[0] * b[1] - b[0] * a[1] for a, b in zip(ring, ring[1:] + ring[:1])) / 2


class WithFiles(unittest.TestCase):
    """Writes files into a folder that goes again."""

    def setUp(self):
        folder = tempfile.TemporaryDirectory()
        self.addCleanup(folder.cleanup)
        self.folder = folder.name

    def path(self, name, data):
        """Writes a file, and gives its path."""
        path = os.path.join(self.folder, name)
        with open(path, "wb") as file:
            file.write(data if isinstance(data, bytes) else data.encode())
        return path

    def read(self, name, data, **options):
        """Writes a file, and reads it."""
        return importers.read(self.path(name, data), **options)

    def refused(self, name, data, part, **options):
        """Reads a file that is to be refused with these words."""
        with self.assertRaisesRegex(Trouble, part):
            self.read(name, data, **options)

    def surface(self, words):
        """Runs tools/contours and the program, and gives the text, the mesh, and what was reported."""
        status, text, told = tool("contours", words)
        self.assertEqual(status, 0, told)
        status, out = fku(["reconstruct"], text)
        self.assertEqual(status, 0, out[:100])
        self.assertTrue(is_closed(out))
        return text, byu.parse(out), told


class Tables(WithFiles):
    """CSV, TSV, and the text of IMOD's model2point."""

    WANT = {"": {0: [[(0, 0), (2, 0), (0, 2)]], 5: [[(1, 1), (3, 1), (1, 3)]]}}

    def test_ways_to_write_it(self):
        rows = ["0,0,0", "2,0,0", "0,2,0", "1,1,5", "3,1,5", "1,3,5"]
        blanks = [it.replace(",", " ") for it in rows]
        for text in (
            "x,y,z\n" + "\n".join(rows), "X;Y;Z\r\n" + "\r\n".join(it.replace(",", ";") for it in rows),
            "# made by hand\n\nx\ty\tz\n" + "\n".join(it.replace(",", "\t") for it in rows), "\n".join(rows),
            "  ".join(["", "x y   height\n"]) + "\n".join(blanks), "\n".join(blanks),
            "\ufeffx,y,z\n" + "\n".join(rows),
            '"x","y","z"\n' + "\n".join(f'"{it}"'.replace(",", '","') for it in rows),
            "id,z,y,note,x\n" + "\n".join(f"7,{it[4]},{it[2]},n,{it[0]}" for it in rows),
        ):  # fmt: skip
            self.assertEqual(self.read("a.csv", text).objects, self.WANT, text)
        utf16 = ("x\ty\tz\n" + "\n".join(it.replace(",", "\t") for it in rows)).encode("utf-16")
        self.assertEqual(self.read("a.txt", utf16).objects, self.WANT)

    def test_decimal_commas(self):
        traced = self.read("a.csv", "x;y;z\n0,5;0;1,25\n2,5;0;1,25\n0,5;2;1,25\n")
        self.assertEqual(traced.objects, {"": {1.25: [[(0.5, 0), (2.5, 0), (0.5, 2)]]}})

    def test_objects_and_contours(self):
        text = "Structure,Outline,X (mm),Y (mm),Slice\n" + "".join(
            f"{name},{outline},{x + shift},{y},{number}\n"
            for number in (3, 4) for x, y in SQUARE
            for name, outline, shift in (("left lobe", 1, 0), ("b", 1, 9), ("b", 2, 30))
        )  # fmt: skip
        traced = self.read("a.csv", text, spacing=2.5)
        moved = [[(x + shift, y) for x, y in SQUARE] for shift in (9, 30)]
        self.assertEqual(traced.objects, {"left lobe": {7.5: [SQUARE], 10: [SQUARE]}, "b": {7.5: moved, 10: moved}})
        self.assertEqual((traced.length, traced.spacing), ("mm", 2.5))
        self.refused("a.csv", text, "give --spacing: the table has numbers of slices")

    def test_text_of_imod(self):
        points = [(c, f"{x:.2f} {y:.2f} {z:.2f}") for c, z in ((1, 4), (2, 5)) for x, y in SQUARE]
        five = "".join(f"{o} {c} {point}\n" for o in (1, 2) for c, point in points)
        traced = self.read("a.txt", five, pixel=0.5, spacing=3)
        half = [(x / 2, y / 2) for x, y in SQUARE]
        self.assertEqual(traced.objects, {"1": {12: [half], 15: [half]}, "2": {12: [half], 15: [half]}})
        four = "".join(f" {c}   {x} {y}  {z}\n" for c, z in ((1, 4), (2, 4)) for x, y in SQUARE)
        self.assertEqual(self.read("a.txt", four).objects, {"": {4: [SQUARE, SQUARE]}})

    def test_outlines_without_a_column(self):
        text = "x,y,z\n0,0,1\n1,0,1\n0,1,1\n\n5,5,1\n6,5,1\n5,6,1\n"
        self.assertEqual(len(self.read("a.csv", text).objects[""][1]), 2)

    def test_columns_by_place(self):
        columns = ["slice", "x", "y", "object"]
        traced = self.read("a.dat", "1 0 0 A 0\n1 2 0 A 0\n1 0 2 A 0\n", columns=columns, spacing=2)
        self.assertEqual(traced.objects, {"A": {2: [[(0, 0), (2, 0), (0, 2)]]}})

    def test_heads(self):
        heads = {"X": "x", "y (mm)": "y", "Z_um": "z", "slice": "slice", "ROI": "object", "area": ""}
        for word, want in heads.items():
            self.assertEqual(table.column_of(word), want)

    def test_refusals(self):
        for text, part in (
            ("", "is empty"), ("\n\n", "is empty"), ("# only this\n", "is empty"),
            ("x,y,z\n", "this table has no point"),
            ("x,y\n1,2\n", "no column z or slice, only x, y"), ("a,b,z\n1,2,3\n", "no column x, y, only a, b, z"),
            ("x,y,z\n1,2,3\n4,5\n", "line 3: x, y, and z"), ("x,y,z\n1,2,three\n", "line 2: x, y, and z or slice"),
            ("# a text\nSECTIONS 1\n", "is a section text already"), ("a b c d e f g h i\n", "g, h and more"),
            ("1 2 3 4 5 6\n", "6 columns without names"), ("1 2\n", "2 columns without names"),
            ("x,y,z\n1,nan,3\n", "line 2"), ("x,y,z\n1,2,inf\n", "line 2"),
        ):  # fmt: skip
            self.refused("a.csv", text, part)
        tilted = "".join(f"1 1 {x} {y} {x + y}\n" for x, y in ((0, 0), (2, 0), (0, 3)))
        self.assertIn("is not in one slice: its z goes from 0 to 3", self.read("a.txt", tilted).faults["1"][0])

    def test_kinds_by_their_bytes(self):
        for name, data, kind in (
            ("a", b"IMODV1.2", "imod"), ("a", b"Iout", "imagej"), ("a.csv", b"PK\3\4", "imagej"),
            ("a", bytes(128) + b"DICM", "dicom"), ("a.dcm", b"\x08\0\5\0", "dicom"), ("a", b"x y z\n", "table"),
            ("a", b"\0\0\x27\x0a" + bytes(96), "shapefile"), ("a", b"<?xml version='1.0'?>\n<svg>", "svg"),
            ("a.7", b"<?xml version='1.0'?>\n<Section index='7'>", "reconstruct"), ("a", b'{"type": 1}', "geojson"),
        ):  # fmt: skip
            self.assertEqual(importers.kind_of(self.path(name, data)), kind, data)
        with self.assertRaisesRegex(Trouble, "is of an unknown kind: .*for volumes and images use tools/outlines"):
            importers.kind_of(self.path("a.nii", bytes(400)))

    def test_no_such_file(self):
        with self.assertRaisesRegex(Trouble, "No such file") as it:
            importers.read(os.path.join(self.folder, "none.csv"))
        self.assertEqual(it.exception.status, NOT_READ)


class ImageJ(WithFiles):
    """Regions of ImageJ and Fiji."""

    def one(self, data, name="a.roi", **options):
        """Gives the rings of a file with one object and one slice, and its height."""
        traced = self.read(name, data, **{"pixel": 1, "spacing": 1, "down": True} | options)
        ((_, slices),) = traced.objects.items()
        ((height, rings),) = slices.items()
        return height, [[(round(x, 4), round(y, 4)) for x, y in ring] for ring in rings]

    def test_kinds(self):
        fine = [(x + 0.25, y + 0.5) for x, y in SQUARE]
        box = (10, 20, 14, 26)
        move = [0, 10, 20, 1, 14, 20, 1, 14, 26, 1, 10, 26, 4]
        for data, want in (
            (roi(0, SQUARE, at=(1, 7, 1)), SQUARE), (roi(7, SQUARE, at=(1, 7, 1)), SQUARE),
            (roi(8, SQUARE, position=7), SQUARE), (roi(0, SQUARE, fine=fine, at=(0, 7, 0)), fine),
            (roi(1, box=box, at=(1, 7, 1)), SQUARE), (roi(1, box=box, position=7, shape=move), SQUARE),
            (roi(1, box=box, position=7, options=128, line=(10.25, 20.5, 4, 6)), fine),
            (roi(7, SQUARE, position=7, subtype=5, line=(10, 23, 14, 23), aspect=6.0), SQUARE),
        ):  # fmt: skip
            self.assertEqual(self.one(data), (6.5, [want]))

    def test_ovals(self):
        for data in (
            roi(2, box=(10, 20, 30, 32), position=1),
            roi(2, box=(0, 0, 0, 0), position=1, options=128, line=(10, 20, 20, 12)),
            roi(7, SQUARE, position=1, subtype=3, line=(10, 26, 30, 26), aspect=0.6),
        ):
            _, (ring,) = self.one(data)
            xs, ys = zip(*ring)
            self.assertAlmostEqual(abs(signed_area(ring)), math.pi * 60, delta=0.01)
            middle = ((max(xs) + min(xs)) / 2, (max(ys) + min(ys)) / 2)
            self.assertAlmostEqual(math.dist(middle, (20, 26)), 0, delta=0.01)

    def test_composite_with_a_hole_and_a_curve(self):
        outer = [0, 0, 0, 1, 30, 0, 1, 30, 30, 1, 0, 30, 4]
        hole = [0, 10, 10, 1, 10, 20, 1, 20, 20, 4, 0, 40, 0, 2, 50, 0, 50, 10, 3, 50, 20, 40, 20, 40, 10, 4]
        _, rings = self.one(roi(1, box=(0, 0, 50, 30), position=3, shape=outer + hole))
        self.assertEqual(rings[:2], [[(0, 0), (30, 0), (30, 30), (0, 30)], [(10, 10), (10, 20), (20, 20)]])
        self.assertEqual((len(rings), rings[2][-1], rings[2][0]), (3, (40, 10), (40, 0)))

    def test_slices_and_names(self):
        zipped = roi_zip({
            "__MACOSX/._0005-0023-0012": b"of macOS", "0005-0023-0012": old_roi(0, SQUARE),
            "0006-0023-0012-1": old_roi(7, SQUARE),
            "by file": roi(0, SQUARE, position=9), "x": roi(0, SQUARE, at=(1, 4, 1), name="cell \u00e4", position=99),
            "y": roi(0, SQUARE, position=5, name="cell \u00e4-1", group=2),
        })  # fmt: skip
        traced = self.read("set.zip", zipped, pixel=1, spacing=2)
        found = {name: list(slices) for name, slices in traced.objects.items()}
        self.assertEqual(found, {"": [8, 10], "by file": [16], "cell \u00e4": [6, 8]})
        grouped = self.read("set.zip", zipped, pixel=1, spacing=2, by="group")
        self.assertEqual(list(grouped.objects), ["group 0", "group 2"])
        self.assertEqual(list(self.read("set.zip", zipped, pixel=1, spacing=2, by="all").objects), [""])

    def test_files_of_imagej(self):
        # Made by ImageJ itself: see imagej/regions.ijm.
        traced = importers.read(f"{TOOLS}/tests/imagej/regions.zip", pixel=1, spacing=1, close=True, down=True)
        fine = [(x + 0.25, y + 0.5) for x, y in SQUARE]
        want = {"polygon": SQUARE, "fine polygon": fine, "freehand": fine, "rectangle": SQUARE, "turned": SQUARE,
                "in a group": SQUARE}  # fmt: skip
        for name, points in want.items():
            ((ring,),) = traced.objects[name].values()
            self.assertEqual([(round(x, 5), round(y, 5)) for x, y in ring], points, name)
        areas = {"fine rectangle": 29.25, "oval": 60 * math.pi, "fine oval": 4.5 * 6.5 * math.pi / 4,
                 "ellipse": 60 * math.pi, "with a hole": 800, "two": 1880, "traced": 35, "line": 18}  # fmt: skip
        for name, area in areas.items():
            (rings,) = traced.objects[name].values()
            self.assertAlmostEqual(abs(sum(map(signed_area, rings))), area, delta=1e-3, msg=name)
        found = [height for slices in traced.objects.values() for height in slices]
        self.assertEqual(sorted(found), [at + 0.5 for at in range(13)] + [14.5, 15.5, 16.5])
        self.assertEqual([len(it) for it in traced.objects[""].values()], [1, 2])

    def test_hyperstack_of_imagej(self):
        path = f"{TOOLS}/tests/imagej/hyperstack.zip"
        traced = importers.read(path, pixel=1, spacing=1, stack=[2, 3], time=2)
        self.assertEqual({name: list(it) for name, it in traced.objects.items()}, {"by position": [2], "": [1]})
        with self.assertRaisesRegex(Trouble, "no region is at time 1"):
            importers.read(path, pixel=1, spacing=1, stack=[2, 3], time=1)

    def test_times(self):
        zipped = roi_zip({f"r{t}": roi(0, SQUARE, at=(1, 2, t), name=f"r{t}") for t in (1, 2)})
        self.refused("set.zip", zipped, "at the times 1, 2: choose one with --time", pixel=1, spacing=1)
        self.assertEqual(list(self.read("set.zip", zipped, pixel=1, spacing=1, time=2).objects), ["r2"])
        self.refused("set.zip", zipped, "no region is at time 7", pixel=1, spacing=1, time=7)

    def test_lines_and_points(self):
        line = roi(5, SQUARE, position=1, name="axon")
        self.assertIn("axon is an open line: --close", self.read("a.roi", line, pixel=1, spacing=1).faults["axon"][0])
        traced = self.read("a.roi", line, pixel=1, spacing=1, close=True)
        upward = [(x - 0.5, 0.5 - y) for x, y in SQUARE]
        self.assertEqual((traced.objects, traced.faults), ({"axon": {0: [upward]}}, {}))
        both = roi_zip({"p": roi(10, SQUARE, position=1, name="seeds"), "q": roi(0, SQUARE, position=1, name="q")})
        notes = self.read("a.zip", both, pixel=1, spacing=1).notes
        self.assertEqual(notes, ["the points seeds encloses nothing, and was left out"])
        self.refused("a.roi", roi(10, SQUARE, position=1), "this file has no closed outline", pixel=1, spacing=1)

    def test_refusals(self):
        good = roi(0, SQUARE, position=1, name="abc")
        self.refused("a.roi", good, "give --spacing: regions do not say", pixel=1)
        self.refused("a.roi", good, "give --pixel: regions do not say", spacing=1)
        self.refused("a.roi", good, "give --pixel and --spacing: regions do not say")
        self.refused("a.roi", b"Jout" + good[4:], "a.roi: is not a text file", pixel=1, spacing=1, kind="table")
        self.refused("a.roi", b"Jout" + good[4:], "it does not begin with Iout", pixel=1, spacing=1)
        self.refused("a.roi", good, "--columns cannot be used with regions", columns=["x"], pixel=1, spacing=1)
        self.assertIn("has no slice", self.read("a.roi", roi(0, SQUARE), pixel=1, spacing=1).faults["a"][0])
        shape = [0, 10, 20, 1, 14, 20, 7, 14, 26]
        self.refused("a.roi", roi(1, box=(0, 0, 9, 9), shape=shape, position=1), "composite region is damaged", pixel=1,
                     spacing=1)  # fmt: skip
        none = self.path("none.roi", roi(0, box=(1, 1, 2, 2), position=1))
        status, _, told = tool("contours", ["--pixel", "1", "--spacing", "1", none])
        self.assertEqual((status, "no closed outline is left" in told), (1, True))
        zipped = roi_zip({"abc": good})
        self.refused("a.zip", roi_zip({}), "this zip file has no .roi file", pixel=1, spacing=1)
        self.refused("a.zip", zipped[:-30], "not a complete zip file", pixel=1, spacing=1)
        self.refused("a.zip", b"PK" + bytes(40), "not a complete zip file", pixel=1, spacing=1)
        data = io.BytesIO()
        with zipfile.ZipFile(data, "w") as file:
            file.writestr("abc.roi", good[:90])
        self.refused("a.zip", data.getvalue(), "abc: the region ends too soon", pixel=1, spacing=1)

    def test_cut_anywhere(self):
        fine = [(x + 0.25, y + 0.5) for x, y in SQUARE]
        for good in (roi(0, SQUARE, fine=fine, position=1, name="abc"), roi(2, box=(1, 2, 3, 4), position=1, name="q")):
            for size in range(len(good)):
                if size < len(good) - 2 * 3 - 64 or size >= len(good) - 2 * 3:
                    with self.assertRaises(Trouble):
                        self.read("a.roi", good[:size], pixel=1, spacing=1)


class Imod(WithFiles):
    """Models of IMOD."""

    def flat(self, z):
        """Gives the square in a slice."""
        return [(x, y, z) for x, y in SQUARE]

    def test_objects_and_scales(self):
        mesh = b"MESH" + struct.pack(">iiIhh", 2, 3, 0, 0, 0) + bytes(4 * 6 + 4 * 3)
        view = b"VIEW" + struct.pack(">i", 5) + b"12345"
        pores = imod_object("pore ring", [self.flat(4), self.flat(5)])
        objects = [pores + mesh, imod_object("", [self.flat(9)]) + view]
        data = imod(objects, pixel=2.0, unit=-9, scale=3.0, more=b"MINX" + struct.pack(">i", 72) + bytes(72))
        traced = self.read("a.mod", data)
        double = [(2 * x, 2 * y) for x, y in SQUARE]
        self.assertEqual(traced.objects, {"pore ring": {27: [double], 33: [double]}, "object 2": {57: [double]}})
        self.assertEqual((traced.length, traced.spacing, traced.notes, traced.faults), ("nm", 6, [], {}))
        other = self.read("a.mod", data, pixel=1, spacing=1, length="px")
        self.assertEqual((other.objects["object 2"], other.length), ({9.5: [SQUARE]}, "px"))

    def test_open_and_scattered(self):
        data = imod([imod_object("fibre", [self.flat(1)], 1 << 3), imod_object("dots", [self.flat(1)], 1 << 9),
                     imod_object("rings", [self.flat(1), (self.flat(2), 1 << 3), self.flat(3)[:2]])])  # fmt: skip
        traced = self.read("a.mod", data)
        self.assertEqual((list(traced.faults), list(traced.objects["rings"])), (["fibre", "rings"], [1.5]))
        self.assertEqual(len(traced.notes), 2)
        closed = self.read("a.mod", data, close=True)
        found = (closed.faults, list(closed.objects["rings"]), list(closed.objects["fibre"]))
        self.assertEqual(found, ({}, [1.5, 2.5], [1.5]))

    def test_no_plane(self):
        tilted = [(x, y, 4 + 0.1 * at) for at, (x, y) in enumerate(SQUARE)]
        self.assertIn("is not in one slice: its z goes from 4 to 4.3",
                      self.read("a.mod", imod([imod_object("a", [tilted])])).faults["a"][0])  # fmt: skip

    def test_refusals(self):
        good = imod([imod_object("a", [self.flat(1)])])
        self.refused("a.mod", b"", "is empty")
        self.refused("a.mod", b"IMODV0.9" + good[8:], "has version V0.9")
        self.refused("a.mod", b"XMOD" + good[4:], "it does not begin with IMOD")
        self.refused("a.mod", good[:-4], "does not end with IEOF")
        self.refused("a.mod", good.replace(b"OBJT", b"IMAT"), "damaged|ends too soon")
        self.refused("a.mod", imod([]), "no closed contour")
        for value in (math.nan, math.inf):
            odd = self.path("a.mod", imod([imod_object("a", [[(value, 1, 1), *self.flat(1)]])]))
            status, _, told = tool("contours", [odd])
            self.assertEqual((status, "a coordinate is not a finite number" in told), (1, True))
        bad = good.replace(b"CONT" + struct.pack(">i", 4), b"CONT" + struct.pack(">i", -4))
        self.refused("a.mod", bad, "ends too soon")
        for size in range(len(good)):
            with self.assertRaises(Trouble):
                self.read("a.mod", good[:size])


def tube(write):
    """Gives what `write` makes of the slices (number from 0, rings) of a tube of radius 20 with a hole of radius 8."""
    return write([(at, [circle(20, 72, 40, 30), circle(8, 40, 40, 30, -1)]) for at in range(11)])


class Surfaces(WithFiles):
    """From a file of each kind to a closed surface of the right volume, in the right place."""

    WANT = math.pi * (20**2 - 8**2) * 10

    def see(self, name, data, words, scale=1.0, half=1):
        """Makes a tube's surface without half slices and with them, and looks at its volume and its place."""
        path = self.path(name, data)
        for ends, want in (([], self.WANT), (["--half-ends"], self.WANT * (1 + 0.1 * half))):
            text, mesh, told = self.surface([*words, *ends, "--unit", "0.01", path])
            place = space.read(text)
            points = [place.place(it) for it in mesh.points]
            found = abs(volume(points, mesh.triangles()))
            self.assertAlmostEqual(found / want / scale, 1, delta=0.005)
            self.assertIn("22 outlines" if not ends else "26 outlines", told)
            low, high = ([f(it[axis] for it in points) for axis in range(3)] for f in (min, max))
            yield low, high

    def test_table(self):
        text = tube(lambda slices: "object,contour,x,y,z\n" + "".join(
            f"a tube,{number},{x:.6f},{y:.6f},{at}\n"
            for at, rings in slices for number, ring in enumerate(rings) for x, y in ring
        ))  # fmt: skip
        for (low, high), z in zip(self.see("tube.csv", text, []), (0, -0.5)):
            self.assertAlmostEqual(math.dist(low, (20, 10, z)), 0, delta=0.05)
            self.assertAlmostEqual(math.dist(high, (60, 50, 10 - z)), 0, delta=0.05)

    def test_imagej(self):
        regions = tube(lambda slices: {
            f"{at}_{number}": roi(7, [(0, 0)] * len(ring), (0, 0, 80, 80), ring, (1, at + 1, 1), "tube-1")
            for at, rings in slices for number, ring in enumerate(rings)
        })  # fmt: skip
        words = ["--pixel", "0.5", "--spacing", "2"]
        for low, high in self.see("tube.zip", roi_zip(regions), words, 0.5):
            self.assertAlmostEqual(math.dist((low[0], high[1]), (9.75, -4.75)), 0, delta=0.05)
            self.assertAlmostEqual(low[2] + high[2], 20, delta=0.05)
        for low, high in self.see("tube.zip", roi_zip(regions), [*words, "--down"], 0.5):
            self.assertAlmostEqual(math.dist(low[:2], (10, 5)), 0, delta=0.05)
            self.assertAlmostEqual(low[2] + high[2], 22, delta=0.05)

    def test_imod(self):
        contours = tube(lambda slices: [[(x, y, at) for x, y in ring] for at, rings in slices for ring in rings])
        data = imod([imod_object("a tube of IMOD", contours)], pixel=0.5, unit=-6, scale=4.0)
        for low, high in self.see("tube.mod", data, [], 0.5):
            self.assertAlmostEqual(math.dist(low[:2], (10, 5)), 0, delta=0.05)
            self.assertAlmostEqual(low[2] + high[2], 22, delta=0.05)


class Tool(WithFiles):
    """The words of tools/contours, and what it reports."""

    def run_on(self, text, *words, name="a.csv"):
        """Runs the tool on a file, and gives its status, its text and its report."""
        status, out, told = tool("contours", [*words, self.path(name, text)])
        return status, out.decode("utf-8"), told

    def stack(self, heights, shift=0.0):
        """Gives a table of squares of side 10."""
        square = ((0, 0), (10, 0), (10, 10), (0, 10))
        return "x,y,z\n" + "".join(f"{x + shift},{y},{z}\n" for z in heights for x, y in square)

    def test_text_as_it_stands(self):
        status, text, told = self.run_on(self.stack((1, 2)), "--unit", "0.5", "--cost", "mix,2,3", "--length", "um")
        self.assertEqual(status, 0)
        self.assertEqual(text, "\n".join([
            "# outlines of a.csv",
            "# unit 0.5 um, counted from 0, 0, 0; smallest area 0, tolerance 0; no half slices at the ends",
            "# space: affine 0.5 0 0 0 0 0.5 0 0 0 0 0.5 0", "# space: length um",
            "SECTIONS 1", "COST mix 2 3", "PAIR overlap",
            "SECTION 2", "CONTOUR s0_0 4", "0 0", "20 0", "20 20", "0 20",
            "SECTION 4", "CONTOUR s1_0 4", "0 0", "20 0", "20 20", "0 20", "END", "",
        ]))  # fmt: skip
        self.assertEqual(told, "contours: the object without a name: 2 slices, 2 outlines, 8 points\n")

    def test_gaps_and_ends(self):
        text = self.stack((0, 1, 2, 8, 9))
        _, whole, told = self.run_on(text, "--unit", "0.1")
        self.assertIn("wider gaps, up to 6, that are bridged: 1 (--apart 1.5 leaves them open)", told)
        self.assertEqual(whole.count("SECTION "), 5)
        _, parted, told = self.run_on(text, "--unit", "0.1", "--apart", "1.5", "--half-ends")
        heights = [int(it.split()[1]) for it in parted.split("\n") if it.startswith("SECTION ")]
        self.assertEqual(heights, [-5, 0, 10, 20, 25, 50, 75, 80, 90, 95])
        self.assertNotIn("bridged", told)
        mesh = byu.parse(fku(["reconstruct"], parted.encode())[1])
        self.assertEqual(abs(volume(mesh.points, mesh.triangles())), 5 * 10 * 100 * 100)

    def test_nothing_left_of_an_object(self):
        text = "object,x,y,z\n" + "".join(
            f"{name},{x},{y},{z}\n" for name, z in (("a", 0), ("a", 1), ("b", 0)) for x, y in SQUARE
        )  # fmt: skip
        status, out, told = self.run_on(text, "--lone", "drop")
        self.assertEqual((status, out.count("OBJECT "), "contours: b: no outline is left" in told), (0, 1, True))
        status, _, told = self.run_on(text, "--smallest", "99")
        self.assertEqual((status, "a: no outline is left\ncontours: b: no outline is left" in told), (1, True))
        status, _, told = self.run_on(text, "--apart", "0.5", "--half-ends", "--object", "a")
        self.assertEqual((status, "slices are 1 apart, so --apart 0.5 joins none" in told), (1, True))

    def test_one_slice(self):
        status, _, told = self.run_on(self.stack((3,)))
        self.assertEqual((status, "a single slice makes a surface without volume" in told), (0, True))
        status, _, told = self.run_on(self.stack((3,)), "--half-ends")
        self.assertEqual((status, "half slices need its thickness: give --spacing" in told), (1, True))
        status, text, _ = self.run_on(self.stack((3,)), "--half-ends", "--spacing", "2", "--unit", "1")
        self.assertEqual((status, text.count("SECTION 5\n") + text.count("SECTION 7\n")), (0, 2))

    def test_far_away(self):
        status, text, told = self.run_on(self.stack((0, 1), 5e6), "--unit", "0.01")
        self.assertEqual((status, "since their own origin is too far away" in told), (0, True))
        place = space.read(text.encode())
        self.assertEqual(place.place((-500, -500, -50)), (5e6, 0, 0))
        self.assertEqual(self.run_on(self.stack((0, 1)), "--unit", "0.000001")[0], 1)

    def test_unit_by_itself(self):
        for scale, unit in ((1, "0.0001"), (300, "0.1"), (0.01, "1e-06")):
            head, *rows = self.stack((0, 1)).split()
            scaled = "\n".join([head, *(",".join(str(float(it) * scale) for it in row.split(",")) for row in rows)])
            self.assertIn(f"# unit {unit} of the source", self.run_on(scaled)[1])

    def test_objects_by_name(self):
        text = "object,x,y,z\n" + "".join(
            f"{name},{x},{y},{z}\n" for name in ("GTV 1 (left \u00fcber)", "GTV 2", "skin")
            for z in (0, 1) for x, y in SQUARE
        )  # fmt: skip
        status, out, told = self.run_on(text, "--object", "GTV*")
        self.assertEqual((status, out.count("OBJECT ")), (0, 2))
        self.assertIn("# name: GTV_2 GTV 2\n", out)
        self.assertIn("GTV 1 (left \u00fcber)", out)
        self.assertEqual(fku(["report"], out.encode())[0], 0)
        status, _, told = self.run_on(text, "--object", "liver")
        self.assertEqual((status, "no object is named liver; there are: GTV 1" in told), (1, True))
        status, out, _ = self.run_on(text, "--list")
        self.assertEqual((status, out.split("\n")[2]), (0, "skin: 2 slices, 2 outlines, 8 points, from 0 to 1"))

    def test_faults_of_others_do_not_matter(self):
        tilted = "".join(f"tilted,1,{x},{y},{x}\n" for x, y in SQUARE)
        flat = "".join(f"flat,1,{x},{y},{z}\n" for z in (0, 1) for x, y in SQUARE)
        text = "object,contour,x,y,z\n" + tilted + flat
        status, _, told = self.run_on(text)
        self.assertEqual((status, "tilted: contour 1 is not in one slice" in told, "--object" in told), (1, True, True))
        self.assertEqual(self.run_on(text, "--object", "flat")[0], 0)

    def test_lone(self):
        text = self.stack((0, 1, 2)) + "\n50,50,1\n60,50,1\n60,60,1\n"
        _, kept, told = self.run_on(text, "--unit", "1")
        self.assertIn("joined to nothing, neither below nor above: 1 (--lone drop leaves them out)", told)
        _, left, told = self.run_on(text, "--unit", "1", "--lone", "drop")
        self.assertIn("nor above: 1 (1 left out)", told)
        self.assertEqual((kept.count("CONTOUR"), left.count("CONTOUR")), (4, 3))

    def test_standard_input(self):
        status, out, _ = tool("contours", ["--from", "table", "-"], self.stack((0, 1)).encode())
        self.assertEqual((status, b"# outlines of the standard input\n" in out), (0, True))
        status, _, told = tool("contours", ["-"], b"")
        self.assertEqual((status, "give --from" in told), (1, True))

    def test_words_without_a_meaning(self):
        for words in (["--pixel", "0"], ["--unit", "x"], ["--cost", "mix,0,0"], ["--from", "paint"], []):
            self.assertEqual(tool("contours", words)[0], 2)
