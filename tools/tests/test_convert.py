"""The reader of surfaces, and what `convert` makes of them."""
import json
import os
import struct
import tempfile
import unittest
from decimal import Decimal
from fractions import Fraction

from fku import byu, mesh_files
from tests.common import file, fku, is_closed, tool, unpaired, volume

SQUARES = file("examples/squares.byu")

# Two parts, three vertices in the far corners.
TWO_PARTS = b"""\
       2       3       2       6
       1       1
       2       2
-9.99999E+05-9.99999E+05-9.99999E+05 9.99999E+05-9.99999E+05-9.99999E+05
 0.00000E+00 9.99999E+05-9.99999E+05
       1       3      -2
       1       2      -3
"""


def with_line(number, line):
    """Gives the text of the squares with one line, counted from 1, replaced."""
    lines = SQUARES.split(b"\n")
    lines[number - 1] = line
    return b"\n".join(lines)


def fault_line(text):
    """Gives the line where a text has its fault, 0 where it has none."""
    try:
        byu.parse(text)
    except byu.FaultAt as it:
        return it.line
    return 0


class Reading(unittest.TestCase):
    """Which texts are read, and the first line at fault of others."""

    def test_the_squares(self):
        mesh = byu.parse(SQUARES)
        self.assertEqual((len(mesh.points), len(mesh.parts), len(mesh.triangles())), (8, 1, 12))
        self.assertEqual(mesh.points[6], (10, 10, 10))
        self.assertEqual(mesh.triangles()[0], (3, 1, 0))
        self.assertEqual(volume(mesh.points, mesh.triangles()), 1000)

    def test_closed_and_open(self):
        self.assertTrue(is_closed(SQUARES))
        turned = with_line(18, b"       6       8      -7")
        self.assertFalse(is_closed(turned))
        self.assertEqual(sorted(unpaired(byu.parse(turned))), [(5, 7), (6, 5), (7, 6)])

    def test_two_parts(self):
        mesh = byu.parse(TWO_PARTS)
        self.assertEqual(mesh.points, [(-999999, -999999, -999999), (999999, -999999, -999999), (0, 999999, -999999)])
        self.assertEqual(mesh.parts, [[(0, 2, 1)], [(0, 1, 2)]])

    def test_lines_at_fault(self):
        lines = [
            (1, b"       1       8      12      35"),
            (1, b"       0       8      12      36"),
            (1, b"      13       8      12      36"),
            (1, b"    4097       8 500000015000000"),
            (1, b"       1       0      12      36"),
            (1, b"       1 2097153      12      36"),
            (1, b"       1       8       0       0"),
            (1, b"       1       8 500000115000003"),
            (1, b"1              8      12      36"),
            (1, b"       1      +8      12      36"),
            (1, b"       1       8      12\t     36"),
            (1, b"       1       8      12      36\r"),
            (1, b"       1       8      1_2     36"),
            (2, b"       1      11"),
            (2, b"       2      12"),
            (2, b"       1      13"),
            (3, b" 0.00000E+00 0.00000E+00 0.00000E+00 1.00000E+01 0.00000E+00-0.00000E+00"),
            (3, b" 0.00000E+00 0.00000E+00 0.00000E+00 0.10000E+02 0.00000E+00 0.00000E+00"),
            (3, b" 0.00000E+00 0.00000E+00 0.00000E+00 1.50000E+00 0.00000E+00 0.00000E+00"),
            (3, b" 0.00000E+00 0.00000E+00 0.00000E+00 1.00000E+06 0.00000E+00 0.00000E+00"),
            (3, b" 0.00000E+00 0.00000E+00 0.00000E+00"),
            (7, b"       4       2       1"),
            (7, b"       4       9      -1"),
            (7, b"       0       2      -1"),
            (7, b"       4      -2      -1"),
            (7, b"       4       2      -1 "),
        ]
        for number, line in lines:
            with self.subTest(line=line):
                self.assertEqual(fault_line(with_line(number, line)), number)

    def test_ends_at_fault(self):
        last = SQUARES.rindex(b"\n", 0, -1) + 1
        for line, end in [
            (18, b""),
            (18, SQUARES[last:-1]),
            (18, SQUARES[last:-1] + b"\r\n"),
            (19, SQUARES[last:] + b"\n"),
            (19, SQUARES[last:] * 2),
        ]:
            with self.subTest(end=end):
                self.assertEqual(fault_line(SQUARES[:last] + end), line)
        self.assertEqual(fault_line(b""), 1)
        self.assertEqual(fault_line(SQUARES[:1]), 1)


class Writing(unittest.TestCase):
    """The three kinds of files."""

    def test_exact_decimals(self):
        rows = [(10, "1", "10"), (0, "0.01", "0"), (-999999, "0.01", "-9999.99"), (12345, "1e-6", "0.012345")]
        rows += [(300, "0.01", "3"), (7, "1e12", "7000000000000")]
        for value, factor, want in rows:
            self.assertEqual(mesh_files.decimal_text(value, Decimal(factor)), want)

    def test_ply(self):
        text = mesh_files.ply(byu.parse(SQUARES), Decimal("0.5")).decode()
        head, _, body = text.partition("end_header\n")
        self.assertIn("element vertex 8\n", head)
        self.assertIn("element face 12\n", head)
        lines = body.split("\n")
        self.assertEqual((lines[1], lines[8], len(lines)), ("5 0 0", "3 3 1 0", 21))
        self.assertEqual(self.again(lines[:8], [it.split()[1:] for it in lines[8:20]], 0), Fraction(125))

    def test_obj(self):
        lines = mesh_files.obj(byu.parse(TWO_PARTS), Decimal(1)).decode().split("\n")
        self.assertEqual(lines[1:], [
            "v -999999 -999999 -999999", "v 999999 -999999 -999999", "v 0 999999 -999999",
            "o part_1", "g part_1", "f 1 3 2", "o part_2", "g part_2", "f 1 2 3", "",
        ])

    def test_ply_of_parts(self):
        text = mesh_files.ply(byu.parse(TWO_PARTS), Decimal(1)).decode()
        self.assertIn("property list uchar int vertex_indices\nproperty int part\nend_header\n", text)
        self.assertTrue(text.endswith("\n3 0 2 1 1\n3 0 1 2 2\n"))
        self.assertNotIn("part", mesh_files.ply(byu.parse(SQUARES), Decimal(1)).decode())

    def test_one_part(self):
        mesh = byu.Mesh([(0, 0, 0), (1, 0, 0), (2, 0, 0), (3, 0, 0)], [[(3, 1, 0)], [(3, 2, 1), (1, 2, 3)]])
        self.assertEqual((mesh.part(1).points, mesh.part(1).parts), ([(0, 0, 0), (1, 0, 0), (3, 0, 0)], [[(2, 1, 0)]]))
        self.assertEqual(mesh.part(2).points, [(1, 0, 0), (2, 0, 0), (3, 0, 0)])
        self.assertEqual(mesh.part(2).parts, [[(2, 1, 0), (0, 1, 2)]])

    def test_stl(self):
        data = mesh_files.stl(byu.parse(SQUARES), Decimal(1))
        self.assertEqual((len(data), struct.unpack_from("<I", data, 80)), (84 + 50 * 12, (12,)))
        self.assertEqual(struct.unpack_from("<12fH", data, 84), (0, 0, -1, 0, 10, 0, 10, 0, 0, 0, 0, 0, 0))
        points, triangles = [], []
        for at in range(84, len(data), 50):
            values = struct.unpack_from("<12fH", data, at)[3:12]
            triangles.append(tuple(range(len(points), len(points) + 3)))
            points += [tuple(map(Fraction, values[k : k + 3])) for k in (0, 3, 6)]
        self.assertEqual(volume(points, triangles), 1000)

    def again(self, points, triangles, first):
        """Gives the volume of a mesh that was read back from words."""
        read = [tuple(map(Fraction, it.split())) for it in points]
        return volume(read, [tuple(int(word) - first for word in it) for it in triangles])


class Tool(unittest.TestCase):
    """The tool, by its words, statuses and messages."""

    def test_from_the_program(self):
        for name in ["squares", "caudate_pair"]:
            status, text = fku(["reconstruct"], file(f"examples/{name}.txt"))
            self.assertEqual(status, 0)
            self.assertTrue(is_closed(text))
            status, out, told = tool("convert", ["--to", "obj", "-", "-"], text)
            self.assertEqual((status, told), (0, ""))
            self.assertEqual(out, mesh_files.obj(byu.parse(text), Decimal(1)))

    def test_a_part_alone(self):
        status, text = fku(["reconstruct"], file("examples/thalami.txt"))
        self.assertEqual(status, 0)
        mesh = byu.parse(text)
        halves = [mesh.part(1), mesh.part(2)]
        self.assertEqual(sum(len(it.points) for it in halves), len(mesh.points))
        for number, half in enumerate(halves, 1):
            self.assertEqual(unpaired(half), [])
            status, out, told = tool("convert", ["--to=stl", f"--part={number}", "-", "-"], text)
            self.assertEqual((status, out, told), (0, mesh_files.stl(half, Decimal(1)), ""))

    def test_files(self):
        with tempfile.TemporaryDirectory() as folder:
            for kind, size in [("ply", 0), ("stl", 684), ("obj", 0)]:
                out = f"{folder}/squares.{kind}"
                self.assertEqual(tool("convert", ["--factor=0.01", "-", out], SQUARES), (0, b"", ""))
                self.assertTrue(os.path.getsize(out) == size or not size)

    def test_troubles(self):
        rows = [
            (["-", "x.stl"], SQUARES[:-1], 1, "line 18"),
            (["-", "x.stl"], b"solid", 1, "line 1"),
            (["-", "x.vtk"], SQUARES, 2, "--to"),
            (["--factor=0", "-", "x.stl"], SQUARES, 2, "factor"),
            (["--factor=ten", "-", "x.stl"], SQUARES, 2, "not a number"),
            (["--part=0", "-", "x.stl"], SQUARES, 2, "from 1, is required"),
            (["--part=2", "-", "x.stl"], SQUARES, 1, "no part 2; the last one is 1"),
            (["no such file", "x.stl"], b"", 3, "No such file"),
            (["-", "no such folder/x.stl"], SQUARES, 4, "No such file"),
        ]
        for words, text, want, part in rows:
            with self.subTest(words=words):
                status, out, told = tool("convert", words, text)
                self.assertEqual((status, out), (want, b""))
                self.assertIn(part, told)
                self.assertFalse(os.path.exists("x.stl"))


def tetrahedron(shift):
    """Gives the points and the triangles of a tetrahedron whose corners are 6 apart from one at a place."""
    x, y, z = shift
    points = [(x, y, z), (x + 6, y, z), (x, y + 6, z), (x, y, z + 6)]
    return points, [(0, 2, 1), (0, 1, 3), (1, 2, 3), (2, 0, 3)]


def two_tetrahedra():
    """Gives a surface of two parts as a text of fku."""
    (points, triangles), (others, _) = tetrahedron((0, 0, 0)), tetrahedron((-9, 1, 2))
    lines = [byu.number_line([2, 8, 8, 24]), byu.number_line([1, 4]), byu.number_line([5, 8])]
    points = points + others
    for at in range(0, 8, 2):
        lines.append(b"".join(byu.coordinate_field(it) for point in points[at : at + 2] for it in point) + b"\n")
    for shift in (1, 5):
        lines += [byu.number_line([a + shift, b + shift, -c - shift]) for a, b, c in triangles]
    return b"".join(lines)


def text_like(*comments, names=("left", "right")):
    """Gives a section text with comments and with an object of each name."""
    lines = [*(f"# {it}" for it in comments), "SECTIONS 2", "COST span", "PAIR overlap"]
    for at, name in enumerate(names):
        lines += [f"OBJECT {name}", "SECTION 0", f"CONTOUR c{at} 3", "0 0", "6 0", "0 6"]
    return "\n".join([*lines, "END", ""]).encode()


def obj_mesh(text):
    """Gives the points of an OBJ text as fractions, the triangles, and the names of its objects."""
    rows = [line.split(" ", 1) for line in text.decode().splitlines() if " " in line]
    points = [tuple(map(Fraction, rest.split())) for word, rest in rows if word == "v"]
    triangles = [tuple(int(it) - 1 for it in rest.split()) for word, rest in rows if word == "f"]
    return points, triangles, [rest for word, rest in rows if word == "o"]


class Like(unittest.TestCase):
    """The place, the unit of length and the names that the section text tells."""

    def setUp(self):
        folder = tempfile.TemporaryDirectory()
        self.addCleanup(folder.cleanup)
        self.path = f"{folder.name}/outlines.txt"

    def convert(self, text, *words, surface=None):
        """Gives the status of `convert`, what it wrote and what it told, by this section text."""
        with open(self.path, "wb") as opened:
            opened.write(text)
        words = ["--like", self.path, *words, "-", "-"]
        return tool("convert", words, two_tetrahedra() if surface is None else surface)

    def test_place_and_names(self):
        comments = ["name: left the left  one", "space: affine 0.01 0 0 -90 0 0.01 0 -125.5 0 0 0.01 -71"]
        comments.append("space: length mm")
        status, out, told = self.convert(text_like(*comments), "--to=obj")
        self.assertEqual((status, told), (0, ""))
        points, triangles, names = obj_mesh(out)
        self.assertEqual(names, ["the_left_one", "right"])
        self.assertEqual(points[1], (Fraction("-89.94"), Fraction("-125.5"), -71))
        self.assertEqual(points[4], (Fraction("-90.09"), Fraction("-125.49"), Fraction("-70.98")))
        self.assertEqual(volume(points, triangles), Fraction(72, 10**6))
        status, out, _ = self.convert(text_like(*comments), "--to=ply")
        self.assertIn(b"\ncomment part 1 the left  one\ncomment part 2 right\nelement", out)

    def test_a_mirror_image_faces_outward(self):
        affines = [("0 2 0 1 2 0 0 1 0 0 2 1", 8), ("2 0 0 0 0 -2 0 0 0 0 2 0", 8), ("0 0 1 0 1 0 0 0 0 1 0 0", 1)]
        for affine, size in affines:
            status, out, told = self.convert(text_like(f"space: affine {affine}"), "--to=obj")
            self.assertEqual((status, told), (0, ""))
            points, triangles, _ = obj_mesh(out)
            self.assertEqual(volume(points, triangles), 72 * size)

    def test_worlds(self):
        comments = ["space: affine 1 0 0 5 0 1 0 6 0 0 1 7", "space: world LPS"]
        found = {}
        for world in ("RAS", "LPS"):
            status, out, _ = self.convert(text_like(*comments), "--to=obj", f"--world={world}")
            self.assertEqual(status, 0)
            points, triangles, _ = obj_mesh(out)
            self.assertEqual(volume(points, triangles), 72)
            found[world] = points
        self.assertEqual((found["LPS"][0], found["RAS"][0]), ((5, 6, 7), (-5, -6, 7)))

    def test_places_are_rounded_far_below_a_unit(self):
        half = 0.01 * 0.5**0.5
        affine = f"{half} {-half} 0 0 {half} {half} 0 0 0 0 0.01 0"
        status, out, _ = self.convert(text_like(f"space: affine {affine}"), "--to=obj")
        self.assertEqual(status, 0)
        self.assertIn(b"\nv 0.04242641 0.04242641 0\n", out)

    def test_a_factor_and_names(self):
        status, out, told = self.convert(text_like("space: affine 1 0 0 5 0 1 0 6 0 0 1 7"), "--to=obj", "--factor=0.5")
        self.assertEqual((status, told), (0, ""))
        points, _, names = obj_mesh(out)
        self.assertEqual((points[0], points[1], names), ((0, 0, 0), (3, 0, 0), ["left", "right"]))

    def test_a_part_with_its_name(self):
        status, out, _ = self.convert(text_like("space: affine 1 0 0 5 0 1 0 6 0 0 1 7"), "--to=obj", "--part=2")
        self.assertEqual((status, obj_mesh(out)[2], obj_mesh(out)[0][0]), (0, ["right"], (-4, 7, 9)))

    def test_an_object_without_a_name(self):
        status, out, told = self.convert(file("examples/squares.txt"), "--to=obj", "--factor=2", surface=SQUARES)
        self.assertEqual((status, obj_mesh(out)[2], told), (0, ["part_1"], ""))

    def test_troubles(self):
        place = "space: affine 1 0 0 5 0 1 0 6 0 0 1 7"
        rows = [
            (text_like(), ["--to=obj"], 1, "do not say where it lies: give --factor instead"),
            (text_like(place, names=["only"]), ["--to=obj"], 1, "has 1 objects, and the surface 2 parts"),
            (text_like("space: affine 1 2 3"), ["--to=obj"], 1, "must have twelve numbers"),
            (text_like("space: affine 1 0 0 0 0 0 0 0 0 0 1 0"), ["--to=obj"], 1, "maps the surface to a plane"),
            (text_like(place), ["--to=obj", "--world=RAS"], 1, "the axes are not known"),
            (text_like(place), ["--to=obj", "--world=RAS", "--factor=2"], 2, "--world needs --like, and no --factor"),
            (b"solid\n", ["--to=obj"], 1, "line 1"),
        ]
        for text, words, want, part in rows:
            with self.subTest(words=words, part=part):
                status, out, told = self.convert(text, *words)
                self.assertEqual((status, out), (want, b""))
                self.assertIn(part, told)
        status, _, told = tool("convert", ["--world=RAS", "--to=obj", "-", "-"], SQUARES)
        self.assertEqual(status, 2)
        self.assertIn("--world needs --like", told)


def chunks_of(data):
    """Gives the JSON text of a binary glTF file, read, and the bytes of its buffer."""
    magic, version, length, size = struct.unpack_from("<4sIII", data)
    if (magic, version, length) != (b"glTF", 2, len(data)) or data[16:20] != b"JSON":
        raise AssertionError(data[:20])
    rest = data[20 + size :]
    if struct.unpack_from("<I4s", rest) != (len(rest) - 8, b"BIN\0") or size % 4 or len(rest) % 4:
        raise AssertionError(rest[:8])
    return json.loads(data[20 : 20 + size]), rest[8:]


class Gltf(unittest.TestCase):
    """Binary glTF: a node for each part with its name and colour, the numbers as they are, and one node above all."""

    def numbers(self, words, data, at):
        """Gives the rows of three numbers of an accessor."""
        accessor = words["accessors"][at]
        view = words["bufferViews"][accessor["bufferView"]]
        kind = {5126: "f", 5125: "I"}[accessor["componentType"]]
        count = accessor["count"] * (3 if accessor["type"] == "VEC3" else 1)
        self.assertEqual(view["byteLength"], 4 * count)
        values = struct.unpack_from(f"<{count}{kind}", data, view["byteOffset"])
        return [values[k : k + 3] for k in range(0, count, 3)]

    def test_parts(self):
        with tempfile.NamedTemporaryFile(suffix=".txt") as like:
            place = ["space: affine 0.5 0 0 10 0 0.5 0 20 0 0 0.5 30", "space: length mm"]
            like.write(text_like("name: left l\u00e9ft one", *place))
            like.flush()
            status, data, told = tool("convert", ["--like", like.name, "--to=glb", "-", "-"], two_tetrahedra())
        self.assertEqual((status, told), (0, ""))
        words, buffer = chunks_of(data)
        self.assertEqual(words["asset"]["version"], "2.0")
        self.assertEqual(words["buffers"], [{"byteLength": len(buffer)}])
        root, *nodes = words["nodes"]
        self.assertEqual((root["children"], [it["name"] for it in nodes]), ([1, 2], ["l\u00e9ft one", "right"]))
        self.assertEqual((words["scenes"], root["scale"]), ([{"nodes": [0]}], [0.001] * 3))
        colours = [it["pbrMetallicRoughness"]["baseColorFactor"] for it in words["materials"]]
        self.assertNotEqual(*colours)
        for node, first in zip(nodes, [(10, 20, 30), (5.5, 20.5, 31)]):
            (one,) = words["meshes"][node["mesh"]]["primitives"]
            points = self.numbers(words, buffer, one["attributes"]["POSITION"])
            triangles = self.numbers(words, buffer, one["indices"])
            exact = [tuple(map(Fraction, it)) for it in points]
            self.assertEqual((points[0], volume(exact, triangles)), (first, Fraction(9, 2)))
            accessor = words["accessors"][one["attributes"]["POSITION"]]
            self.assertEqual(accessor["min"], [min(it) for it in zip(*points)])
            self.assertEqual(accessor["max"], [max(it) for it in zip(*points)])

    def test_z_is_up(self):
        words, _ = chunks_of(mesh_files.glb(byu.parse(SQUARES), Decimal(1)))
        self.assertNotIn("scale", words["nodes"][0])
        x, y, z, w = words["nodes"][0]["rotation"]
        up = (2 * (x * z + w * y), 2 * (y * z - w * x), 1 - 2 * (x * x + y * y))
        for found, wanted in zip(up, (0, 1, 0)):
            self.assertAlmostEqual(found, wanted)
