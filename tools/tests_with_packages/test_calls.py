"""The calls of the package: surfaces, tilings, slices and certificates from arrays, and what they raise."""
import math
import unittest

import fku
from fku import byu, exact_volume, names, section_text, space
from fku.faults import FkuError
from tests.common import TOP, file, fku as run, unpaired, volume
from tests_with_packages.makers import needs

try:
    import numpy
except ImportError:
    numpy = None

SQUARE = [(0, 0), (10, 0), (10, 10), (0, 10)]


def square(x, y, size):
    """Gives a square as an array."""
    return numpy.array([(x, y), (x + size, y), (x + size, y + size), (x, y + size)], dtype=float)


def circle(radius, x, y, count=40):
    """Gives a polygon with its corners on a circle."""
    turns = numpy.arange(count) * (2 * math.pi / count)
    return numpy.stack([x + radius * numpy.cos(turns), y + radius * numpy.sin(turns)], axis=1)


def signed_volume(vertices, faces):
    """Gives the volume inside a closed mesh."""
    a, b, c = (vertices[faces[:, corner]] - vertices.mean(axis=0) for corner in range(3))
    return float((a * numpy.cross(b, c)).sum() / 6)


def is_closed(mesh):
    """Whether each edge has as many triangles in one direction as in the other, in each part."""
    points = mesh.vertices.tolist()
    return all(unpaired(byu.Mesh(points, [list(map(tuple, it.faces.tolist()))])) == [] for it in mesh.parts)


def example(name):
    """Gives the objects of an example as the calls take them, with names of contours, and its cost."""
    text = file(f"examples/{name}.txt")
    objects = {it.name: {section.height: dict(section.contours) for section in it.sections}
               for it in section_text.read(text, name)}  # fmt: skip
    cost = next(line.split()[1].decode() for line in text.split(b"\n") if line.startswith(b"COST"))
    return objects if len(objects) > 1 else objects[""], cost


@needs("numpy")
class Surfaces(unittest.TestCase):
    """What `reconstruct` gives."""

    def see_mesh(self, mesh):
        """Sees the types and shapes of a mesh, and that it is closed and its volumes are right."""
        self.assertEqual((mesh.vertices.dtype, mesh.vertices.ndim, mesh.vertices.shape[1]), (numpy.float64, 2, 3))
        self.assertEqual((mesh.faces.dtype, mesh.faces.ndim, mesh.faces.shape[1]), (numpy.int64, 2, 3))
        self.assertTrue(mesh.vertices.flags.c_contiguous and mesh.faces.flags.c_contiguous)
        self.assertTrue(is_closed(mesh))
        self.assertAlmostEqual(mesh.volume / signed_volume(mesh.vertices, mesh.faces), 1, 9)
        self.assertTrue((numpy.concatenate([it.faces for it in mesh.parts]) == mesh.faces).all())
        for it in mesh.parts:
            self.assertAlmostEqual(it.volume / signed_volume(mesh.vertices, it.faces), 1, 9)

    def test_the_squares(self):
        mesh = fku.reconstruct({10: [SQUARE], 0: [SQUARE]}, unit=1, cost="span", workers=1)
        plain = byu.parse(file("examples/squares.byu"))
        self.assertEqual(list(map(tuple, mesh.vertices.tolist())), plain.points)
        self.assertEqual(list(map(tuple, mesh.faces.tolist())), plain.triangles())
        self.assertEqual((mesh.volume, mesh.names, mesh.lone), (1000, [""], []))
        self.assertEqual(mesh.rings, {("", 0, 0): range(0, 4), ("", 10, 0): range(4, 8)})
        self.see_mesh(mesh)

    def test_examples(self):
        for name in ["caudate", "thalami", "labels"]:
            outlines, cost = example(name)
            for ring_caps in (False, True):
                mesh = fku.reconstruct(outlines, unit=1, cost=cost, ring_caps=ring_caps)
                plain = byu.parse(run(["ringcaps" if ring_caps else "reconstruct"], file(f"examples/{name}.txt"))[1])
                self.assertEqual(list(map(tuple, mesh.vertices.tolist())), plain.points)
                self.assertEqual([it.faces.tolist() for it in mesh.parts], [list(map(list, it)) for it in plain.parts])
                self.see_mesh(mesh)

    def test_decimals_come_back(self):
        ring = numpy.array([(0.57, 0.29), (12.34, 0.07), (11.11, 8.05), (1.1, 9.99)])
        mesh = fku.reconstruct({0.3: [ring], 0.7: [ring + 0.01]}, unit=0.01)
        self.assertEqual(mesh.vertices[:4].tolist(), [[*it, 0.3] for it in ring.tolist()])
        self.assertEqual(mesh.vertices[4:, 2].tolist(), [0.7] * 4)
        self.see_mesh(mesh)

    def test_rounding(self):
        ring = circle(5, 1 / 3, 2 / 3)
        mesh = fku.reconstruct({0: [ring], 1: [ring]}, unit=0.3)
        self.assertLessEqual(abs(mesh.vertices[mesh.rings["", 0, 0], :2] - ring).max(), 0.15 + 1e-9)

    def test_closing_points_and_repeats(self):
        closed = [*SQUARE, SQUARE[0]]
        often = [SQUARE[0], *SQUARE, (0, 10.001), SQUARE[0], SQUARE[0]]
        mesh = fku.reconstruct({0: [closed], 10: [often]}, unit=0.01)
        self.assertEqual((mesh.vertices.shape, mesh.volume), ((8, 3), 1000))

    def test_far_away(self):
        # A place in a country's grid, in metres: far outside of the program's range at this unit.
        near = fku.reconstruct({0: [circle(30, 0, 0)], 12.5: [circle(20, 5, 5)]})
        far = fku.reconstruct({812.5: [circle(30, 691607.85, 5334760.38)], 825: [circle(20, 691612.85, 5334765.38)]})
        self.assertTrue(numpy.allclose(far.vertices - near.vertices, (691607.85, 5334760.38, 812.5), atol=0.011))
        self.assertAlmostEqual(far.volume / near.volume, 1, 3)
        self.see_mesh(far)

    def test_objects(self):
        names = ["left hippocampus, traced by hand", "left hippocampus, traced again", "\u00e9toile"]
        outlines = {name: {0: [square(at, at, 4)], 2.5: [square(at, at, 4)]} for at, name in enumerate(names)}
        mesh = fku.reconstruct(outlines)
        self.assertEqual(mesh.names, names)
        self.assertEqual(mesh.volumes.tolist(), [40, 40, 40])
        self.assertEqual([it.vertices for it in mesh.parts], [range(0, 8), range(8, 16), range(16, 24)])
        self.see_mesh(mesh)
        alone = mesh.part(names[1])
        self.assertEqual((alone.vertices.tolist(), alone.names), (mesh.vertices[8:16].tolist(), [names[1]]))
        self.assertEqual(alone.rings, {(names[1], 0, 0): range(0, 4), (names[1], 2.5, 0): range(4, 8)})
        self.see_mesh(alone)
        self.assertEqual(mesh.part(1).faces.tolist(), alone.faces.tolist())
        with self.assertRaises(KeyError):
            mesh.part("right")

    def test_rings_by_name(self):
        mesh = fku.reconstruct({0: {"the outer one": square(0, 0, 9), "hole": square(3, 3, 3)}, 1: [square(0, 0, 9)]})
        self.assertEqual(list(mesh.rings), [("", 0, "the outer one"), ("", 0, "hole"), ("", 1, 0)])
        self.assertEqual(mesh.lone, [("", 0, "hole")])

    def test_links(self):
        slices = {0: [square(0, 0, 4), square(10, 0, 4)], 1: [square(0, 0, 4), square(10, 0, 4)]}
        mesh = fku.reconstruct(slices, links=[((0, 0), (1, 0)), (("", 1, 1), ("", 0, 1))])
        self.assertEqual((mesh.lone, mesh.volume), ([], 32))
        mesh = fku.reconstruct(slices, links=[((0, 0), (1, 0))])
        self.assertEqual((mesh.lone, mesh.volume), ([("", 0, 1), ("", 1, 1)], 16))
        self.assertEqual(len(fku.reconstruct(slices, links=[]).lone), 4)

    def test_costs(self):
        slices = {0: [circle(5, 0, 0, 17)], 3: [circle(4, 1, 2, 23)]}
        words = ["area", "span", ("mix", 2, 1), "mix 2 1"]
        faces = [fku.reconstruct(slices, cost=it).faces.tolist() for it in words]
        self.assertEqual(faces[2], faces[3])
        self.assertEqual(fku.report(slices, cost="span").cost, fku.report(slices, cost=("mix", 1, 0)).cost)

    def test_volumes_are_exact(self):
        places = numpy.random.default_rng(7).integers(-999999, 1000000, (200000, 3))
        corners = numpy.array([(x, y, z) for x in (-1, 1) for y in (-1, 1) for z in (-1, 1)]) * 999999
        points = numpy.concatenate([corners, places])
        faces = numpy.arange(len(points) // 3 * 3).reshape(-1, 3)
        closed = numpy.concatenate([faces, faces[:, ::-1], faces[:1000], [[0, 3, 7], [0, 7, 3]]])
        moved = list(map(tuple, (points - points.min(axis=0)).tolist()))
        self.assertEqual(exact_volume.six_volume(points, closed), 6 * volume(moved, closed.tolist()))

    def test_many_units(self):
        slices = {0: [circle(5, 0, 0)], 3: [circle(4, 1, 2)]}
        volumes = [fku.reconstruct(slices, unit=it).volume for it in (0.001, 0.01, 1 / 128, 0.03)]
        for it in volumes:
            self.assertAlmostEqual(it / volumes[0], 1, 2)


@needs("numpy")
class Lone(unittest.TestCase):
    """Rings that are joined to nothing."""

    def slices(self):
        """Gives a tower with a speck on two of its slices."""
        return {0: [square(0, 0, 9), square(20, 0, 1)], 1: [square(0, 0, 9)], 2: [square(40, 0, 1), square(0, 0, 9)]}

    def test_kept_and_dropped(self):
        kept, dropped = (fku.reconstruct(self.slices(), lone=it) for it in ("keep", "drop"))
        self.assertEqual(kept.lone, [("", 0, 1), ("", 2, 0)])
        self.assertEqual(dropped.lone, kept.lone)
        self.assertEqual(dropped.volume, kept.volume)
        self.assertEqual((len(kept.vertices), len(dropped.vertices)), (20, 12))
        self.assertEqual(dropped.rings, {("", 0, 0): range(0, 4), ("", 1, 0): range(4, 8), ("", 2, 1): range(8, 12)})
        self.assertTrue(is_closed(dropped))

    def test_a_hole_round_an_island_stays(self):
        below = [square(0, 0, 90), square(20, 20, 50), square(40, 40, 10), square(200, 0, 9)]
        mesh = fku.reconstruct({0: below, 1: [square(0, 0, 90)]}, lone="drop")
        self.assertEqual(mesh.lone, [("", 0, 1), ("", 0, 3)])
        self.assertEqual(list(mesh.rings), [("", 0, 0), ("", 0, 1), ("", 0, 2), ("", 1, 0)])

    def test_an_object_without_any_other(self):
        outlines = {"tower": self.slices(), "plate": {0: [square(0, 50, 5)]}}
        mesh = fku.reconstruct(outlines, lone="drop")
        self.assertEqual((mesh.names, mesh.lone[-1]), (["tower"], ("plate", 0, 0)))
        with self.assertRaises(FkuError) as caught:
            fku.reconstruct({0: [square(0, 0, 5)]}, lone="drop")
        self.assertEqual(caught.exception.kind, "NO CONTOURS")


@needs("numpy")
class OtherCalls(unittest.TestCase):
    """Reports, tilings, slices, certificates, and sections between others."""

    def setUp(self):
        self.branch = {"a": {0: [square(0, 0, 9)], 2.5: [square(0, 0, 4), square(5, 0, 4)]},
                       "b": {1: [square(0, 0, 9)], 3: [square(1, 1, 9)]}}  # fmt: skip

    def test_report(self):
        report = fku.report(self.branch)
        self.assertEqual(report[:6], (4, 5, 20, 32, 0, 2))
        self.assertAlmostEqual(report.volume, fku.reconstruct(self.branch).volume)
        outlines, cost = example("caudate")
        told = [int(line.split()[1]) for line in run(["report"], file("examples/caudate.txt"))[1].splitlines()]
        report = fku.report(outlines, unit=1, cost=cost)
        self.assertEqual(list(report[:7]), told[:7])
        self.assertEqual(report.volume, told[7] / 6)

    def test_tilings(self):
        first, second = fku.tilings(self.branch)
        self.assertEqual((first.pair, first.object, first.below), (1, "a", [("a", 0, 0)]))
        self.assertEqual((first.above, first.rows, first.columns), ([("a", 2.5, 0), ("a", 2.5, 1)], 4, 10))
        self.assertEqual(sorted(first.word), ["H"] * 10 + ["V"] * 4)
        self.assertEqual((second.pair, second.object, second.above), (2, "b", [("b", 3, 0)]))
        self.assertEqual(first.cost + second.cost, fku.report(self.branch).cost)

    def test_slice(self):
        loops = fku.slice(self.branch, 2)
        self.assertEqual([(it.object, it.z) for it in loops], [("a", 2), ("b", 2)])
        self.assertEqual(loops[0].points.dtype, numpy.float64)
        (loop,) = fku.slice({0: [SQUARE], 10: [SQUARE]}, 5, unit=1, cost="span")
        corners = [[0, 0], [5, 0], [10, 0], [10, 5], [10, 10], [5, 10], [0, 10], [0, 5]]
        self.assertEqual(loop.points.tolist(), corners)
        moved = {500.5: [numpy.add(SQUARE, (70000, 0.25))], 510.5: [numpy.add(SQUARE, (70000, 0.25))]}
        (loop,) = fku.slice(moved, 505.504, unit=0.01, cost="span")
        self.assertEqual(loop.z, 505.5)
        self.assertTrue(numpy.allclose(loop.points, numpy.add(corners, (70000, 0.25)), atol=1e-9))
        for z, kind in [(0, "HEIGHT ON SECTION"), (11, "HEIGHT OUTSIDE"), (1e5, "HEIGHT OUTSIDE")]:
            with self.assertRaises(FkuError) as caught:
                fku.slice({0: [SQUARE], 10: [SQUARE]}, z)
            self.assertEqual((caught.exception.kind, caught.exception.z), (kind, z))

    def test_certificates(self):
        pairs = fku.tilings(self.branch)
        for it in pairs:
            certificate = fku.certify(self.branch, it.pair)
            self.assertEqual((certificate.cost, certificate.word, certificate.start), (it.cost, it.word, it.start))
            self.assertEqual(certificate.potential.shape, (2 * it.rows, it.columns + 1))
            verdict = fku.check(self.branch, certificate)
            self.assertTrue(verdict)
            self.assertEqual(verdict.line, f"ACCEPT PAIR {it.pair} COST {it.cost}")
        wrong = certificate.text.replace(b"COST %d" % it.cost, b"COST %d" % (it.cost + 1))
        self.assertEqual(fku.check(self.branch, wrong), (False, "REJECT COST"))
        for call, word, kind in [(fku.certify, 3, "NO PAIR"), (fku.check, b"", "CERT FORM")]:
            with self.assertRaises(FkuError) as caught:
                call(self.branch, word)
            self.assertEqual(caught.exception.kind, kind)

    def test_large_potentials(self):
        wide = {0: [circle(9000, 0, 0, 300)], 9000: [circle(4000, 3000, 0, 200)]}
        certificate = fku.certify(wide)
        self.assertEqual(certificate.potential.dtype, object)
        rows = [[int(it) for it in line.split()] for line in certificate.text.decode().split("\n")[2:602]]
        self.assertEqual(certificate.potential.tolist(), rows)
        self.assertTrue(fku.check(wide, certificate))

    def test_text(self):
        outlines = {"the left one": {812.5: [square(691607.25, 5334760.5, 4)], 814: [square(691608, 5334761, 4)]}}
        text = fku.to_text(outlines, unit=0.25, cost=("mix", 2, 1))
        self.assertEqual(run(["report"], text)[0], 0)
        place = space.read(text)
        (it,) = section_text.read(text, "it")
        self.assertEqual((it.name, names.read(text)), ("the_left_one", {"the_left_one": "the left one"}))
        corners = [place.place((x, y, section.height)) for section in it.sections for x, y in section.contours[0][1]]
        self.assertEqual(corners, list(map(tuple, fku.reconstruct(outlines, unit=0.25).vertices.tolist())))

    def test_densify(self):
        for name, key in [("", (0.0, 0)), ("the object", ("the object", 0.0, 0))]:
            slices = {0.0: [square(1e5, 0, 9)], 4.0: {"upper": square(1e5, 0, 5)}}
            dense = fku.densify({name: slices} if name else slices)
            found = dense.outlines[name] if name else dense.outlines
            self.assertEqual(list(found), [0.0, 2.0, 4.0])
            self.assertEqual((found[0.0][0].tolist(), list(found[4.0])), (square(1e5, 0, 9).tolist(), ["upper"]))
            self.assertEqual(dense.added, [(name, 2.0, 0)])
            mesh = fku.reconstruct(dense.outlines, links=dense.links)
            self.assertEqual((mesh.lone, len(dense.links)), ([], 2))
            self.assertAlmostEqual(mesh.volume, fku.reconstruct(slices).volume, 0)


@needs("numpy")
class Cleaning(unittest.TestCase):
    """Rings from elsewhere, cleaned, and given to the other calls."""

    def test_rings_that_need_nothing_else(self):
        outlines = {1.5: [[*SQUARE, SQUARE[0]], [(20, 0), (20.001, 0), (20, 0.001)]], 3: [SQUARE]}
        cleaned = fku.clean(outlines)
        self.assertEqual([it.kind for it in cleaned.notes], ["closing", "closing", "repeats", "lost"])
        self.assertEqual(cleaned.notes[3].key, ("", 1.5, 1))
        self.assertIn("ring 1 of the slice at z = 1.5: left out", str(cleaned.notes[3]))
        self.assertEqual([it.tolist() for it in cleaned.outlines[1.5]], [[list(map(float, it)) for it in SQUARE]])
        self.assertEqual(fku.reconstruct(cleaned.outlines).volume, 150)

    @needs("shapely")
    def test_a_bow_tie(self):
        bow = numpy.array([(0, 0), (10, 10), (10, 0), (0, 10)]) + (70000.25, 0)
        outlines = {"a": {0: {"bow": bow}, 1: [bow]}, "specks": {0: [square(0, 0, 0.5)]}}
        with self.assertRaises(FkuError):
            fku.reconstruct(outlines)
        cleaned = fku.clean(outlines, smallest=1)
        self.assertEqual(list(cleaned.outlines), ["a"])
        self.assertEqual({(it.key, it.kind) for it in cleaned.notes}, {
            (("a", 0, "bow"), "crossing"), (("a", 1, 0), "crossing"), (("specks", 0, 0), "small"),
            (("a", 0, "bow"), "cut"), (("a", 1, 0), "cut"),
        })  # fmt: skip
        mesh = fku.reconstruct(cleaned.outlines)
        self.assertEqual(len(mesh.rings), 4)
        self.assertAlmostEqual(mesh.volume, 50, 0)

    def test_what_is_no_outline(self):
        for outlines in ({0: SQUARE}, {"a": {"b": [SQUARE]}}, [SQUARE], {0: [[(0, 0), (1, math.nan), (0, 1)]]}):
            with self.assertRaises(FkuError):
                fku.clean(outlines)


@needs("numpy")
class Reading(unittest.TestCase):
    """Outlines that other programs wrote."""

    def volumes(self, name, **options):
        """Gives the volumes of the two objects of the vessel in a file."""
        source = fku.read_outlines(f"{TOP}/examples/traced/{name}", **options)
        mesh = fku.reconstruct(fku.clean(source.outlines).outlines)
        self.assertEqual(sorted(mesh.names), ["stone", "vessel wall"])
        self.assertTrue(is_closed(mesh))
        return [mesh.part(it).volume for it in ("stone", "vessel wall")]

    def test_a_vessel_from_three_programs(self):
        table, model = self.volumes("vessel.csv"), self.volumes("vessel.mod")
        regions = self.volumes("vessel.zip", pixel=0.5, spacing=2)
        for it in (model, regions):
            for volume_of, known in zip(it, table):
                self.assertAlmostEqual(volume_of / known, 1, 1)

    @needs("pydicom", "shapely")
    def test_keyholes(self):
        for volume_of, known in zip(self.volumes("vessel.dcm"), self.volumes("vessel.csv")):
            self.assertAlmostEqual(volume_of / known, 1, 1)

    def test_what_is_said(self):
        source = fku.read_outlines(f"{TOP}/examples/traced/vessel.csv", objects="st*")
        self.assertEqual((list(source.outlines), source.length, source.notes), (["stone"], "mm", []))
        self.assertEqual(list(source.outlines["stone"]), [8, 10, 12])
        self.assertEqual(source.outlines["stone"][8][0].shape, (24, 2))
        for name, more, part in [
            ("vessel.zip", {}, "give `pixel=` and `spacing=`"), ("vessel.csv", {"kind": "excel"}, "table"),
            ("none.csv", {}, "none.csv"), ("vessel.csv", {"objects": ["liver"]}, "no object is named liver"),
            ("vessel.mod", {"down": True}, "`down=`"),
        ]:  # fmt: skip
            with self.subTest(name=name, more=more), self.assertRaises(FkuError) as caught:
                fku.read_outlines(f"{TOP}/examples/traced/{name}", **more)
            self.assertIn(part, str(caught.exception))


@needs("numpy")
class Errors(unittest.TestCase):
    """What FkuError says."""

    def caught(self, *words, **more):
        """Gives the error of `reconstruct`."""
        with self.assertRaises(FkuError) as caught:
            fku.reconstruct(*words, **more)
        return caught.exception

    def test_a_ring_that_crosses_itself(self):
        bow = [(0, 0), (10, 10), (10, 0), (0, 8)]
        wrong = {0: [SQUARE], 2.5: [square(50, 0, 1), bow]}
        it = self.caught({"left": {0: [SQUARE], 2.5: [SQUARE]}, "right one": wrong})
        self.assertEqual((it.kind, it.number, it.refusal[:23]), ("SELF CROSSING", 8, "REFUSED 8 SELF CROSSING"))
        self.assertEqual((it.object, it.z, it.key, it.keys), ("right one", 2.5, ("right one", 2.5, 1), (it.key,)))
        self.assertEqual(it.edges, ([(0, 0), (10, 10)], [(10, 0), (0, 8)]))
        self.assertIn("move its points apart", it.hint)
        self.assertIn("ring 1 of the slice at z = 2.5 of 'right one'", str(it))
        self.assertIn("from (0, 0) to (10, 10) meets that from (10, 0) to (0, 8)", str(it))

    def test_rings_that_cross(self):
        it = self.caught({0.5: {"one": square(1e5, 0, 9), "other": square(1e5 + 5, 5, 9)}})
        self.assertEqual((it.kind, it.z, it.keys), ("CROSSING", 0.5, (("", 0.5, "one"), ("", 0.5, "other"))))
        self.assertEqual(it.edges[0], [(1e5 + 9, 0), (1e5 + 9, 9)])
        self.assertEqual(it.edges[1], [(1e5 + 5, 5), (1e5 + 14, 5)])

    def test_links(self):
        slices = {0: [SQUARE], 1: [SQUARE], 2: [SQUARE]}
        it = self.caught(slices, links=[((0, 0), (2, 0))])
        self.assertEqual((it.kind, it.keys), ("LINK", (("", 0, 0), ("", 2, 0))))
        self.assertIn("next above", it.hint)
        for links in ([((0, 0), (3, 0))], [(0, 0)], [((0, 0), (1, 7))], [((0, 0),)], [5]):
            self.assertEqual(self.caught(slices, links=links).kind, "INPUT")

    def test_limits(self):
        many = circle(5000, 0, 0, section_text.MOST_CONTOUR_VERTICES + 1)
        it = self.caught({"a": {0: [SQUARE]}, "b": {1: [many]}})
        self.assertEqual((it.kind, it.object, it.key), ("LIMIT", "b", ("b", 1, 0)))
        self.assertIn("thin the outline", it.hint)
        self.assertIn(f"more contour vertices than the limit of {len(many) - 1}", str(it))
        count = section_text.MOST_OBJECTS + 1
        it = self.caught({f"object {at}": {0: [SQUARE]} for at in range(count)})
        self.assertEqual((it.kind, it.object), ("LIMIT", f"object {count - 1}"))

    def test_composites(self):
        size = section_text.MOST_CONTOUR_VERTICES // 2 + 20
        below = [circle(500, x, 0, size) for x in (0, 1100)]
        plain = {0: [SQUARE], 1: [SQUARE]}
        it = self.caught({"a": plain, "b": {3: below, 7: [square(-600, -600, 2400)]}})
        self.assertEqual((it.kind, it.object, it.z), ("COMPOSITE LIMIT", "b", 3))

    def test_what_is_no_outline(self):
        rows = [
            ([SQUARE], "INPUT"),
            ({}, "NO CONTOURS"),
            ({0: []}, "NO CONTOURS"),
            ({"a": {0: [SQUARE]}, "b": {0: []}}, "NO CONTOURS"),
            ({"a": [SQUARE]}, "INPUT"),
            ({"": {0: [SQUARE]}, "b": {0: [SQUARE]}}, "INPUT"),
            ({"a": {0: [SQUARE]}, 1: [SQUARE]}, "INPUT"),
            ({0: SQUARE}, "INPUT"),
            ({0: 5}, "INPUT"),
            ({0: [[(0, 0, 0), (1, 0, 0), (0, 1, 0)]]}, "INPUT"),
            ({0: [[(0, 0), (1,), (0, 1)]]}, "INPUT"),
            ({0: ["ring"]}, "INPUT"),
            ({0: [[(0, 0), (1, math.nan), (0, 1)]]}, "INPUT"),
            ({math.inf: [SQUARE]}, "INPUT"),
            ({0: [SQUARE], 0.001: [SQUARE]}, "HEIGHT"),
            ({0: [[(0, 0), (1, 0), (0.001, 0)]]}, "TOO FEW"),
            ({0: [SQUARE], 1e5: [SQUARE]}, "RANGE"),
            ({0: [numpy.multiply(SQUARE, 1e30)]}, "RANGE"),
        ]
        for outlines, kind in rows:
            with self.subTest(outlines=str(outlines)[:60]):
                self.assertEqual(self.caught(outlines).kind, kind)
        self.assertIn("{z: [ring]}", self.caught({0: SQUARE}).hint)
        self.assertIn("a unit of 0.1 or more", self.caught({0: [SQUARE], 1e5: [SQUARE]}).hint)
        fku.reconstruct({0: [SQUARE], 1e5: [SQUARE]}, unit=0.1)

    def test_words(self):
        for more in ({"unit": 0}, {"unit": "mm"}, {"unit": -1}, {"cost": "volume"}, {"cost": ("mix", 2000, 1)},
                     {"cost": 3}, {"cost": "span\nPAIR links"}, {"lone": "maybe"}, {"workers": 0},
                     {"workers": 65}):  # fmt: skip
            with self.subTest(more=more):
                it = self.caught({0: [SQUARE]}, **more)
                self.assertIn(it.kind, ("INPUT", "FORM", "RANGE"))
        self.assertIn('"area"', self.caught({0: [SQUARE]}, cost="volume").hint)

    def test_middle_sections(self):
        with self.assertRaises(FkuError) as caught:
            fku.densify({"a": {0: [SQUARE], 2: [SQUARE]}, "b": {0: [SQUARE]}})
        self.assertEqual(caught.exception.kind, "ONE OBJECT")
