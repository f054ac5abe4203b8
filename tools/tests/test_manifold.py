"""Surfaces that are made manifolds by splitting vertices, and flat pieces that are left out."""
import collections
import random
import unittest
import unittest.mock
from fractions import Fraction

from fku import byu, manifold
from fku.trouble import Trouble
from tests.common import file, fku, tool, unpaired, volume

CUBE = [(0, 2, 1), (0, 3, 2), (4, 5, 6), (4, 6, 7), (0, 1, 5), (0, 5, 4), (1, 2, 6), (1, 6, 5), (2, 3, 7), (2, 7, 6),
        (3, 0, 4), (3, 4, 7)]  # fmt: skip
CORNERS = [(0, 0, 0), (1, 0, 0), (1, 1, 0), (0, 1, 0), (0, 0, 1), (1, 0, 1), (1, 1, 1), (0, 1, 1)]


def cubes(*shifts):
    """Gives cubes of side 2 at some places, whose corners at the same place are one point."""
    number, triangles = {}, []
    for shift in shifts:
        places = [tuple(2 * (a + b) for a, b in zip(corner, shift)) for corner in CORNERS]
        triangles += [tuple(number.setdefault(places[it], len(number)) for it in triangle) for triangle in CUBE]
    return byu.Mesh(list(number), [triangles])


def directed(mesh):
    """Gives how often each directed edge is in a triangle."""
    return collections.Counter((it[at - 1], it[at]) for it in mesh.triangles() for at in range(3))


def corners_of(mesh):
    """Gives the places of the corners of all triangles, each from its least one on, in order."""
    found = []
    for triangle in mesh.triangles():
        places = [mesh.points[it] for it in triangle]
        least = places.index(min(places))
        found.append(tuple(places[least:] + places[:least]))
    return sorted(found)


class Splitting(unittest.TestCase):
    """Each directed edge is in one triangle, as its reverse is, and triangles stay where they are."""

    def see(self, mesh, same_triangles=True):
        """Sees that a mesh is made a manifold of the same volume, and gives it with what was split and added."""
        made, split, added = manifold.split_vertices(mesh)
        edges = directed(made)
        self.assertEqual(set(edges.values()), {1})
        self.assertEqual(unpaired(made), [])
        self.assertEqual(len(made.points), len({at for it in mesh.triangles() for at in it}) + split + added)
        if same_triangles:
            self.assertEqual(corners_of(made), corners_of(mesh))
        six = [volume(it.points, it.triangles()) for it in (mesh, made)]
        self.assertEqual(Fraction(six[0]), Fraction(six[1]))
        return made, split, added

    def test_a_manifold_stays(self):
        mesh = cubes((0, 0, 0))
        made, split, added = self.see(mesh)
        self.assertEqual((made.points, made.parts, split, added), (mesh.points, mesh.parts, 0, 0))

    def test_two_cubes_at_an_edge(self):
        mesh = cubes((0, 0, 0), (1, 1, 0))
        self.assertEqual(max(directed(mesh).values()), 2)
        self.assertEqual(self.see(mesh)[1:], (2, 0))

    def test_two_cubes_at_a_corner(self):
        self.assertEqual(self.see(cubes((0, 0, 0), (1, 1, 1)))[1:], (1, 0))

    def test_cubes_of_a_chessboard(self):
        board = [(x, y, z) for x in range(3) for y in range(3) for z in range(3) if (x + y + z) % 2 == 0]
        made, split, added = self.see(cubes(*board))
        self.assertEqual(added, 0)
        self.assertGreater(split, 30)
        self.assertEqual(len(manifold.pieces(made.triangles())), len(board))

    def test_two_caps_on_one_another(self):
        points = [(0, 0, 0), (4, 0, 0), (4, 4, 0), (0, 4, 0)]
        mesh = byu.Mesh(points, [[(0, 1, 2), (0, 2, 3), (0, 2, 1), (0, 3, 2)]])
        made, split, added = self.see(mesh)
        self.assertEqual((split, added, len(manifold.pieces(made.triangles()))), (2, 0, 2))

    def chains(self):
        """Gives closed surfaces of tetrahedra between a few points, many of which share edges and triangles."""
        chance = random.Random(5)
        for _ in range(300):
            count = chance.randint(4, 9)
            points = [tuple(chance.randint(-9, 9) for _ in range(3)) for _ in range(count)]
            triangles = []
            for _ in range(chance.randint(1, 8)):
                a, b, c, d = chance.sample(range(count), 4)
                triangles += [(a, c, b), (a, b, d), (b, c, d), (c, a, d)]
            chance.shuffle(triangles)
            yield byu.Mesh(points, [triangles])

    def test_tetrahedra(self):
        for mesh in self.chains():
            self.assertEqual(self.see(mesh)[2], 0)

    def test_points_in_the_middle_of_edges(self):
        # Half-edges stay matched as they come, so fans hang together, and a point has to part one of two edges.
        with unittest.mock.patch.object(manifold, "MOST_ROUNDS", 0):
            points = [(0, 0, 0), (4, 0, 0), (4, 3, 0), (0, 3, 0)]
            caps = byu.Mesh(points, [[(0, 1, 2), (0, 2, 3), (0, 2, 1), (0, 3, 2)]])
            made, split, added = self.see(caps, same_triangles=False)
            self.assertEqual((split, added, made.points[-1], len(made.triangles())), (0, 1, (2, 1.5, 0), 6))
            self.assertGreater(sum(self.see(mesh, same_triangles=False)[2] for mesh in self.chains()), 100)

    def test_a_triangle_that_names_a_point_twice(self):
        mesh = cubes((0, 0, 0))
        more = byu.Mesh(mesh.points, [mesh.parts[0] + [(0, 0, 1), (1, 0, 0)]])
        self.assertEqual(manifold.split_vertices(more)[0].parts, mesh.parts)

    def test_parts_stay(self):
        one, other = cubes((0, 0, 0)), cubes((3, 0, 0), (4, 1, 0))
        raised = [tuple(it + len(one.points) for it in triangle) for triangle in other.triangles()]
        mesh = byu.Mesh(one.points + other.points, [one.triangles(), raised], ["left", "right"])
        made, split, _ = self.see(mesh)
        self.assertEqual((made.names, [len(it) for it in made.parts], split), (["left", "right"], [12, 24], 2))

    def test_a_surface_that_is_open(self):
        mesh = cubes((0, 0, 0))
        with self.assertRaisesRegex(Trouble, "not closed"):
            manifold.split_vertices(byu.Mesh(mesh.points, [mesh.parts[0][1:]]))

    def test_examples(self):
        for name, command in [("squares", "reconstruct"), ("labels", "reconstruct"), ("hill", "reconstruct"),
                              ("brain", "reconstruct"), ("thalami", "reconstruct"), ("hill", "ringcaps")]:  # fmt: skip
            with self.subTest(name=name, command=command):
                status, text = fku([command, "--workers=4"], file(f"examples/{name}.txt"))
                self.assertEqual(status, 0)
                self.assertEqual(self.see(byu.parse(text))[2], 0)


class Flat(unittest.TestCase):
    """Pieces in one plane go, and nothing else."""

    def test_flakes_go(self):
        cube = cubes((0, 0, 0))
        flake = [(0, 0, 9), (4, 0, 9), (4, 4, 9), (0, 4, 9)]
        two_caps = [(8, 9, 10), (8, 10, 11), (8, 10, 9), (8, 11, 10)]
        mesh = byu.Mesh(cube.points + flake, [two_caps, cube.triangles() + two_caps], ["flake", "cube"])
        left, pieces, triangles = manifold.without_flat(mesh)
        self.assertEqual((pieces, triangles, left.names), (2, 8, ["cube"]))
        self.assertEqual((left.points, left.parts), (cube.points, cube.parts))

    def test_a_plane_that_is_not_level(self):
        points = [(0, 0, 0), (4, 0, 4), (4, 4, 8), (0, 4, 4)]
        mesh = byu.Mesh(points, [[(0, 1, 2), (0, 2, 3), (0, 2, 1), (0, 3, 2)]])
        self.assertEqual(manifold.without_flat(mesh)[1:], (1, 4))
        points[3] = (0, 4, 5)
        self.assertEqual(manifold.without_flat(byu.Mesh(points, mesh.parts))[1:], (0, 0))

    def test_all_of_it(self):
        square = b"SECTIONS 1\nCOST span\nPAIR overlap\nSECTION 5\nCONTOUR a 4\n0 0\n9 0\n9 9\n0 9\nEND\n"
        status, surface = fku(["reconstruct"], square)
        self.assertEqual(status, 0)
        status, _, told = tool("convert", ["--drop-flat", "--to=ply", "-", "-"], surface)
        self.assertEqual(status, 1)
        self.assertIn("left out 1 flat pieces of 4 triangles", told)
        self.assertIn("nothing is left: all of it is flat", told)
