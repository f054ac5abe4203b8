"""VTK's own readers and nibabel take what `convert` writes, and find the same volume in it."""
import tempfile
import unittest
from decimal import Decimal

from fku import byu, mesh_files
from tests.common import TOP, file, tool, volume
from tests_with_packages.makers import needs


@needs("vtk")
class Readers(unittest.TestCase):
    """PLY, STL and OBJ of the caudate nucleus, in millimetres, and of two parts."""

    def read_back(self, reader, kind, mesh):
        """Gives what a reader makes of a mesh in a file of this kind."""
        with tempfile.NamedTemporaryFile(suffix=f".{kind}") as out:
            out.write(mesh_files.WRITERS[kind](mesh, Decimal("0.01")))
            out.flush()
            reader.SetFileName(out.name)
            reader.Update()
            return reader.GetOutput()

    def test_volumes(self):
        import vtk

        mesh = byu.parse(file("examples/caudate.byu"))
        known = float(volume(mesh.points, mesh.triangles())) / 10**6
        for reader, kind in [(vtk.vtkPLYReader(), "ply"), (vtk.vtkSTLReader(), "stl"), (vtk.vtkOBJReader(), "obj")]:
            found = self.read_back(reader, kind, mesh)
            self.assertEqual(found.GetNumberOfPolys(), 3820)
            self.assertEqual(found.GetNumberOfPoints(), 1912)
            mass = vtk.vtkMassProperties()
            mass.SetInputData(found)
            mass.Update()
            self.assertAlmostEqual(mass.GetVolume() / known, 1, places=4)

    def test_parts(self):
        import vtk

        points = [(0, 0, 0), (6, 0, 0), (0, 6, 0), (0, 0, 6)]
        triangles = [(0, 2, 1), (0, 1, 3), (1, 2, 3), (2, 0, 3)]
        raised = [tuple(place + 4 for place in triangle) for triangle in triangles]
        mesh = byu.Mesh(points + [(x + 9, y, z) for x, y, z in points], [triangles, raised])
        for reader, kind in [(vtk.vtkPLYReader(), "ply"), (vtk.vtkSTLReader(), "stl"), (vtk.vtkOBJReader(), "obj")]:
            found = self.read_back(reader, kind, mesh)
            self.assertEqual((found.GetNumberOfPolys(), found.GetNumberOfPoints()), (8, 8))
            mass = vtk.vtkMassProperties()
            mass.SetInputData(found)
            mass.Update()
            self.assertAlmostEqual(mass.GetVolume() * 10**6, 72, places=3)

    def test_gltf(self):
        import vtk

        mesh = byu.parse(file("examples/caudate.byu"))
        with tempfile.NamedTemporaryFile(suffix=".glb") as out:
            out.write(mesh_files.glb(mesh, Decimal("0.01"), "mm"))
            out.flush()
            reader = vtk.vtkGLTFReader()
            reader.SetFileName(out.name)
            reader.Update()
            found = reader.GetOutput()
        self.assertEqual(found.GetNumberOfPoints(), 1912)
        boxes = [0.0] * 6
        found.GetBounds(boxes)
        xs, ys, zs = ([it / 10**5 for it in axis] for axis in zip(*mesh.points))
        wanted = [min(xs), max(xs), min(zs), max(zs), -max(ys), -min(ys)]
        for one, other in zip(boxes, wanted):
            self.assertAlmostEqual(one, other, places=6)


@needs("numpy", "nibabel")
class Gifti(unittest.TestCase):
    """GIFTI, read back by nibabel."""

    def test_points_and_triangles(self):
        import nibabel

        mesh = byu.parse(file("examples/caudate.byu"))
        affine = "0.01 0 0 90 0 0.01 0 125 0 0 0.01 -71"
        with tempfile.TemporaryDirectory() as folder:
            for comments, code, sign in [
                (["space: world LPS", "space: length mm"], "NIFTI_XFORM_SCANNER_ANAT", -1),
                (["space: world RAS"], "NIFTI_XFORM_SCANNER_ANAT", 1), ([], "NIFTI_XFORM_UNKNOWN", 1),
            ]:  # fmt: skip
                notes = "".join(f"# {it}\n" for it in [f"space: affine {affine}", *comments]).encode()
                with open(f"{folder}/a.txt", "wb") as like:
                    like.write(notes + file("examples/caudate.txt"))
                words = ["--like", f"{folder}/a.txt", f"{TOP}/examples/caudate.byu", f"{folder}/a.gii"]
                status, _, told = tool("convert", words)
                self.assertEqual((status, told), (0, ""))
                image = nibabel.load(f"{folder}/a.gii")
                points, triangles = image.agg_data(("pointset", "triangle"))
                self.assertEqual(triangles.tolist(), [list(it) for it in mesh.triangles()])
                first = [sign * (0.01 * mesh.points[0][0] + 90), sign * (0.01 * mesh.points[0][1] + 125)]
                self.assertAlmostEqual(abs(points[0][:2] - first).max(), 0, places=4)
                (where,) = [it.coordsys for it in image.darrays if it.intent == 1008]
                self.assertEqual(nibabel.nifti1.xform_codes.niistring[where.dataspace], code)
