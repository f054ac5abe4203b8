"""Libraries for meshes take vertices and faces as the package gives them, and the package installs with its program."""
import importlib.util
import os
import shutil
import subprocess
import sys
import tempfile
import unittest
import zipfile

import fku
from tests.common import PROGRAM, TOP
from tests_with_packages.makers import needs

SQUARE = [(0, 0), (10, 0), (10, 10), (0, 10)]
BUILDERS = ("numpy", "pip", "setuptools", "wheel")


def tower():
    """Gives the mesh of a box at a place of its own, 3.5 high."""
    return fku.reconstruct({1.5: [[(x + 0.25, y) for x, y in SQUARE]], 5: [[(x + 0.25, y) for x, y in SQUARE]]})


@needs("numpy")
class Libraries(unittest.TestCase):
    """Each finds the volume, or all vertices and faces again."""

    @needs("vtk")
    def test_vtk(self):
        import numpy
        import vtk
        from vtk.util.numpy_support import numpy_to_vtk, numpy_to_vtkIdTypeArray

        mesh = tower()
        points, cells, data = vtk.vtkPoints(), vtk.vtkCellArray(), vtk.vtkPolyData()
        points.SetData(numpy_to_vtk(mesh.vertices, deep=True))
        sizes = numpy.full((len(mesh.faces), 1), 3)
        cells.SetCells(len(mesh.faces), numpy_to_vtkIdTypeArray(numpy.hstack([sizes, mesh.faces]).ravel(), deep=True))
        data.SetPoints(points)
        data.SetPolys(cells)
        measure = vtk.vtkMassProperties()
        measure.SetInputData(data)
        self.assertAlmostEqual(measure.GetVolume(), 350)
        self.assertEqual(data.GetBounds(), (0.25, 10.25, 0, 10, 1.5, 5))

    @needs("meshio")
    def test_meshio(self):
        import meshio

        mesh = tower()
        with tempfile.TemporaryDirectory() as folder:
            for kind in ("ply", "vtk", "stl", "obj"):
                meshio.Mesh(mesh.vertices, [("triangle", mesh.faces)]).write(f"{folder}/tower.{kind}")
                again = meshio.read(f"{folder}/tower.{kind}")
                self.assertEqual(len(again.cells_dict["triangle"]), len(mesh.faces))
                self.assertEqual(again.points.min(axis=0).tolist(), [0.25, 0, 1.5])

    @needs("trimesh")
    def test_trimesh(self):
        import trimesh

        mesh = tower()
        again = trimesh.Trimesh(mesh.vertices, mesh.faces)
        self.assertTrue(again.is_watertight)
        self.assertAlmostEqual(again.volume, mesh.volume)


@needs(*BUILDERS)
class Installed(unittest.TestCase):
    """`pip` makes a package of the checkout that needs nothing of it."""

    def test_wheel(self):
        with tempfile.TemporaryDirectory() as folder:
            source = f"{folder}/source"
            shutil.copytree(f"{TOP}/tools/fku", f"{source}/tools/fku", ignore=shutil.ignore_patterns("__pycache__"))
            for name in ("pyproject.toml", "setup.py", "docs/python.md"):
                os.makedirs(os.path.dirname(f"{source}/{name}"), exist_ok=True)
                shutil.copy(f"{TOP}/{name}", f"{source}/{name}")
            os.makedirs(f"{source}/release")
            shutil.copy(PROGRAM, f"{source}/release/fku-linux-x86-64")
            alone = ["--no-index", "--no-deps", "--no-build-isolation"]
            words = [sys.executable, "-m", "pip", "wheel", *alone, "--wheel-dir", folder, source]
            subprocess.run(words, check=True, capture_output=True)
            (wheel,) = (it for it in os.listdir(folder) if it.endswith(".whl"))
            self.assertTrue(wheel.endswith("-py3-none-linux_x86_64.whl"), wheel)
            self.see_installed(f"{folder}/{wheel}", f"{folder}/installed")

    def see_installed(self, wheel, target):
        """Sees that the package has its modules and its program, and runs alone."""
        with zipfile.ZipFile(wheel) as opened:
            opened.extractall(target)
            for it in opened.infolist():
                os.chmod(f"{target}/{it.filename}", it.external_attr >> 16 & 0o777)
        code = f"import fku; print(fku.reconstruct({{0: [{SQUARE}], 10: [{SQUARE}]}}).volume, fku.__file__)"
        where = {"PYTHONPATH": target, "PATH": "/nowhere"}
        ran = subprocess.run([sys.executable, "-c", code], cwd=target, env=where, capture_output=True, check=False)
        self.assertEqual(ran.stdout.decode(), f"1000.0 {target}/fku/__init__.py\n", ran.stderr)
        for name in ("api", "faults", "lone"):
            self.assertIsNotNone(importlib.util.find_spec(f"fku.{name}"))
