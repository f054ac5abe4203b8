"""The kinds of files that volumes are read from, and files that are cut or of another kind."""
import tempfile
import unittest

from fku import volumes
from fku.trouble import Trouble
from tests.common import fku, tool
from tests_with_packages.makers import needs, write_meta, write_nrrd

try:
    import numpy
except ImportError:
    numpy = None

SPACING = (0.5, 0.75, 2)


def corner():
    """Gives 3 slices of 4 by 5 places, each with its own value."""
    return numpy.arange(60, dtype="<i2").reshape(3, 4, 5)


class Folder(unittest.TestCase):
    """A folder for the files of a test."""

    def setUp(self):
        folder = tempfile.TemporaryDirectory()
        self.addCleanup(folder.cleanup)
        self.folder = folder.name

    def see(self, name, values, spacing=SPACING, given=None):
        """Sees that a file has these values and this spacing."""
        volume = volumes.read([f"{self.folder}/{name}"], given)
        self.assertEqual(volume.values.tolist(), values.tolist())
        for found, wanted in zip(volume.spacing, spacing):
            self.assertAlmostEqual(found, wanted, places=6)

    def cut(self, name, part):
        """Leaves 3 bytes of a file away, and sees that this is told."""
        with open(f"{self.folder}/{name}", "rb") as file:
            data = file.read()
        with open(f"{self.folder}/{name}", "wb") as file:
            file.write(data[:-3])
        with self.assertRaisesRegex(Trouble, part):
            volumes.read([f"{self.folder}/{name}"], None)


@needs("numpy")
class Raw(Folder):
    """NRRD and MetaImage."""

    def test_nrrd(self):
        for encoding in ("raw", "gzip", "ascii"):
            write_nrrd(f"{self.folder}/a.nrrd", corner(), SPACING, encoding)
            self.see("a.nrrd", corner())
            self.cut("a.nrrd", "ends too soon|decompressed")

    def test_nrrd_directions(self):
        right = "space directions: (0.5,0,0) (0,-0.75,0) (0,0,-2)\nspace origin: (1,2,3)\nSegment0_ID:=one"
        write_nrrd(f"{self.folder}/a.nrrd", corner(), SPACING, "raw", right)
        self.see("a.nrrd", corner())
        left = "space directions: (-0.5,0,0) (0,0.75,0) (0,0,2)"
        write_nrrd(f"{self.folder}/a.nrrd", corner(), SPACING, "gzip", left)
        self.see("a.nrrd", corner()[:, :, ::-1])

    def test_meta(self):
        for compressed in (False, True):
            write_meta(f"{self.folder}/a.mha", corner(), SPACING, compressed)
            self.see("a.mha", corner())
            self.cut("a.mha", "ends too soon|decompressed")
        write_meta(f"{self.folder}/a.mha", corner(), SPACING, True, "1 0 0 0 1 0 0 0 -1")
        self.see("a.mha", corner()[:, :, ::-1])

    def test_given_spacing(self):
        write_meta(f"{self.folder}/a.mha", corner(), SPACING)
        self.see("a.mha", corner(), (1, 2, 3), (1, 2, 3))

    def test_other_files(self):
        for name in ("a.nrrd", "a.mha", "a.txt"):
            with open(f"{self.folder}/{name}", "wb") as file:
                file.write(b"solid\n")
            status, out, told = tool("outlines", [f"{self.folder}/{name}", "--level=1"])
            self.assertEqual((status, out), (1, b""))
            self.assertIn(name, told)
        self.assertEqual(tool("outlines", [f"{self.folder}/none.nrrd", "--level=1"])[0], 3)
        for name, remedy in (("a.raw", "need a header"), ("a.csv", "tools/contours")):
            self.assertIn(remedy, tool("outlines", [f"{self.folder}/{name}", "--level=1"])[2])


@needs("numpy", "nibabel")
class Nifti(Folder):
    """NIfTI, plain and compressed."""

    def write(self, name, x_sign):
        """Writes the corner with this sign of its first axis."""
        import nibabel

        affine = numpy.diag([x_sign * SPACING[0], *SPACING[1:], 1.0])
        nibabel.save(nibabel.Nifti1Image(corner().transpose(2, 1, 0), affine), f"{self.folder}/{name}")

    def test_nifti(self):
        for name in ("a.nii", "a.nii.gz"):
            self.write(name, 1)
            self.see(name, corner())
            self.write(name, -1)
            self.see(name, corner()[:, :, ::-1])
            self.cut(name, "not a complete NIfTI")

    def test_other_files(self):
        with open(f"{self.folder}/a.nii", "wb") as file:
            file.write(b"solid\n")
        self.assertEqual(tool("outlines", [f"{self.folder}/a.nii", "--level=1"])[0], 1)
        self.assertEqual(tool("outlines", [f"{self.folder}/none.nii", "--level=1"])[0], 3)


@needs("numpy", "PIL")
class Images(Folder):
    """Stacks of images."""

    def pages(self, values):
        """Gives a picture for each slice, its first row on top."""
        from PIL import Image

        return [Image.fromarray(it[::-1].copy()) for it in values]

    def test_a_folder_of_png(self):
        for number, page in zip((8, 9, 10), self.pages(corner().astype("u1"))):
            page.save(f"{self.folder}/slice{number}.png")
        self.see("", corner(), SPACING, SPACING)
        with self.assertRaisesRegex(Trouble, "give --spacing"):
            volumes.read([self.folder], None)

    def test_pages_of_tiff(self):
        for kind in ("u1", "<u2", "<f4"):
            first, *others = self.pages(corner().astype(kind))
            first.save(f"{self.folder}/a.tif", save_all=True, append_images=others)
            self.see("a.tif", corner(), SPACING, SPACING)

    def test_troubles(self):
        from PIL import Image

        Image.new("CMYK", (5, 4)).save(f"{self.folder}/colours.tif")
        self.pages(corner().astype("u1"))[0].save(f"{self.folder}/a.png")
        self.pages(numpy.zeros((1, 9, 9), dtype="u1"))[0].save(f"{self.folder}/b.png")
        rows = [(["colours.tif"], "has colours"), (["a.png", "b.png"], "its size differs")]
        for names, part in rows:
            with self.assertRaisesRegex(Trouble, part):
                volumes.read([f"{self.folder}/{it}" for it in names], SPACING)
        with open(f"{self.folder}/b.png", "r+b") as file:
            file.truncate(40)
        with self.assertRaisesRegex(Trouble, "not a complete image"):
            volumes.read([f"{self.folder}/b.png"], SPACING)

    def test_two_discs_to_a_surface(self):
        y, x = numpy.mgrid[-9:10, -9:10]
        disc = (255 * (x * x + y * y <= 49)).astype("u1")
        for number, page in enumerate(self.pages(numpy.stack([disc, disc]))):
            page.save(f"{self.folder}/{number}.png")
        status, text, _ = tool("outlines", [self.folder, "--level=128", "--spacing=1,1,5"])
        self.assertEqual((status, fku(["reconstruct"], text)[0]), (0, 0))
