"""Files that are unusual or damaged: each is read rightly, or refused with a reason, and none gives a wrong volume."""
import gzip
import os
import struct
import tempfile
import unittest
import zlib

from fku import section_text, space, volumes
from fku.trouble import Trouble
from tests.common import tool
from tests_with_packages.makers import needs, write_nrrd, write_tiff

try:
    import numpy
except ImportError:
    numpy = None

ONES = (1, 1, 1)


def corner(kind="<i2"):
    """Gives 3 slices of 4 by 5 voxels, each with its own value."""
    return numpy.arange(60).astype(kind).reshape(3, 4, 5)


class Files(unittest.TestCase):
    """A folder for the files of a test."""

    def setUp(self):
        folder = tempfile.TemporaryDirectory()
        self.addCleanup(folder.cleanup)
        self.folder = folder.name

    def put(self, name, data):
        """Writes a file."""
        with open(f"{self.folder}/{name}", "wb") as file:
            file.write(data)

    def see(self, name, values, spacing=None, given=None, channel=None):
        """Sees that a file has these values, and this spacing."""
        volume = volumes.read([f"{self.folder}/{name}"], given, channel)
        self.assertEqual(volume.values.tolist(), values.tolist())
        for found, wanted in zip(volume.spacing, spacing or ONES):
            self.assertAlmostEqual(found, wanted, places=6)
        return volume

    def refused(self, name, part, given=None, channel=None):
        """Sees that a file is refused, with a message that has this part."""
        with self.assertRaisesRegex(Trouble, part):
            volumes.read([f"{self.folder}/{name}"], given, channel)


@needs("numpy")
class Nrrd(Files):
    """NRRD: axes that are none of space, spaces that are left-handed, orders of bytes, and lengths that do not fit."""

    def nrrd(self, name, sizes, data, *more, kind="short"):
        """Writes an NRRD file."""
        head = ["NRRD0005", f"type: {kind}", f"dimension: {len(sizes)}", "sizes: " + " ".join(map(str, sizes)), *more]
        self.put(name, "\n".join([*head, "", ""]).encode() + data)

    def test_colours_are_no_slices(self):
        kinds = "kinds: RGB-color domain domain"
        self.nrrd("a.nrrd", (3, 5, 4), bytes(60), "encoding: raw", kinds, kind="uchar")
        self.refused("a.nrrd", "3 axes; this file has 2", ONES)
        self.nrrd("a.nrrd", (3, 5, 4), bytes(60), "encoding: raw", "spacings: nan 1 1", kind="uchar")
        self.refused("a.nrrd", "3 axes; this file has 2", ONES)

    def test_layers(self):
        layers = numpy.stack([corner("u1"), corner("u1") + 100])
        words = ["encoding: raw", "kinds: list domain domain domain", "space: left-posterior-superior",
                 "space directions: none (1,0,0) (0,1,0) (0,0,1)", "space origin: (0,0,0)"]  # fmt: skip
        self.nrrd("a.nrrd", (2, 5, 4, 3), layers.transpose(1, 2, 3, 0).tobytes(), *words, kind="uchar")
        for number in (0, 1):
            self.see("a.nrrd", layers[number], channel=number)
        self.refused("a.nrrd", "2 channels, times or layers: give --channel K, from 0 to 1")
        self.refused("a.nrrd", "no channel 2; the last one is 1", channel=2)
        self.nrrd("one.nrrd", (2, 5, 4, 1), layers[:, :1].transpose(1, 2, 3, 0).tobytes(), *words, kind="uchar")
        self.see("one.nrrd", layers[1, :1], channel=1)

    def test_axes_behind(self):
        words = ["encoding: raw", "spacings: 1 1 1 nan", "endian: little"]
        self.nrrd("a.nrrd", (5, 4, 3, 1), corner().tobytes(), *words)
        self.see("a.nrrd", corner())
        self.nrrd("a.nrrd", (5, 4, 3, 2), numpy.stack([corner(), corner() + 7]).tobytes(), *words)
        self.see("a.nrrd", corner() + 7, channel=1)

    def test_left_handed_spaces(self):
        steps = "space directions: (1,0,0) (0,1,0) (0,0,1)"
        rows = [
            ("right-anterior-superior", False, (1, 1), "RAS"), ("left-posterior-superior", False, (1, 1), "LPS"),
            ("left-anterior-superior", True, (-1, 1), "RAS"), ("LAS", True, (-1, 1), "RAS"),
            ("3D-left-handed", True, (1, 1), ""), ("3D-right-handed", False, (1, 1), ""),
        ]  # fmt: skip
        for name, mirrored, (sign, _), world in rows:
            with self.subTest(space=name):
                words = [f"space: {name}", steps, "space origin: (10,20,30)", "encoding: raw", "endian: little"]
                self.nrrd("a.nrrd", (5, 4, 3), corner().tobytes(), *words)
                volume = self.see("a.nrrd", corner()[:, :, ::-1] if mirrored else corner())
                self.assertEqual(volume.world, world)
                first = numpy.array(volume.origin) + (4 * volume.matrix()[:, 0] if mirrored else 0)
                self.assertEqual(first.tolist(), [sign * 10, 20, 30])

    def test_lengths_and_orders(self):
        self.nrrd("a.nrrd", (5, 4, 2), corner().tobytes(), "encoding: raw", "spacings: 1 1 1", "endian: little")
        self.refused("a.nrrd", "120 bytes of data, and its header says 80")
        self.nrrd("a.nrrd", (5, 4, 3), corner().tobytes(), "encoding: raw", "spacings: 1 1 1")
        self.refused("a.nrrd", "has no 'endian'")
        self.nrrd("a.nrrd", (5, 4, 3), corner(">i2").tobytes(), "encoding: raw", "spacings: 1 1 1", "endian: big")
        self.see("a.nrrd", corner())
        self.nrrd("a.nrrd", (5, 4, 3), b"1 2", "encoding: ascii", "spacings: 1 1 1")
        self.refused("a.nrrd", "ends too soon: 2 values, and its header says 60")

    def test_gzip(self):
        words, data = ["encoding: gzip", "spacings: 1 1 1", "endian: little"], corner().tobytes()
        self.nrrd("a.nrrd", (5, 4, 3), gzip.compress(data[:50]) + gzip.compress(data[50:]), *words)
        self.see("a.nrrd", corner())
        damaged = bytearray(gzip.compress(data))
        damaged[-8] ^= 1
        self.nrrd("a.nrrd", (5, 4, 3), bytes(damaged), *words)
        self.refused("a.nrrd", "incorrect data check")

    def test_numbers_in_another_file(self):
        self.put("a.raw", corner().tobytes())
        words = ["encoding: raw", "spacings: 1 1 1", "endian: little"]
        self.nrrd("a.nhdr", (5, 4, 3), b"", *words, "data file: a.raw")
        self.see("a.nhdr", corner())
        self.nrrd("a.nhdr", (5, 4, 3), b"", *words, "data file: a%02d.raw 1 3 1")
        self.refused("a.nhdr", "several files")

    def test_axes_in_a_plane(self):
        words = ["encoding: raw", "endian: little", "space directions: (1,0,0) (0,1,0) (1,1,0)"]
        self.nrrd("a.nrrd", (5, 4, 3), corner().tobytes(), *words)
        self.refused("a.nrrd", "lie in one plane")


@needs("numpy")
class Segmentations(Files):
    """Segmentations as 3D Slicer writes them."""

    def setUp(self):
        super().setUp()
        layers = numpy.zeros((2, 3, 12, 12), dtype="u1")
        layers[0, :, 1:5, 1:5], layers[0, :, 7:11, 7:11], layers[1, :, 2:9, 2:9] = 1, 2, 1
        names = [("left kidney", 1, 0), ("a rather long name of a segment", 2, 0), ("tumour", 1, 1)]
        told = [
            f"Segment{at}_{key}:={value}" for at, (name, label, layer) in enumerate(names)
            for key, value in [("ID", f"Segment_{at}"), ("Name", name), ("LabelValue", label), ("Layer", layer)]
        ]  # fmt: skip
        head = ["NRRD0004", "type: unsigned char", "dimension: 4", "space: left-posterior-superior", "sizes: 2 12 12 3",
                "space directions: none (1,0,0) (0,1,0) (0,0,2)", "kinds: list domain domain domain", "encoding: gzip",
                "space origin: (-5,6,7)", *told, "", ""]  # fmt: skip
        self.put("a.seg.nrrd", "\n".join(head).encode() + gzip.compress(layers.transpose(1, 2, 3, 0).tobytes()))
        self.path = f"{self.folder}/a.seg.nrrd"

    def test_all_segments(self):
        status, text, told = tool("outlines", [self.path, "--segments", "--unit=0.1"])
        self.assertEqual(status, 0, told)
        found = section_text.read(text, "x")
        self.assertEqual([(it.name, len(it.sections)) for it in found],
                         [("left_kidney", 3), ("a_rather_long_na", 3), ("tumour", 3)])  # fmt: skip
        self.assertIn(b"# name: left_kidney left kidney\n", text)
        self.assertIn(b"# name: a_rather_long_na a rather long name of a segment\n", text)
        points = found[0].sections[0].contours[0][1]
        self.assertEqual((min(points), max(points)), ((5, 10), (45, 40)))
        self.assertEqual(space.read(text).place((0, 0, 0)), (-5, 6, 7))
        self.assertEqual((space.read(text).world, space.read(text).length), ("LPS", "mm"))

    def test_some_segments(self):
        status, text, told = tool("outlines", [self.path, "--segment=tumour", "--unit=0.1"])
        self.assertEqual(status, 0, told)
        (only,) = section_text.read(text, "x")
        self.assertEqual((only.name, min(only.sections[0].contours[0][1])), ("tumour", (15, 20)))
        for words, part in [
            (["--segment=kidney"], "no segment kidney; its segments are left kidney, a rather"),
            (["--label=1"], "give --channel K, from 0 to 1, or --segment with one of left kidney"),
        ]:
            status, _, told = tool("outlines", [self.path, *words])
            self.assertEqual(status, 1)
            self.assertIn(part, told)
        self.assertEqual(tool("outlines", [self.path, "--label=2", "--channel=0", "--unit=0.1"])[0], 0)

    def test_a_file_without_segments(self):
        write_nrrd(f"{self.folder}/b.nrrd", corner(), ONES)
        status, _, told = tool("outlines", [f"{self.folder}/b.nrrd", "--segments"])
        self.assertEqual(status, 1)
        self.assertIn("b.nrrd has no segments: give --label or --level", told)


@needs("numpy")
class Meta(Files):
    """MetaImage: bytes before the numbers, spacings, matrices and channels."""

    def meta(self, name, *words, sizes="5 4 3", data=None, kind="MET_SHORT"):
        """Writes a MetaImage file."""
        head = [
            "ObjectType = Image", f"NDims = {len(sizes.split())}", "BinaryData = True", *words, f"DimSize = {sizes}",
            f"ElementType = {kind}", "ElementDataFile = LOCAL", "",
        ]  # fmt: skip
        self.put(name, "\n".join(head).encode() + (corner().tobytes() if data is None else data))

    def test_bytes_before_the_numbers(self):
        data = b"\1\0\2\0\3\0" + corner().tobytes()
        for skipped in ("6", "-1"):
            self.meta("a.mha", f"HeaderSize = {skipped}", "ElementSpacing = 1 1 1", data=data)
            self.see("a.mha", corner())
        self.meta("a.mha", "ElementSpacing = 1 1 1", data=data)
        self.refused("a.mha", "126 bytes of data, and its header says 120")
        self.meta("a.mha", "HeaderSize = x", "ElementSpacing = 1 1 1", data=data)
        self.refused("a.mha", "HeaderSize = x")

    def test_spacings(self):
        self.meta("a.mha", "ElementSpacing = 1 2 3", "ElementSize = 9 9 9")
        self.see("a.mha", corner(), (1, 2, 3))
        self.meta("a.mha", "ElementSize = 1 2 3")
        self.see("a.mha", corner(), (1, 2, 3))
        self.meta("a.mha", "Comment = none is told")
        self.refused("a.mha", "give --spacing")
        self.see("a.mha", corner(), (3, 2, 1), (3, 2, 1))

    def test_the_place(self):
        turned = "TransformMatrix = 0 1 0 -1 0 0 0 0 1"
        self.meta("a.mha", turned, "Offset = 5 6 7", "ElementSpacing = 1 2 3")
        volume = self.see("a.mha", corner(), (1, 2, 3))
        self.assertEqual(volume.matrix().T.tolist(), [[0, 1, 0], [-2, 0, 0], [0, 0, 3]])
        self.assertEqual((volume.origin, volume.world, volume.length), ((5, 6, 7), "LPS", "mm"))
        self.meta("a.mha", "Offset = 5 6 7", "ElementSpacing = 1 2 3")
        self.assertEqual(self.see("a.mha", corner(), (1, 2, 3)).world, "")
        self.meta("a.mha", "TransformMatrix = 1 0 0 1", "ElementSpacing = 1 2 3")
        self.refused("a.mha", "4 numbers, its origin 3, for 3 axes")

    def test_compressed_channels(self):
        pairs = numpy.stack([corner(), corner() + 60], axis=-1)
        words = ["CompressedData = True", "ElementNumberOfChannels = 2", "ElementSpacing = 1 1 1"]
        self.meta("a.mha", *words, data=zlib.compress(pairs.tobytes()))
        self.see("a.mha", corner() + 60, channel=1)
        self.refused("a.mha", "2 channels")


@needs("numpy", "nibabel")
class Nifti(Files):
    """NIfTI: checksums, four axes, colours, and affines that differ from the spacing of the header."""

    def write(self, name, values, affine=None):
        """Writes values[.., z, y, x] as NIfTI."""
        import nibabel

        nibabel.save(nibabel.Nifti1Image(values.T, numpy.eye(4) if affine is None else affine), f"{self.folder}/{name}")

    def test_a_wrong_checksum(self):
        many = numpy.random.default_rng(1).integers(0, 99, (30, 30, 30)).astype("<i2")
        self.write("a.nii.gz", many)
        self.see("a.nii.gz", many)
        with open(f"{self.folder}/a.nii.gz", "r+b") as file:
            data = bytearray(file.read())
            data[-8] ^= 1
            file.seek(0)
            file.write(data)
        self.refused("a.nii.gz", "not a complete NIfTI file: CRC check failed")

    def test_four_axes(self):
        self.write("a.nii", numpy.stack([corner(), corner() + 60]))
        self.see("a.nii", corner() + 60, channel=1)
        self.refused("a.nii", "2 channels, times or layers: give --channel K, from 0 to 1")
        self.write("a.nii", corner()[None])
        self.see("a.nii", corner())
        self.write("a.nii", corner()[None, None])
        self.see("a.nii", corner())
        self.write("a.nii", numpy.zeros((2, 2, 3, 4, 5), dtype="u1"))
        self.refused("a.nii", "this file has 5")

    def test_colours(self):
        colours = numpy.zeros((5, 4, 3), dtype=[("R", "u1"), ("G", "u1"), ("B", "u1")])
        self.write("a.nii", colours.T)
        self.refused("a.nii", "has colours")

    def test_the_affine_is_the_place(self):
        affine = numpy.diag([0.5, 0.75, 2.0, 1.0])
        self.write("a.nii", corner(), affine)
        with open(f"{self.folder}/a.nii", "r+b") as file:
            file.seek(80)
            file.write(struct.pack("<3f", 1, 1, 1))
        self.see("a.nii", corner(), (0.5, 0.75, 2))

    def test_a_spacing_that_is_given_keeps_the_first_voxel(self):
        affine = numpy.diag([-1.0, 1.0, 1.0, 1.0])
        affine[:3, 3] = 7, 8, 9
        self.write("a.nii", corner(), affine)
        volume = self.see("a.nii", corner()[:, :, ::-1], (2, 2, 2), (2, 2, 2))
        self.assertEqual(volume.origin, (7 - 4 * 2, 8, 9))


@needs("numpy", "PIL")
class Images(Files):
    """TIFF and PNG: tiles, tags that change what is seen, channels, and spacings of ImageJ and OME."""

    def setUp(self):
        super().setUp()
        self.pages = corner("u1")[:, ::-1]

    def test_tiles(self):
        large = numpy.arange(3 * 50 * 70).astype("<u2").reshape(3, 50, 70)
        write_tiff(f"{self.folder}/a.tif", large, tile=16)
        self.see("a.tif", large[:, ::-1], given=ONES)
        write_tiff(f"{self.folder}/a.tif", large.astype("u1"), tile=32)
        self.see("a.tif", large.astype("u1")[:, ::-1], given=ONES)

    def test_numbers_as_they_are_stored(self):
        for kind in ("u1", "<u2", "<i2", "<u4", "<i4", "<f4"):
            with self.subTest(kind=kind):
                values = self.pages.astype(kind) + (3000000000 if kind == "<u4" else 0)
                write_tiff(f"{self.folder}/a.tif", values)
                self.see("a.tif", values[:, ::-1], given=ONES)
        for kind in ("u1", "<u2"):
            write_tiff(f"{self.folder}/a.tif", self.pages.astype(kind), {262: 0})
            self.see("a.tif", corner(kind), given=ONES)

    def test_pages_that_are_turned_or_deep(self):
        write_tiff(f"{self.folder}/a.tif", self.pages, {274: 3})
        self.refused("a.tif", "orientation 3", ONES)
        write_tiff(f"{self.folder}/a.tif", self.pages, {32997: 3})
        self.refused("a.tif", "several slices in a page", ONES)

    def imagej(self, words, pages=None, **more):
        """Writes pages with a description by ImageJ."""
        pages = self.pages if pages is None else pages
        text = f"ImageJ=1.54f\nimages={len(pages)}\n" + "\n".join(words) + "\n"
        write_tiff(f"{self.folder}/a.tif", pages, {270: text, 282: (2000000, 1000000), 283: (3333333, 1000000)}, **more)

    def test_spacing_by_imagej(self):
        self.imagej(["slices=3", "unit=\\u00B5m", "spacing=2.5"])
        self.assertEqual(self.see("a.tif", corner("u1"), (0.5, 0.3, 2.5)).length, "um")
        self.imagej(["slices=3", "unit=mm"])
        self.assertEqual(self.see("a.tif", corner("u1"), (0.5, 0.3, 1)).length, "mm")
        self.see("a.tif", corner("u1"), (7, 7, 7), (7, 7, 7))
        self.imagej(["slices=3", "spacing=2.5"])
        self.refused("a.tif", "give --spacing")

    def test_channels_and_times_by_imagej(self):
        both = numpy.stack([self.pages, self.pages + 100], axis=1).reshape(6, 4, 5)
        self.imagej(["channels=2", "slices=3", "unit=um", "hyperstack=true"], both)
        self.see("a.tif", corner("u1") + 100, (0.5, 0.3, 1), channel=1)
        self.refused("a.tif", "2 channels, times or layers: give --channel")
        both = numpy.concatenate([self.pages, self.pages + 100])
        self.imagej(["slices=3", "frames=2", "unit=um"], both)
        self.see("a.tif", corner("u1") + 100, (0.5, 0.3, 1), channel=1)
        self.imagej(["frames=3", "unit=um", "spacing=2"])
        self.refused("a.tif", "--channel slices", ONES)
        path = f"{self.folder}/a.tif"
        self.assertEqual(volumes.read_layers([path]).layers_as_slices().values.tolist(), corner("u1").tolist())
        status, text, told = tool("outlines", [path, "--channel=slices", "--level=30"])
        self.assertEqual((status, text.count(b"SECTION ")), (0, 2), told)

    def test_one_directory_by_imagej(self):
        for kind in ("u1", "<u2", "<f4"):
            self.imagej(["slices=3", "unit=um"], self.pages.astype(kind), one_directory=True)
            self.see("a.tif", corner(kind), (0.5, 0.3, 1))
        self.imagej(["images=9", "slices=9", "unit=um"], one_directory=True)
        self.refused("a.tif", "says 9 images, and it has one")

    def test_ome(self):
        pixels = 'SizeX="5" SizeY="4" SizeT="1" PhysicalSizeX="0.5" PhysicalSizeY="0.75" PhysicalSizeZ="2"'
        text = '<?xml version="1.0"?><OME xmlns="http://www.openmicroscopy.org/Schemas/OME/2016-06">'
        text += '<Image ID="Image:0">'
        text += f'<Pixels DimensionOrder="ORDER" {pixels} SizeC="CHANNELS" SizeZ="3"/></Image></OME>'
        alone = text.replace("ORDER", "XYZCT").replace("CHANNELS", "1")
        write_tiff(f"{self.folder}/a.tif", self.pages, {270: alone})
        self.assertEqual(self.see("a.tif", corner("u1"), (0.5, 0.75, 2)).length, "um")
        for order, axis in [("XYZCT", 0), ("XYCZT", 1)]:
            both = numpy.stack([self.pages, self.pages + 100], axis=axis).reshape(6, 4, 5)
            write_tiff(f"{self.folder}/a.tif", both, {270: text.replace("ORDER", order).replace("CHANNELS", "2")})
            self.see("a.tif", corner("u1") + 100, (0.5, 0.75, 2), channel=1)
        write_tiff(f"{self.folder}/a.tif", self.pages[:2], {270: alone})
        self.refused("a.tif", "1 channels, 3 slices and 1 times, and it has 2 pages")
        write_tiff(f"{self.folder}/a.tif", self.pages, {270: alone[:-9]})
        self.refused("a.tif", "description cannot be used")

    def test_colours(self):
        from PIL import Image

        for number, page in enumerate(self.pages):
            grey = Image.fromarray(page.copy())
            grey.convert("RGB").save(f"{self.folder}/grey{number}.png")
            Image.merge("RGB", [grey, grey, Image.fromarray(page + 100)]).save(f"{self.folder}/blue{number}.png")
        grey, blue = ([f"{self.folder}/{name}{number}.png" for number in range(3)] for name in ("grey", "blue"))
        self.assertEqual(volumes.read(grey, ONES).values.tolist(), corner("u1").tolist())
        self.assertEqual(volumes.read(blue, ONES, 2).values.tolist(), (corner("u1") + 100).tolist())
        with self.assertRaisesRegex(Trouble, "has 3 colours: give --channel K, from 0 to 2"):
            volumes.read(blue, ONES)

    def test_the_place_of_images(self):
        for number, page in enumerate(self.pages):
            write_tiff(f"{self.folder}/{number}.tif", page[None])
        volume = volumes.read([self.folder], (2, 3, 5))
        self.assertEqual(volume.origin, (0, -3 * 3, 0))
        self.assertEqual(os.path.basename(volume.note), "0.tif to 2.tif")
