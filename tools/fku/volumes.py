"""Volumes: a grey value or a label for each voxel of a box, read from NIfTI, NRRD, MetaImage or images.

It needs numpy; NIfTI needs nibabel and images need Pillow, which are asked for when such a file is read.
"""
import gzip
import itertools
import math
import os

from fku import image_stacks, raw_volumes
from fku.progress import Progress
from fku.trouble import NOT_READ, Trouble, wanted

NIFTI = (".nii", ".nii.gz", ".hdr", ".img")
MILLIMETRES = {"meter": 1000, "micron": 0.001}  # of the units of NIfTI; all others are taken for millimetres
DIRECTIONS = ("sagittal", "coronal", "axial")  # slices from side to side, from back to front, from below to above
AXES = ("x", "y", "z")
LAYERS = "channels, times or layers"


class Volume:
    """The voxels of a box, and their place in the source's space.

    `layers` are values[layer, z, y, x]; most files have one layer. `directions` is a 3 x 3 matrix, whose columns are
    the directions of x, y and z in the source's space, each of length 1; `spacing` is the voxel spacing along x, y
    and z, nan where the file does not say it; `origin` is the centre of the first voxel.
    `length` names the unit of all lengths, `world` the axes of the source's space (RAS or LPS), each empty where it is
    not known. `segments` are those of a segmentation, and `what` is the word for layers.

    x, y and z turn as the thumb and the next two fingers of the right hand, so that no surface is a mirror image.
    """

    def __init__(self, layers, directions, spacing, origin, note, length="", world="", segments=(), what=LAYERS):
        self.layers, self.directions, self.spacing, self.origin = layers, directions, tuple(spacing), tuple(origin)
        self.note, self.length, self.world, self.segments, self.what = note, length, world, list(segments), what

    @property
    def values(self):
        """The values[z, y, x] of the first layer."""
        return self.layers[0]

    def matrix(self):
        """Gives the 3 x 3 matrix whose columns are the steps from voxel to voxel along x, y and z."""
        return self.directions * self.spacing

    def with_axes(self, layers, directions, spacing, origin, note=None) -> "Volume":
        """Gives the volume with other axes, and what it knows beside them."""
        known = (self.length, self.world, self.segments, self.what)
        return Volume(layers, directions, spacing, origin, note or self.note, *known)

    def turned(self, axis: int, note: str) -> "Volume":
        """Gives the volume with x (0), y (1) or z (2) the other way round."""
        directions = self.directions.copy()
        directions[:, axis] *= -1
        way = (self.layers.shape[3 - axis] - 1) * self.spacing[axis]
        origin = [it + way * step if way else it for it, step in zip(self.origin, self.directions[:, axis].tolist())]
        index = [slice(None)] * 4
        index[3 - axis] = slice(None, None, -1)
        return self.with_axes(self.layers[tuple(index)], directions, self.spacing, origin, note)

    def along(self, axis: str) -> "Volume":
        """Gives the volume whose slices follow each other along x, y or z of this one, or along the axis that is
        nearest to the normal of sagittal, coronal or axial slices.
        """
        at = AXES.index(axis if axis in AXES else self.axis_across(axis))
        if at == 2:
            return self
        order = [(at + 1) % 3, (at + 2) % 3, at]
        layers = self.layers.transpose(0, *(3 - it for it in reversed(order)))
        spacing = [self.spacing[it] for it in order]
        return self.with_axes(layers, self.directions[:, order], spacing, self.origin)

    def axis_across(self, name: str) -> str:
        """Gives the axis that is nearest to the normal of sagittal, coronal or axial slices: x, y and z are matched
        with the three normals so that the cosines of the angles between them are greatest together.
        """
        if not self.world:
            raise Trouble(f"{self.note} has no orientation in the body: give --axis x, y or z, not {name}")
        near = abs(self.directions)
        best = max(itertools.permutations(range(3)), key=lambda order: sum(near[k, order[k]] for k in range(3)))
        return AXES[best[DIRECTIONS.index(name)]]

    def layer(self, number: int | None) -> "Volume":
        """Gives the volume of one layer, counted from 0; where there is one only, no number is needed."""
        count = len(self.layers)
        if number is None and count > 1:
            named = ", ".join(it.name for it in self.segments)
            more = f", or --segment with one of {named}" if named else ", or --channel slices, to take each for a slice"
            told = f"{self.note} has {count} {self.what}: give --channel K, from 0 to {count - 1}"
            raise Trouble(told + (more if named or self.layers.shape[1] == 1 else ""))
        if number is not None and number >= count:
            raise Trouble(f"{self.note} has no channel {number}; the last one is {count - 1}")
        at = number or 0
        return self.with_axes(self.layers[at : at + 1], self.directions, self.spacing, self.origin)

    def layers_as_slices(self) -> "Volume":
        """Gives the volume whose slices are the layers of this one, which has one slice: ImageJ may take slices for
        channels or times.
        """
        if self.layers.shape[1] != 1:
            raise Trouble(f"{self.note} has slices already: give --channel K, from 0 to {len(self.layers) - 1}")
        return self.with_axes(self.layers.transpose(1, 0, 2, 3), self.directions, self.spacing, self.origin)


def directions_of(steps, note):
    """Gives the directions and the spacing of steps from voxel to voxel along x, y and z, the columns of a 3 x 3
    matrix. Where a file does not say the steps, they are nan.
    """
    numpy = wanted("numpy", "python3-numpy", "a volume")
    steps = numpy.array(steps, dtype=float)
    if not numpy.isfinite(steps).all():
        return numpy.eye(3), [math.nan] * 3
    spacing = [math.hypot(*column) for column in steps.T.tolist()]
    if min(spacing) == 0 or abs(numpy.linalg.det(steps / spacing)) < 1e-3:
        raise Trouble(f"{note}: its axes lie in one plane")
    return steps / spacing, spacing


def with_spacing(volume: Volume, spacing) -> Volume:
    """Gives the volume with another spacing, or with its own, which it must say. Its first voxel stays where it is."""
    spacing = volume.spacing if spacing is None else tuple(spacing)
    if any(math.isnan(it) for it in spacing):
        raise Trouble(f"{volume.note}: has no voxel spacing: give --spacing X,Y,Z")
    if not all(0 < it < 1e9 for it in spacing):
        raise Trouble(f"{volume.note}: the spacing {spacing} is not above 0: give --spacing X,Y,Z")
    origin = volume.origin if all(map(math.isfinite, volume.origin)) else (0.0, 0.0, 0.0)
    return volume.with_axes(volume.layers, volume.directions, spacing, origin)


def righted(volume: Volume, left_handed: bool) -> Volume:
    """Gives the volume; where its axes make a mirror image, x is turned round. It says whether the source's space
    itself is left-handed.
    """
    numpy = wanted("numpy", "python3-numpy", "a volume")
    if (numpy.linalg.det(volume.directions) < 0) == left_handed:
        return volume
    return volume.turned(0, volume.note + ", x turned round since its axes are left-handed")


def see_checksum(path):
    """Refuses a file of gzip that has another checksum than it says. nibabel reads as many bytes as it wants, and so
    may never come to the checksum, which stands at the end.
    """
    if not path.lower().endswith(".gz"):
        return
    progress = Progress(f"reading {os.path.basename(path)}, bytes", os.path.getsize(path))
    with open(path, "rb") as packed, gzip.GzipFile(fileobj=packed) as file:
        while file.read(raw_volumes.CHUNK):
            progress.at(packed.tell())
    progress.end()


def nifti_layers(image, path):
    """Gives the scaled values[layer, z, y, x] of a NIfTI image."""
    numpy = wanted("numpy", "python3-numpy", "NIfTI")
    values = numpy.asanyarray(image.dataobj)
    if values.dtype.kind == "V":
        raise Trouble(f"{path}: has colours: convert it to grey values or labels first")
    while values.ndim > 3 and values.shape[-1] == 1:
        values = values[..., 0]
    if values.ndim not in (3, 4):
        raise Trouble(f"{path}: a volume has 3 axes, this file has {values.ndim}")
    return values.transpose(2, 1, 0)[None] if values.ndim == 3 else values.transpose(3, 2, 1, 0)


def read_nifti(path: str, spacing) -> Volume:
    """Gives the volume of a NIfTI file. Its place is that of its affine; where it has none, as in the older files of
    Analyze, the world is not known.
    """
    nibabel = wanted("nibabel", "python3-nibabel", "NIfTI")
    try:
        image = nibabel.load(path)
        see_checksum(path)
        layers = nifti_layers(image, path)
        unit = MILLIMETRES.get(image.header.get_xyzt_units()[0], 1) if hasattr(image.header, "get_xyzt_units") else 1
        affine = image.affine * unit
        coded = any(code in image.header and image.header[code] > 0 for code in ("sform_code", "qform_code"))
    except FileNotFoundError:
        raise Trouble(f"{path}: No such file", NOT_READ) from None
    except (Trouble, MemoryError):
        raise
    except Exception as it:  # nibabel, zlib and gzip have many of their own
        raise Trouble(f"{path}: not a complete NIfTI file: {it}") from None
    known = {"length": "mm", "world": "RAS" if coded else ""}
    note = os.path.basename(path)
    volume = Volume(layers, *directions_of(affine[:3, :3], note), affine[:3, 3].tolist(), note, **known)
    return righted(with_spacing(volume, spacing), False)


def read_raw(path, reader, spacing) -> Volume:
    """Gives the volume of an NRRD or MetaImage file."""
    it, note = reader(path), os.path.basename(path)
    directions, apart = directions_of(it.steps, note)
    volume = Volume(it.layers, directions, apart, it.origin, note, it.length, it.world, it.segments)
    return righted(with_spacing(volume, spacing), it.left_handed)


def read_images(paths, spacing) -> Volume:
    """Gives the volume of a stack of images. y is turned round, so that the top of an image has the greatest y, and the
    surface seen from above lies as the images do. The place is counted from the centre of the top left dot of the first
    image, in a right-handed space: x to the right, y to the top, z from image to image.
    """
    numpy = wanted("numpy", "python3-numpy", "a stack of images")
    stack = image_stacks.read(paths)
    known = {"length": stack.length, "what": "colours" if stack.colours else LAYERS}
    volume = Volume(stack.layers, numpy.diag([1.0, -1.0, 1.0]), stack.spacing, (0.0,) * 3, stack.note, **known)
    return with_spacing(volume, spacing).turned(1, stack.note)


def packages(paths: list[str]) -> list[str]:
    """Gives the packages that reading these files takes."""
    if image_stacks.is_stack(paths):
        return ["numpy", "PIL"]
    return ["numpy", "nibabel"] if paths[0].lower().endswith(NIFTI) else ["numpy"]


def of_numbers(volume: Volume) -> Volume:
    """Gives the volume; one without plain numbers is refused."""
    if not 0 < volume.layers.size or volume.layers.dtype.kind not in "buif":
        raise Trouble(f"{volume.note}: has no plain values")
    return volume


def read_layers(paths: list[str], spacing=None) -> Volume:
    """Gives the volume of one file, or of a stack of images, with all its layers; a given spacing (x, y, z) takes the
    place of that of the file.
    """
    name = paths[0].lower()
    if image_stacks.is_stack(paths):
        return of_numbers(read_images(paths, spacing))
    if len(paths) > 1:
        raise Trouble("give one volume; only images can be several files")
    if name.endswith(NIFTI):
        return of_numbers(read_nifti(paths[0], spacing))
    if name.endswith((".nrrd", ".nhdr")):
        return of_numbers(read_raw(paths[0], raw_volumes.read_nrrd, spacing))
    if name.endswith((".mha", ".mhd")):
        return of_numbers(read_raw(paths[0], raw_volumes.read_meta, spacing))
    kinds = f".nii .nii.gz .nrrd .nhdr .mha .mhd {' '.join(image_stacks.IMAGES)}"
    remedy = "bare values need a header, such as .mhd, that gives their kind, sizes and spacing"
    if not name.endswith(".raw"):
        remedy = "outlines that were traced are for tools/contours"
    raise Trouble(f"{paths[0]}: unknown suffix; known are {kinds}; {remedy}")


def read(paths: list[str], spacing=None, channel: int | None = None) -> Volume:
    """Gives the volume of one layer of a file or of a stack of images, counted from 0: the only one, where no number is
    given.
    """
    return read_layers(paths, spacing).layer(channel)
