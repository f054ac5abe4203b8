"""Reads NRRD and MetaImage files: a header in plain words, and numbers that may be compressed.

Debian 12 has no package for NRRD, and VTK's reader of MetaImage does not notice a file that is cut. It needs numpy.
"""
import math
import os
import re
import zlib
from dataclasses import dataclass, field

from fku.progress import Progress
from fku.trouble import Trouble, read_bytes, wanted

CHUNK = 1 << 20  # bytes that are uncompressed at once

NRRD_TYPES = {
    "i1": "signed char,int8,int8_t", "u1": "uchar,unsigned char,uint8,uint8_t",
    "i2": "short,short int,signed short,signed short int,int16,int16_t",
    "u2": "ushort,unsigned short,unsigned short int,uint16,uint16_t",
    "i4": "int,signed int,int32,int32_t", "u4": "uint,unsigned int,uint32,uint32_t",
    "i8": "longlong,long long,long long int,signed long long,signed long long int,int64,int64_t",
    "u8": "ulonglong,unsigned long long,unsigned long long int,uint64,uint64_t",
    "f4": "float", "f8": "double",
}
META_TYPES = {
    "MET_CHAR": "i1", "MET_UCHAR": "u1", "MET_SHORT": "i2", "MET_USHORT": "u2", "MET_INT": "i4", "MET_UINT": "u4",
    "MET_LONG": "i4", "MET_ULONG": "u4", "MET_LONG_LONG": "i8", "MET_ULONG_LONG": "u8", "MET_FLOAT": "f4",
    "MET_DOUBLE": "f8",
}


# The worlds of NRRD's spaces, and whether x has to change its sign so that it is one that we know.
SPACES = {
    "right-anterior-superior": ("RAS", False), "ras": ("RAS", False), "left-posterior-superior": ("LPS", False),
    "lps": ("LPS", False), "left-anterior-superior": ("RAS", True), "las": ("RAS", True),
}
META_MATRIX = ("TransformMatrix", "Rotation", "Orientation")
SPATIAL = ("domain", "space")  # kinds of axes
MICROMETRES = ("um", "\u00b5m", "\u03bcm", "micron", "microns", "micrometer", "micrometre")


@dataclass(frozen=True)
class Segment:
    """A region of a segmentation: the voxels of a layer that have its label."""

    name: str
    label: float
    layer: int


@dataclass
class RawVolume:
    """Values[layer, z, y, x] of a file; the steps from voxel to voxel along x, y and z in its space, the columns of a
    3 x 3 matrix, nan where it does not say them; and where the centre of its first voxel is. `length` and `world` are
    empty where they are not known; `left_handed` says whether its space is left-handed.
    """

    layers: object
    steps: list[list[float]]
    origin: list[float]
    length: str = ""
    world: str = ""
    left_handed: bool = False
    segments: list[Segment] = field(default_factory=list)


def length_name(unit: str) -> str:
    """Gives the name of a unit of length as a section text has it."""
    return "um" if unit.lower() in MICROMETRES else unit


def numbers(words, path):
    """Gives the numbers of a line of a header."""
    try:
        return [float(it) for it in words.split()]
    except ValueError:
        raise Trouble(f"{path}: {words.strip()!r} are not numbers") from None


def wanted_word(header, word, path):
    """Gives the value of a header's field; Trouble says that it is missing."""
    if word not in header:
        raise Trouble(f"{path}: its header has no {word!r}")
    return header[word]


def sizes_of(words: str, path: str) -> list[int]:
    """Gives the sizes of all axes, the fastest one first."""
    sizes = numbers(words, path)
    if not all(it >= 1 and it == int(it) for it in sizes):
        raise Trouble(f"{path}: sizes must be integers above 0")
    return [int(it) for it in sizes]


def unpacked(data: bytes, path: str) -> bytearray:
    """Gives what was compressed by zlib or gzip, of which several may follow each other. Their checksums must hold."""
    view, whole, at, machine = memoryview(data), bytearray(), 0, None
    progress = Progress(f"reading {os.path.basename(path)}, bytes", len(view))
    try:
        while at < len(view):
            machine = machine or zlib.decompressobj(zlib.MAX_WBITS | 32)
            whole += machine.decompress(view[at : at + CHUNK])
            at = min(at + CHUNK, len(view)) - len(machine.unused_data)
            if machine.eof:
                machine = None
                while at < len(view) and view[at] == 0:
                    at += 1
            progress.at(at)
    except zlib.error as it:
        raise Trouble(f"{path}: cannot be decompressed: {it}") from None
    progress.end()
    if machine or not whole:
        raise Trouble(f"{path}: the compressed data ends too soon")
    return whole


def array(data: bytes, kind: str, sizes: list[int], path: str):
    """Gives the values of bytes of this kind of number; the last axis is the fastest one."""
    numpy = wanted("numpy", "python3-numpy", "a volume")
    wants = math.prod(sizes) * int(kind[-1])
    if len(data) < wants:
        raise Trouble(f"{path}: ends too soon: {len(data)} bytes of data, and {wants} are required")
    if len(data) > wants:
        raise Trouble(f"{path}: has {len(data)} bytes of data, and its header says {wants}")
    return numpy.frombuffer(data, dtype=kind).reshape(sizes[::-1])


def array_of_words(data, kind, sizes, path):
    """Gives the values of numbers written as words; the last axis is the fastest one."""
    numpy = wanted("numpy", "python3-numpy", "a volume")
    values = numbers(bytes(data).decode("ascii", "replace"), path)
    if len(values) != math.prod(sizes):
        told = "ends too soon: " if len(values) < math.prod(sizes) else "has "
        raise Trouble(f"{path}: {told}{len(values)} values, and its header says {math.prod(sizes)}")
    return numpy.array(values).astype(kind).reshape(sizes[::-1])


def beside(path, name):
    """Gives a file that a header names, in the header's folder."""
    return os.path.join(os.path.dirname(path), name.strip())


def columns(rows):
    """Gives the 3 x 3 matrix that has these rows as its columns."""
    return [list(it) for it in zip(*rows)]


def nrrd_header(text):
    """Gives the fields of an NRRD header by their names, and its key-value pairs; comments are passed over."""
    lines = [it for it in bytes(text).decode("utf-8", "replace").splitlines()[1:] if not it.startswith("#")]
    pairs = [it.split(":", 1) for it in lines if ":" in it and ":=" not in it]
    keyed = [it.split(":=", 1) for it in lines if ":=" in it]
    return {name.strip().lower(): value.strip() for name, value in pairs}, dict(keyed)


def nrrd_directions(header, path):
    """Gives for each axis its step in space, None for an axis that is none of space; or None where no axis has one."""
    words = re.findall(r"\([^)]*\)|\w+", header.get("space directions", ""))
    steps = [None if it.lower() == "none" else numbers(it.strip("()").replace(",", " "), path) for it in words]
    if any(it is not None and len(it) != 3 for it in steps):
        raise Trouble(f"{path}: its space must have 3 axes, and has {header['space directions']}")
    return steps if any(steps) else None


def nrrd_axes(header, sizes, path):
    """Gives the numbers of the three axes of space, x first, and of the others."""
    steps, kinds = nrrd_directions(header, path), header.get("kinds", "").lower().split()
    apart, every = numbers(header.get("spacings", ""), path), range(len(sizes))
    if steps is not None and len(steps) != len(sizes):
        raise Trouble(f"{path}: has {len(sizes)} axes, and space directions of {len(steps)}")
    if steps is not None:
        space = [it for it in every if steps[it] is not None]
    elif len(kinds) == len(sizes) and any(it in SPATIAL for it in kinds):
        space = [it for it in every if kinds[it] in SPATIAL]
    elif len(apart) == len(sizes) and any(map(math.isfinite, apart)):
        space = [it for it in every if math.isfinite(apart[it])]
    else:
        space = [it for it in every if it < 3 or sizes[it] != 1]
    if len(space) != 3:
        raise Trouble(f"{path}: a volume has 3 axes; this file has {len(space)}, of the sizes {header['sizes']}")
    return space, [it for it in every if it not in space]


def nrrd_layers(values, space, others):
    """Gives values[layer, z, y, x], whose axes come from values with the last axis of the file first."""
    last = values.ndim - 1
    moved = values.transpose(*(last - it for it in reversed(others)), *(last - it for it in reversed(space)))
    return moved.reshape(-1, *moved.shape[len(others) :])


def nrrd_places(header, space, path):
    """Gives the steps along x, y and z, the origin, the world, and whether the space is left-handed."""
    world, mirrored = SPACES.get(header.get("space", "").lower(), ("", False))
    left_handed = header.get("space", "").lower() in ("3d-left-handed", "3dlh")
    steps = nrrd_directions(header, path)
    if steps is None:
        apart = numbers(header.get("spacings", ""), path)
        apart = [apart[it] if it < len(apart) else math.nan for it in space]
        return [[apart[k] if k == j else 0.0 for k in range(3)] for j in range(3)], [0.0] * 3, "", False
    rows = [steps[it] for it in space]
    origin = numbers(header.get("space origin", "").strip("()").replace(",", " "), path)
    origin = origin if len(origin) == 3 else [0.0] * 3
    if mirrored:
        rows, origin = [[-x, y, z] for x, y, z in rows], [-origin[0], *origin[1:]]
    return columns(rows), origin, world, left_handed


def nrrd_length(header):
    """Gives the name of the unit of length, where the header says it; that of a patient's space is taken for mm."""
    units = set(re.findall(r'"([^"]*)"', header.get("space units", header.get("units", "")))) - {""}
    known = header.get("space", "").lower() in SPACES
    return length_name(units.pop()) if len(units) == 1 else "mm" if known and not units else ""


def nrrd_segments(keyed):
    """Gives the segments in the key-value pairs of a header, as 3D Slicer writes them."""
    found = []
    while f"Segment{len(found)}_ID" in keyed:
        key = f"Segment{len(found)}_"
        name = keyed.get(key + "Name", keyed[key + "ID"]).strip()
        label, layer = keyed.get(key + "LabelValue", "1"), keyed.get(key + "Layer", str(len(found)))
        if not (label.strip().isdecimal() and layer.strip().isdecimal()):
            return []
        found.append(Segment(name, float(label), int(layer)))
    return found


def nrrd_kind(header, path):
    """Gives the kind of number."""
    name = wanted_word(header, "type", path)
    kind = next((it for it, names in NRRD_TYPES.items() if name in names.split(",")), None)
    if kind is None:
        raise Trouble(f"{path}: values of type {name} cannot be read")
    return kind


def read_nrrd(path) -> RawVolume:
    """Gives the volume of an NRRD file."""
    whole = read_bytes(path)
    if not whole.startswith(b"NRRD"):
        raise Trouble(f"{path}: not an NRRD file")
    gap = re.search(rb"\r?\n\r?\n", whole)
    header, keyed = nrrd_header(whole[: gap.start()] if gap else whole)
    sizes = sizes_of(wanted_word(header, "sizes", path), path)
    kind = nrrd_kind(header, path)
    file = header.get("data file") or header.get("datafile")
    if file:
        if file.startswith("LIST") or "%" in file:
            raise Trouble(f"{path}: data in several files cannot be read")
        data = read_bytes(beside(path, file))
    elif gap:
        data = memoryview(whole)[gap.end() :]
    else:
        raise Trouble(f"{path}: its header ends too soon")
    values = nrrd_values(header, data, kind, sizes, path)
    space, others = nrrd_axes(header, sizes, path)
    steps, origin, world, left_handed = nrrd_places(header, space, path)
    layers, segments = nrrd_layers(values, space, others), nrrd_segments(keyed)
    if any(it.layer >= len(layers) for it in segments):
        segments = [Segment(it.name, it.label, 0) for it in segments] if len(layers) == 1 else []
    return RawVolume(layers, steps, origin, nrrd_length(header), world, left_handed, segments)


def nrrd_values(header, data, kind, sizes, path):
    """Gives the values after an NRRD header, by their encoding."""
    encoding = wanted_word(header, "encoding", path).lower()
    skipped = (header.get("line skip", "0"), header.get("byte skip", "0"))
    if skipped != ("0", "0"):
        raise Trouble(f"{path}: line skip and byte skip cannot be read")
    if encoding in ("ascii", "txt", "text"):
        return array_of_words(data, kind, sizes, path)
    endian = "little" if kind.endswith("1") else wanted_word(header, "endian", path).lower()
    if endian not in ("little", "big"):
        raise Trouble(f"{path}: its header says endian: {endian}; it must be little or big")
    if encoding in ("gzip", "gz"):
        data = unpacked(data, path)
    elif encoding != "raw":
        raise Trouble(f"{path}: the encoding {encoding} cannot be read; raw, gzip and ascii can")
    return array(data, ("<" if endian == "little" else ">") + kind, sizes, path)


def meta_header(whole, path):
    """Gives the fields of a MetaImage header by their names, the last being the data's file, and the bytes after it.
    """
    header, at = {}, 0
    while "ElementDataFile" not in header:
        end = whole.find(b"\n", at)
        name, equals, value = whole[at:end].decode("latin-1").partition("=")
        if end < 0 or not equals:
            raise Trouble(f"{path}: not a MetaImage file")
        header[name.strip()] = value.strip()
        at = end + 1
    return header, memoryview(whole)[at:]


def first_of(header, names, otherwise):
    """Gives the first of some fields that a MetaImage header has."""
    return next((header[it] for it in names if it in header), otherwise)


def is_true(header, *names):
    """Whether the first of some fields that a MetaImage header has says True."""
    return first_of(header, names, "False").lower() == "true"


def meta_places(header, axes, path):
    """Gives the steps along x, y and z, and the origin. The matrix has the direction of x first, then that of y; it has
    as many rows and columns as the file has axes.
    """
    spacing = numbers(header.get("ElementSpacing", header.get("ElementSize", "")), path)[:3]
    spacing = spacing if len(spacing) == 3 else [math.nan] * 3
    cosines = numbers(first_of(header, META_MATRIX, ""), path)
    cosines = cosines or [float(k == j) for k in range(axes) for j in range(axes)]
    origin = numbers(first_of(header, ("Offset", "Position", "Origin"), "0 " * axes), path)
    if len(cosines) != axes * axes or len(origin) != axes:
        raise Trouble(f"{path}: its matrix has {len(cosines)} numbers, its origin {len(origin)}, for {axes} axes")
    rows = [[step * it for it in cosines[axes * k : axes * k + 3]] for k, step in enumerate(spacing)]
    return columns(rows), origin[:3]


def meta_data(header, data, wants, path):
    """Gives the bytes of the numbers: those after the header, or of the file that it names, without the bytes at its
    front that the header says to skip; -1 says that the numbers are its last `wants` bytes.
    """
    file = header["ElementDataFile"]
    if file.upper() != "LOCAL":
        if "%" in file or file.upper().startswith("LIST"):
            raise Trouble(f"{path}: data in several files cannot be read")
        data = read_bytes(beside(path, file))
    skipped = header.get("HeaderSize", "0")
    if skipped != "-1" and not skipped.isdecimal():
        raise Trouble(f"{path}: HeaderSize = {skipped} is not a number of bytes")
    compressed = is_true(header, "CompressedData")
    if skipped == "-1":
        return unpacked(data, path) if compressed else data[max(len(data) - wants, 0) :]
    return unpacked(data[int(skipped) :], path) if compressed else data[int(skipped) :]


def meta_values(header, data, sizes, path):
    """Gives the values[z, y, x, channel] of a MetaImage file."""
    name = wanted_word(header, "ElementType", path)
    if name not in META_TYPES:
        raise Trouble(f"{path}: values of type {name} cannot be read")
    kind = META_TYPES[name]
    data = meta_data(header, data, math.prod(sizes) * int(kind[-1]), path)
    if first_of(header, ("BinaryData",), "True").lower() != "true":
        return array_of_words(data, kind, sizes, path)
    order = ">" if is_true(header, "BinaryDataByteOrderMSB", "ElementByteOrderMSB") else "<"
    return array(data, order + kind, sizes, path)


def read_meta(path) -> RawVolume:
    """Gives the volume of a MetaImage file. Its space is that of ITK, which counts to the left, back and top of a
    patient; where it has no matrix, it says nothing of a patient.
    """
    header, data = meta_header(read_bytes(path), path)
    sizes = sizes_of(wanted_word(header, "DimSize", path), path)
    if len(sizes) < 3 or any(it != 1 for it in sizes[3:]):
        raise Trouble(f"{path}: a volume has 3 axes; its sizes are {header['DimSize']}")
    channels = sizes_of(header.get("ElementNumberOfChannels", "1"), path)
    values = meta_values(header, data, channels + sizes[:3], path)
    steps, origin = meta_places(header, len(sizes), path)
    world = "LPS" if any(it in header for it in META_MATRIX) else ""
    unit = length_name(header.get("DistanceUnits", "mm"))
    return RawVolume(values.transpose(3, 0, 1, 2), steps, origin, "" if unit == "?" else unit, world)
