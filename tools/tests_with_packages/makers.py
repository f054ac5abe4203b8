"""Writes small volumes for the tests, and skips a test whose package is missing."""
import gzip
import importlib.util
import struct
import unittest
import zlib

NRRD_TYPES = {"u1": "uchar", "i2": "short", "i4": "int", "i8": "int64", "f4": "float", "f8": "double", "b1": "uchar"}


def needs(*modules):
    """Skips a test where one of these modules is missing."""
    missing = [it for it in modules if importlib.util.find_spec(it) is None]
    return unittest.skipIf(missing, f"needs {', '.join(missing)}")


def write_nrrd(path, values, spacing, encoding="raw", more=""):
    """Writes values[z, y, x] as NRRD."""
    kind = NRRD_TYPES[values.dtype.str[1:]]
    data = values.tobytes()
    if encoding == "gzip":
        data = gzip.compress(data)
    if encoding == "ascii":
        data = " ".join(map(str, values.ravel().tolist())).encode()
    z, y, x = values.shape
    places = more or "spacings: " + " ".join(map(str, spacing))
    head = [
        "NRRD0004", "# a test", f"type: {kind}", "dimension: 3", f"sizes: {x} {y} {z}", "endian: little",
        f"encoding: {encoding}", places, "", "",
    ]  # fmt: skip
    with open(path, "wb") as file:
        file.write("\n".join(head).encode() + data)


def write_meta(path, values, spacing, compressed=False, matrix="1 0 0 0 1 0 0 0 1"):
    """Writes values[z, y, x] of 16 bits as MetaImage, the highest byte first."""
    data = values.astype(">i2").tobytes()
    if compressed:
        data = zlib.compress(data)
    z, y, x = values.shape
    head = [
        "ObjectType = Image", "NDims = 3", "BinaryData = True", "BinaryDataByteOrderMSB = True",
        f"CompressedData = {compressed}", f"TransformMatrix = {matrix}", f"DimSize = {x} {y} {z}",
        "ElementSpacing = " + " ".join(map(str, spacing)), "ElementType = MET_SHORT", "ElementDataFile = LOCAL", "",
    ]  # fmt: skip
    with open(path, "wb") as file:
        file.write("\n".join(head).encode() + data)


def directory(tags, at, following):
    """Gives the bytes of a TIFF directory of tags, each of integers, a text or a pair of numbers, that stands at a
    byte of the file; the next one stands at `following`.
    """
    entries, behind = [], b""
    start = at + 2 + 12 * len(tags) + 4
    for tag, value in sorted(tags.items()):
        if isinstance(value, str):
            kind, data = 2, value.encode() + b"\0"
            count = len(data)
        elif isinstance(value, tuple):
            kind, count, data = 5, 1, struct.pack("<2I", *value)
        else:
            values = value if isinstance(value, list) else [value]
            kind, count, data = 4, len(values), struct.pack(f"<{len(values)}I", *values)
        if len(data) > 4:
            behind, data = behind + data + b"\0" * (len(data) % 2), struct.pack("<I", start + len(behind))
        entries.append(struct.pack("<HHI", tag, kind, count) + data.ljust(4, b"\0"))
    next_one = struct.pack("<I", following and start + len(behind))
    return struct.pack("<H", len(tags)) + b"".join(entries) + next_one + behind


def tiles_of(page, size):
    """Gives the tiles of a page as bytes, filled up with zeros."""
    import numpy

    height, width = page.shape
    whole = numpy.pad(page, [(0, -height % size), (0, -width % size)])
    return [
        whole[y : y + size, x : x + size].tobytes() for y in range(0, height, size) for x in range(0, width, size)
    ]


def write_tiff(path, pages, tags=None, tile=0, one_directory=False):
    """Writes pages[z, y, x], the top row first, as TIFF that is not compressed, with these tags more in each page; in
    tiles of this size, or with the one directory that ImageJ gives large stacks.
    """
    height, width = pages[0].shape
    bits, sample = 8 * pages.dtype.itemsize, {"u": 1, "i": 2, "f": 3}[pages.dtype.kind]
    parts = [tiles_of(it, tile) if tile else [it.tobytes()] for it in pages]
    offsets, data = [], b""
    for of_page in parts:
        offsets.append([8 + len(data) + sum(map(len, of_page[:at])) for at in range(len(of_page))])
        data += b"".join(of_page)
    written = struct.pack("<2sHI", b"II", 42, 8 + len(data)) + data
    for number, (of_page, starts) in enumerate(zip(parts, offsets)):
        own = {256: width, 257: height, 258: bits, 259: 1, 262: 1, 277: 1, 339: sample}
        lengths = list(map(len, of_page))
        own |= {322: tile, 323: tile, 324: starts, 325: lengths} if tile else {273: starts, 278: height, 279: lengths}
        if one_directory:
            own = {**own, **(tags or {})}
            size = len(directory(own, 8, 0))
            own[273] = [8 + size]
            written = struct.pack("<2sHI", b"II", 42, 8) + directory(own, 8, 0) + data
            break
        written += directory({**own, **(tags or {})}, len(written), int(number < len(parts) - 1))
    with open(path, "wb") as file:
        file.write(written)
