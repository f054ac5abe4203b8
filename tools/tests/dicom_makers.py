"""Makes DICOM structure sets for the tests, byte by byte from the standard (explicit lengths, lowest byte first)."""
import struct

LONG = {"SQ", "OB", "UT", "UN"}  # kinds of values whose length has four bytes
EXPLICIT = "1.2.840.10008.1.2.1"
STRUCTURE_SET = "1.2.840.10008.5.1.4.1.1.481.3"


def element(group, number, kind, value):
    """Gives the bytes of an element; its value is a text, or bytes."""
    data = value.encode("utf-8") if isinstance(value, str) else value
    data += (b"\0" if kind in ("UI", "OB") else b" ") * (len(data) % 2)
    code = "<HH2s2xI" if kind in LONG else "<HH2sH"
    return struct.pack(code, group, number, kind.encode(), len(data)) + data


def sequence(group, number, items):
    """Gives the bytes of a sequence of items."""
    data = b"".join(struct.pack("<HHI", 0xFFFE, 0xE000, len(it)) + it for it in items)
    return element(group, number, "SQ", data)


def contour(points, kind="CLOSED_PLANAR", count=None):
    """Gives the bytes of an outline; points are (x, y, z) in mm."""
    numbers = "\\".join(f"{it:.3f}".rstrip("0").rstrip(".") for point in points for it in point)
    told = element(0x3006, 0x0046, "IS", str(len(points) if count is None else count))
    return element(0x3006, 0x0042, "CS", kind) + told + element(0x3006, 0x0050, "DS", numbers)


def structure_set(structures, modality="RTSTRUCT"):
    """Gives the bytes of a structure set: for each name a list of outlines, as `contour` gives them."""
    named = [
        element(0x3006, 0x0022, "IS", str(number)) + element(0x3006, 0x0026, "LO", name)
        for number, (name, _) in enumerate(structures, 1)
    ]
    traced = [
        (sequence(0x3006, 0x0040, outlines) if outlines else b"") + element(0x3006, 0x0084, "IS", str(number))
        for number, (_, outlines) in enumerate(structures, 1)
    ]
    syntax = element(2, 0x0010, "UI", EXPLICIT)
    meta = element(2, 0x0000, "UL", struct.pack("<I", len(syntax))) + syntax
    head = element(8, 0x0005, "CS", "ISO_IR 192") + element(8, 0x0016, "UI", STRUCTURE_SET)
    body = sequence(0x3006, 0x0020, named) + sequence(0x3006, 0x0039, traced)
    return bytes(128) + b"DICM" + meta + head + element(8, 0x0060, "CS", modality) + body
