"""Makes files of outlines for the tests, byte by byte from the published formats."""
import io
import math
import struct
import zipfile

HEAD2 = 64  # bytes of the second head of a region


def circle(radius, count=48, x=0.0, y=0.0, turn=1):
    """Gives the points of a circle, clockwise where `turn` is -1."""
    angles = [turn * 2 * math.pi * at / count for at in range(count)]
    return [(x + radius * math.cos(it), y + radius * math.sin(it)) for it in angles]


def roi(kind, points=(), box=None, fine=(), at=(0, 0, 0), name="", group=0, position=0, subtype=0, options=0,
        line=(0, 0, 0, 0), aspect=0.0, shape=(), version=228):  # fmt: skip
    """Gives the bytes of a region of ImageJ: whole points, and fine ones if given; `at` is channel, slice and time."""
    left, top, right, bottom = box or (
        min(x for x, _ in points), min(y for _, y in points), max(x for x, _ in points), max(y for _, y in points)
    )  # fmt: skip
    options |= 128 if fine else 0
    count = len(points)
    head = b"Iout" + struct.pack(">hBx4hH", version, kind, top, left, bottom, right, count)
    head += struct.pack(">4f", *line) + struct.pack(">hi8x2h", 0, len(shape), subtype, options)
    head += struct.pack(">f", aspect) if subtype else bytes(4)
    body = b"".join(struct.pack(">h", x - left) for x, _ in points)
    body += b"".join(struct.pack(">h", y - top) for _, y in points)
    body += b"".join(struct.pack(">f", x) for x, _ in fine) + b"".join(struct.pack(">f", y) for _, y in fine)
    body += struct.pack(f">{len(shape)}f", *shape)
    begin = 64 + len(body)
    second = struct.pack(">4x3i2i4x2xBx", *at, begin + HEAD2 if name else 0, len(name), group)
    second += bytes(HEAD2 - len(second))
    data = head + struct.pack(">2i", position, begin)
    assert len(data) == 64
    return data + body + second + name.encode("utf-16-be")


def old_roi(kind, points):
    """Gives the bytes of a region as old versions wrote it, without a second head."""
    data = roi(kind, points, version=217)
    return data[:56] + bytes(8) + data[64 : 64 + 4 * len(points)]


def roi_zip(regions, packed=True):
    """Gives the bytes of a zip file of regions, by their names."""
    data = io.BytesIO()
    with zipfile.ZipFile(data, "w", zipfile.ZIP_DEFLATED if packed else zipfile.ZIP_STORED) as file:
        for name, region in regions.items():
            file.writestr(zipfile.ZipInfo(f"{name}.roi"), region, file.compression)
    return data.getvalue()


def imod_object(name, contours, flags=0):
    """Gives the bytes of an object of an IMOD model: contours are lists of points (x, y, z), or of them and flags."""
    data = b"OBJT" + name.encode().ljust(64, b"\0") + bytes(64)
    data += struct.pack(">iI2i3fi8B2i", len(contours), flags, 0, 1, 0.0, 1.0, 0.0, 2, *[0] * 8, 0, 0)
    for contour in contours:
        points, bits = contour if isinstance(contour, tuple) else (contour, 0)
        data += b"CONT" + struct.pack(">iI2i", len(points), bits, 0, 0)
        data += b"".join(struct.pack(">3f", *it) for it in points)
    return data


def imod(objects, pixel=1.0, unit=0, scale=1.0, more=b""):
    """Gives the bytes of an IMOD model of such objects, with further pieces behind them."""
    head = b"IMODV1.2" + b"a model".ljust(128, b"\0")
    head += struct.pack(">4i", 512, 512, 100, len(objects)) + struct.pack(">I4i", 1 << 12, 1, 0, 0, 255)
    head += struct.pack(">6f", 0, 0, 0, 1, 1, scale) + struct.pack(">5i", 0, 0, 0, 3, 128)
    head += struct.pack(">fii3f", pixel, unit, 0, 0, 0, 0)
    assert len(head) == 240
    return head + b"".join(objects) + more + b"IEOF"
