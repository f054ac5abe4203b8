"""Models of IMOD (.mod, .fid): objects, contours, size of a pixel, scale of z. The standard library is enough.

Coordinates are the model's times the size of a pixel, z times the model's scale of z too, in the model's unit of
length. IMOD counts x and y from the outer corner of the first pixel, but z from the middle of the first slice; here z
counts from the outer face of the first slice, so half a slice is added. The layout is that of IMOD's binary format.
"""
import struct

from fku.importers.traced import FLAT, Traced, height_of
from fku.trouble import Trouble, read_bytes

OPEN, SCATTERED = 1 << 3, 1 << 9  # bits of an object's flags; a contour has the first one too
UNITS = {0: "pixel", 3: "km", 1: "m", -2: "cm", -3: "mm", -6: "um", -9: "nm", -10: "Angstrom", -12: "pm"}
END = b"IEOF"


class Model:
    """Reads a model from its first byte to its last."""

    def __init__(self, data: bytes, path: str):
        self.data, self.path, self.at = data, path, 0

    def take(self, size):
        """Gives the next bytes."""
        part = self.data[self.at : self.at + size]
        if len(part) < size or size < 0:
            raise Trouble(f"{self.path}: the model ends too soon, at byte {len(self.data)}: the file is damaged")
        self.at += size
        return part

    def numbers(self, code):
        """Gives the next numbers."""
        return struct.unpack(">" + code, self.take(struct.calcsize(">" + code)))

    def text(self, size):
        """Gives the next text, which ends at its first byte of 0."""
        return self.take(size).partition(b"\0")[0].decode("utf-8", "replace").strip()

    def head(self):
        """Reads the head: the number of objects, the scale of z, the size of a pixel, and its unit."""
        if self.data[:4] != b"IMOD":
            raise Trouble(f"{self.path}: is not a model of IMOD: it does not begin with IMOD")
        version = self.take(8)[4:]
        if version not in (b"V1.2", b"V1.1"):
            raise Trouble(f"{self.path}: the model has version {version.decode('latin-1')}; V1.1 and V1.2 can be read")
        self.take(128)
        _, _, _, self.objects = self.numbers("4i")
        self.take(20)
        self.numbers("3f")
        _, _, self.scale = self.numbers("3f")
        self.take(20)
        self.pixel, self.unit = self.numbers("fi")
        self.take(16)
        if not (self.objects >= 0 and self.scale > 0 and self.pixel > 0):
            raise Trouble(f"{self.path}: the head of the model is damaged")

    def pieces(self):
        """Gives the name of each piece after the head, at whose data the reading stands, to its end."""
        while self.at < len(self.data):
            name = self.take(4)
            if name == END:
                return
            yield name
        raise Trouble(f"{self.path}: the model does not end with IEOF: the file is damaged")


class Read:
    """Takes the pieces of a model into outlines."""

    def __init__(self, model: Model, close: bool, pixel, spacing):
        self.model, self.close = model, close
        self.size = pixel or model.pixel
        self.step = spacing or self.size * model.scale
        self.traced = Traced(spacing=self.step)
        self.name, self.flags, self.names, self.contour, self.count = "", 0, set(), 0, 0

    def take_object(self):
        """Takes the head of an object."""
        name = self.model.text(64)
        self.model.take(64)
        _, self.flags = self.model.numbers("iI")
        self.model.take(40)
        self.count += 1
        self.contour = 0
        self.name = name or f"object {self.count}"
        if self.name in self.names:
            self.name = f"{self.name} {self.count}"
        self.names.add(self.name)

    def take_contour(self):
        """Takes a contour."""
        count, flags, _, _ = self.model.numbers("iIii")
        values = self.model.numbers(f"{3 * count}f") if count >= 0 else self.model.take(-1)
        self.contour += 1
        what = f"contour {self.contour} of {self.name}"
        if self.flags & SCATTERED or count < 3:
            if count:
                self.traced.notes.append(f"{what} has {count} points that enclose nothing, and was left out")
            return
        z = height_of(list(values[2::3]), FLAT)
        points = [(x * self.size, y * self.size) for x, y in zip(values[0::3], values[1::3])]
        if z is None:
            low, high = min(values[2::3]), max(values[2::3])
            self.traced.fault(self.name, f"{what} is not in one slice: its z goes from {low:g} to {high:g}")
        elif (self.flags | flags) & OPEN:
            self.traced.add_line(self.name, (z + 0.5) * self.step, points, what, self.close)
        else:
            self.traced.add(self.name, (z + 0.5) * self.step, points)

    def take_mesh(self):
        """Passes over a mesh, which IMOD made of the contours."""
        points, indices, _, _, _ = self.model.numbers("iiIhh")
        self.model.take(12 * points + 4 * indices if points >= 0 and indices >= 0 else -1)

    def all(self):
        """Takes all pieces."""
        taken = {b"OBJT": self.take_object, b"CONT": self.take_contour, b"MESH": self.take_mesh}
        for name in self.model.pieces():
            if name in taken:
                taken[name]()
            else:
                self.model.take(self.model.numbers("i")[0])
        if self.count != self.model.objects:
            found = f"the model has {self.count} objects, and its head says {self.model.objects}"
            raise Trouble(f"{self.model.path}: {found}: the file is damaged")
        return self.traced


def read(path, *, close=False, pixel=None, spacing=None, length="") -> Traced:
    """Gives the contours of a model. Where `pixel`, `spacing` or `length` is given, it is taken for the
    pixel size, the slice spacing, or the name of the unit of length, and not what the model says.
    """
    model = Model(read_bytes(path), path)
    model.head()
    traced = Read(model, close, pixel, spacing).all()
    traced.length = length or UNITS.get(model.unit, "")
    if not traced.objects:
        raise Trouble(f"{path}: this model has no closed contour")
    return traced
