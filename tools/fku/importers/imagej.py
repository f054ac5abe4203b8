"""Regions of ImageJ and Fiji: single files .roi, and the .zip files of the ROI manager. The standard library is enough.

Coordinates count from the middle of the left upper pixel of the first slice, x to the right, y upward, and z from
slice to slice, as `tools/outlines` counts for the same images. ImageJ's own count, which can be asked for, begins at
the outer corner of that pixel, and goes downward in y; with it the slice with the number k, from 1 on, has the height
(k - 1/2) times the distance of slices. The layout is that of ImageJ's RoiDecoder.
"""
import io
import math
import os
import re
import struct
import zipfile
import zlib

from fku.importers.traced import Traced, above_0
from fku.trouble import Trouble, read_bytes

POLYGON, RECTANGLE, OVAL, FREEHAND, TRACED = 0, 1, 2, 7, 8
KINDS = {
    POLYGON: "polygon", RECTANGLE: "rectangle", OVAL: "oval", 3: "straight line", 4: "freehand line",
    5: "segmented line", 6: "no region", FREEHAND: "freehand region", TRACED: "traced region", 9: "angle",
    10: "points",
}  # fmt: skip
OPEN_LINES = (4, 5)
ELLIPSE, ROTATED_RECTANGLE = 3, 5  # subtypes of a freehand region
SPLINE, SUB_PIXEL = 1, 128  # bits of the options
HEAD = 64  # bytes of the first head; coordinates come after it
AUTOMATIC = re.compile(r"(\d{4,})-(\d{4,})-(\d{4,})(-\d+)?$")  # slice, y and x in names that ImageJ gives
WHY = "regions do not say how large a pixel is and how far slices are apart; Image, Properties does"
SHAPE_STEPS = 16  # edges into which a curve of a composite region is parted


class Region:
    """One region: its name, its kind, its rings in pixels, its slice and time, or its image's number in the stack."""

    def __init__(self, data: bytes, name: str, path: str):
        self.data, self.name, self.path = data, name, path
        if data[:4] != b"Iout":
            raise Trouble(f"{path}: {name}: is not a region of ImageJ: it does not begin with Iout")
        self.version, self.kind = self.number(">h", 4), self.number(">B", 6)
        self.top, self.left, self.bottom, self.right = (self.number(">h", at) for at in (8, 10, 12, 14))
        self.subtype, self.options = self.number(">h", 48), self.number(">h", 50)
        self.head2 = self.number(">i", 60)
        self.take_head2()

    def number(self, code, at):
        """Gives the number at a place."""
        return self.numbers(code, at)[0]

    def numbers(self, code, at):
        """Gives the numbers at a place."""
        try:
            return struct.unpack_from(code, self.data, at)
        except struct.error:
            raise Trouble(f"{self.path}: {self.name}: the region ends too soon: the file is damaged") from None

    def take_head2(self):
        """Takes the slice, the time, the group and the name from the second head, and the image from the first."""
        self.image, self.slice, self.time, self.group = self.number(">i", 56), 0, 0, 0
        if self.head2 > 0:
            _, self.slice, self.time, at, size = self.numbers(">5i", self.head2 + 4)
            self.group = self.number(">B", self.head2 + 30)
            if at > 0 and size > 0:
                self.name = self.numbers(f"{2 * size}s", at)[0].decode("utf-16-be", "replace")
        automatic = AUTOMATIC.match(self.name)
        if self.image <= 0:
            self.image = int(automatic[1]) if automatic else 0

    def place(self, channels: int, slices: int | None):
        """Finds the slice and the time by the number of the image in its stack, where the region does not tell them."""
        if self.slice <= 0 < self.image:
            count = (self.image - 1) // channels
            self.slice = count + 1 if slices is None else count % slices + 1
            self.time = self.time or (0 if slices is None else count // slices + 1)

    def is_fine(self, version):
        """Whether the coordinates are more exact than pixels, where the format's version has that."""
        return self.version >= version and bool(self.options & SUB_PIXEL)

    def box(self):
        """Gives left, top, width and height."""
        if self.is_fine(223):
            return self.numbers(">4f", 18)
        return self.left, self.top, self.right - self.left, self.bottom - self.top

    def points(self):
        """Gives the points of a polygon, or of another kind that lists them."""
        count = self.number(">H", 16)
        if self.is_fine(222):
            values = self.numbers(f">{2 * count}f", HEAD + 4 * count)
            return list(zip(values[:count], values[count:]))
        values = self.numbers(f">{2 * count}h", HEAD)
        return [(x + self.left, y + self.top) for x, y in zip(values[:count], values[count:])]

    def rings(self):
        """Gives the rings, or for an open line the points as one ring."""
        size = self.number(">i", 36)
        if size > 0:
            return shape_rings(self.numbers(f">{size}f", HEAD), f"{self.path}: {self.name}")
        x, y, width, height = self.box()
        if self.kind == RECTANGLE:
            return [[(x, y), (x + width, y), (x + width, y + height), (x, y + height)]]
        if self.kind == OVAL:
            return [oval(x + width / 2, y + height / 2, width / 2, height / 2, 0)]
        if self.kind == FREEHAND and self.subtype in (ELLIPSE, ROTATED_RECTANGLE):
            return [self.turned()]
        return [self.points()]

    def turned(self):
        """Gives an ellipse or a rectangle that is turned: its axis, and its breadth, as a part of it or by itself."""
        x0, y0, x1, y1 = self.numbers(">4f", 18)
        breadth = self.number(">f", 52)
        long, angle = math.hypot(x1 - x0, y1 - y0), math.atan2(y1 - y0, x1 - x0)
        if self.subtype == ELLIPSE:
            return oval((x0 + x1) / 2, (y0 + y1) / 2, long / 2, long * breadth / 2, angle)
        dx, dy = -math.sin(angle) * breadth / 2, math.cos(angle) * breadth / 2
        return [(x0 - dx, y0 - dy), (x1 - dx, y1 - dy), (x1 + dx, y1 + dy), (x0 + dx, y0 + dy)]


def oval(x, y, a, b, angle):
    """Gives a polygon of the area of an ellipse with this middle, half axes, and angle of the first axis."""
    count = min(max(24, math.ceil(2 * math.pi * max(a, b))), 360)
    wider = math.sqrt(2 * math.pi / count / math.sin(2 * math.pi / count))
    ring = []
    for at in range(count):
        u, v = wider * a * math.cos(2 * math.pi * at / count), wider * b * math.sin(2 * math.pi * at / count)
        ring.append((x + u * math.cos(angle) - v * math.sin(angle), y + u * math.sin(angle) + v * math.cos(angle)))
    return ring


def curve(corners):
    """Gives points on a Bezier curve after its first one."""
    points = []
    for step in range(1, SHAPE_STEPS + 1):
        part, level = step / SHAPE_STEPS, corners
        while len(level) > 1:
            level = [tuple(p + (q - p) * part for p, q in zip(*it)) for it in zip(level, level[1:])]
        points.append(level[0])
    return points


def shape_rings(values, what):
    """Gives the rings of a composite region: runs of a step's number and its points."""
    rings, at = [], 0
    while at < len(values):
        step = int(values[at]) if values[at] in (0, 1, 2, 3, 4) else -1
        size = (2, 2, 4, 6, 0, -1)[step]
        if size < 0 or at + size >= len(values) + (size == 0) or not rings and step:
            raise Trouble(f"{what}: the composite region is damaged")
        points = list(zip(values[at + 1 : at + 1 + size : 2], values[at + 2 : at + 2 + size : 2]))
        if step == 0:
            rings.append(points)
        elif size:
            rings[-1] += points if step == 1 else curve([rings[-1][-1], *points])
        at += 1 + size
    return [it for it in rings if len(it) > 1]


def is_of_macos(name: str) -> bool:
    """Whether a file in a zip file is one that macOS puts beside another one."""
    return name.startswith("__MACOSX/") or os.path.basename(name).startswith("._")


def regions_of(path: str) -> list[Region]:
    """Gives the regions of a .roi file or of a .zip file of such."""
    data = read_bytes(path)
    if not data.startswith(b"PK"):
        return [Region(data, os.path.basename(path).removesuffix(".roi"), path)]
    try:
        with zipfile.ZipFile(io.BytesIO(data)) as file:
            names = [it for it in file.namelist() if it.lower().endswith(".roi") and not is_of_macos(it)]
            found = [Region(file.read(it), os.path.basename(it)[:-4], path) for it in names]
    except (zipfile.BadZipFile, zlib.error, EOFError, ValueError, OSError, RuntimeError) as it:
        raise Trouble(f"{path}: not a complete zip file: {it}") from None
    if not found:
        raise Trouble(f"{path}: this zip file has no .roi file")
    return found


def object_of(region: Region, by: str) -> str:
    """Gives the name of the object to which a region belongs: by its name, by its group, or one for all."""
    if by == "group":
        return f"group {region.group}"
    if by == "all" or AUTOMATIC.match(region.name):
        return ""
    return re.sub(r"-\d+$", "", region.name)


def see_times(regions: list[Region], time: int | None, path: str) -> list[Region]:
    """Gives the regions at a time; where there are several, the time has to be chosen."""
    times = sorted({it.time for it in regions})
    if time is not None:
        regions = [it for it in regions if it.time in (0, time)]
    elif len([it for it in times if it]) > 1:
        raise Trouble(f"{path}: it has regions at the times {', '.join(map(str, times))}: choose one with --time")
    if not regions:
        raise Trouble(f"{path}: no region is at time {time}")
    return regions


def placed(path: str, stack: list[int] | None, time: int | None) -> list[Region]:
    """Gives the regions of a file that stand at a time, with their slices."""
    regions = regions_of(path)
    for it in regions:
        it.place(*stack or (1, None))
    return see_times(regions, time, path)


def read(
    path, *, pixel=None, spacing=None, length="", close=False, by="name", time=None, stack=None, down=False
) -> Traced:
    """Gives the regions of a file. `pixel` is the pixel size and `spacing` the slice spacing, both in the
    unit of length of this name; a region says neither. `by` says what makes an object: name, group, or all one.
    `stack` has the numbers of channels and slices of a hyperstack whose images are numbered through. With `down`
    coordinates count as ImageJ's do.
    """
    size = above_0(pixel, "pixel" if spacing else "pixel and --spacing", WHY)
    step = above_0(spacing, "spacing", WHY)
    traced, half, sign = Traced(length=length, spacing=step), 0.0 if down else 0.5, 1 if down else -1
    for region in placed(path, stack, time):
        name, what = object_of(region, by), f"the {KINDS.get(region.kind, 'region of an unknown kind')} {region.name}"
        if region.kind not in (POLYGON, RECTANGLE, OVAL, FREEHAND, TRACED, *OPEN_LINES):
            traced.notes.append(f"{what} encloses nothing, and was left out")
            continue
        if region.slice <= 0:
            why = f"{what} has no slice, neither in its position nor in its name"
            traced.fault(name, f"{why}: set its position in the ROI manager (Properties, Position)")
            continue
        if region.options & SPLINE:
            traced.notes.append(f"{what} has a spline through its points, which are joined by straight edges here")
        for ring in region.rings():
            points = [((x - half) * size, sign * (y - half) * size) for x, y in ring]
            height = (region.slice - 0.5 - half) * step
            if region.kind in OPEN_LINES:
                traced.add_line(name, height, points, what, close)
            else:
                traced.add(name, height, points)
    return traced
