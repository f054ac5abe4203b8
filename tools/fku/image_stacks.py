"""Stacks of images, PNG or TIFF: their dots, and where ImageJ or OME say it, how far these are apart.

A stack has several files in their order, or one file of several pages. It needs numpy and Pillow.
"""
import glob
import math
import os
import re
import xml.etree.ElementTree
from dataclasses import dataclass

from fku.progress import Progress
from fku.raw_volumes import length_name
from fku.trouble import NOT_READ, Trouble, wanted

IMAGES = (".png", ".tif", ".tiff")
GREY = {"1", "L", "P", "I", "F", "I;16", "I;16B", "I;16L"}
COLOURS = {"RGB": 3, "RGBA": 3, "LA": 1}  # how many channels they have, without how dense they are
BITS, COMPRESSION, PHOTOMETRIC, DESCRIPTION, ORIENTATION, OFFSETS, SAMPLES_A_DOT, X_DOTS, Y_DOTS, SAMPLES, DEPTH = (
    258, 259, 262, 270, 274, 273, 277, 282, 283, 339, 32997,
)  # fmt: skip
UNSIGNED, NOT_COMPRESSED, WHITE_IS_ZERO = 1, 1, 0  # values of SAMPLES, COMPRESSION and PHOTOMETRIC


@dataclass
class Stack:
    """Values[layer, z, y, x], y from the top of an image; the spacing (x, y, z), nan where it is not known, its unit of
    length, what it is called, and whether its layers are red, green and blue.
    """

    layers: object
    spacing: tuple[float, float, float]
    length: str
    note: str
    colours: bool


@dataclass
class Told:
    """What the description of a TIFF file says: how many channels, slices and times it has, which of these go on from
    page to page, the fastest one first, the spacing along z, and the unit of length; for OME the spacing along x and y.
    """

    channels: int = 1
    slices: int = 0  # as many as there are pages
    times: int = 1
    order: str = "CZT"
    depth: float = math.nan
    unit: str = ""
    apart: tuple[float, float] | None = None


def is_stack(paths: list[str]) -> bool:
    """Whether the words name images, or a folder of them."""
    return paths[0].lower().endswith(IMAGES) or os.path.isdir(paths[0])


def number_parts(name):
    """Gives a name with its runs of digits as numbers, so that slice10 comes after slice9."""
    return [int(it) if it.isdigit() else it for it in re.split(r"(\d+)", name)]


def image_files(paths: list[str]) -> list[str]:
    """Gives the image files that words name; a folder stands for the images in it, by the numbers in their names."""
    files = []
    for path in paths:
        if os.path.isdir(path):
            inside = [it for it in glob.glob(f"{glob.escape(path)}/*") if it.lower().endswith(IMAGES)]
            if not inside:
                raise Trouble(f"{path}: this folder has no image ({', '.join(IMAGES)})")
            files += sorted(inside, key=number_parts)
        else:
            files.append(path)
    return files


def imagej_told(text: str) -> Told:
    """Gives what a description by ImageJ says. It leaves out a spacing of 1."""
    said = dict(line.split("=", 1) for line in text.splitlines() if "=" in line)
    unit = re.sub(r"\\u([0-9A-Fa-f]{4})", lambda it: chr(int(it[1], 16)), said.get("unit", "")).strip()
    known = unit.lower() not in ("", "pixel", "pixels", "inch")
    channels, slices, times, pages = (int(said.get(it, "1")) for it in ("channels", "slices", "frames", "images"))
    if channels * slices * times != pages:
        channels, slices, times = 1, pages, 1
    depth = float(said.get("spacing", "1" if slices > 1 else "nan"))
    return Told(channels, slices, times, "CZT", abs(depth), length_name(unit) if known else "")


def ome_told(text: str, path: str) -> Told:
    """Gives what a description by OME says."""
    root = xml.etree.ElementTree.fromstring(text)
    found = [it for it in root.iter() if it.tag.rpartition("}")[2] == "Pixels"]
    if len(found) != 1:
        raise Trouble(f"{path}: has {len(found)} images of OME; save the one to trace by itself")
    said = found[0].attrib
    units = {said.get(f"PhysicalSize{it}Unit", "\u00b5m") for it in "XYZ" if f"PhysicalSize{it}" in said}
    x, y, z = (float(said.get(f"PhysicalSize{it}", "nan")) for it in "XYZ")
    if len(units) != 1:
        x = y = z = math.nan
    channels, slices, times = (int(said.get(f"Size{it}", "1")) for it in "CZT")
    order = said.get("DimensionOrder", "XYCZT")[2:]
    return Told(channels, slices, times, order, z, length_name(units.pop()) if len(units) == 1 else "", (x, y))


def told_by(tags, path: str) -> Told:
    """Gives what the tags of a TIFF page tell of the whole file."""
    text = str(tags.get(DESCRIPTION, ""))
    try:
        if text.startswith("ImageJ="):
            return imagej_told(text)
        if text.lstrip("\ufeff \n").startswith("<?xml") and "OME" in text:
            return ome_told(text, path)
    except (ValueError, xml.etree.ElementTree.ParseError) as it:
        raise Trouble(f"{path}: its description cannot be used: {it}") from None
    return Told()


def step_of(dots) -> float:
    """Gives how far two dots are apart, of how many there are in a unit. ImageJ rounds that to a millionth: where six
    digits say the same, these are given.
    """
    count, over = getattr(dots, "numerator", dots), getattr(dots, "denominator", 1)
    if not count or not over:
        return math.nan
    exact = over / count
    short = float(f"{exact:.6g}")
    return short if abs(count) > 1 and abs(short / exact - 1) <= 1 / abs(count) else exact


def spacing_of(told: Told, tags) -> tuple[float, float, float]:
    """Gives the spacing (x, y, z), nan where it is not known."""
    if told.apart:
        return (*told.apart, told.depth)
    if not told.unit or X_DOTS not in tags or Y_DOTS not in tags:
        return (math.nan,) * 3
    return step_of(tags[X_DOTS]), step_of(tags[Y_DOTS]), told.depth


def see_tags(tags, path):
    """Refuses a TIFF page that has its dots in another order than they are read in."""
    if tags.get(ORIENTATION, 1) != 1:
        raise Trouble(f"{path}: its pages are turned (orientation {tags[ORIENTATION]}): save them upright first")
    if tags.get(DEPTH, 1) != 1:
        raise Trouble(f"{path}: has several slices in a page: save a page for each slice")


def channels_of(image, path):
    """Gives the values[channel, y, x] of a page; how dense colours are is left out."""
    numpy = wanted("numpy", "python3-numpy", "an image")
    values = numpy.array(image)
    if image.mode in GREY:
        return values[None]
    if image.mode not in COLOURS:
        raise Trouble(f"{path}: has colours ({image.mode}): convert it to grey values or labels first")
    return numpy.moveaxis(values, -1, 0)[: COLOURS[image.mode]]


def as_stored(channels, tags):
    """Gives the values of a TIFF page as they are stored, where Pillow has made other ones of them."""
    numpy = wanted("numpy", "python3-numpy", "an image")
    sample = tags.get(SAMPLES, (UNSIGNED,))
    if channels.dtype == numpy.int32 and tuple(tags.get(BITS, ())) == (32,) and sample[0] == UNSIGNED:
        return channels.view(numpy.uint32)
    if tags.get(PHOTOMETRIC) == WHITE_IS_ZERO and channels.dtype == numpy.uint8:
        return 255 - channels
    if tags.get(PHOTOMETRIC) == WHITE_IS_ZERO and channels.dtype == bool:
        return ~channels
    return channels


def pages_behind(path, tags, told, first):
    """Gives the pages of a file by ImageJ that has one directory alone: they follow one another from its first dot on.
    """
    numpy = wanted("numpy", "python3-numpy", "an image")
    wants = told.channels * max(told.slices, 1) * told.times
    trouble = Trouble(f"{path}: its description says {wants} images, and it has one")
    letter, bits = {1: "u", 2: "i", 3: "f"}.get(tags.get(SAMPLES, (UNSIGNED,))[0]), tags.get(BITS, (1,))[0]
    if tags.get(COMPRESSION) != NOT_COMPRESSED or tags.get(SAMPLES_A_DOT, 1) != 1 or not letter or bits % 8:
        raise trouble
    start, length = min(tags[OFFSETS]), wants * first.size * bits // 8
    with open(path, "rb") as file:
        head = file.read(8)
        order = ">" if head.startswith(b"MM") else "<"
        file.seek(start)
        data = file.read(length)
    directory = int.from_bytes(head[4:], "big" if order == ">" else "little")
    if len(data) < length or start <= directory < start + length:
        raise trouble
    pages = numpy.frombuffer(data, dtype=f"{order}{letter}{bits // 8}").reshape(wants, 1, *first.shape)
    if not (pages[0, 0] == first).all():
        raise trouble
    return list(pages)


def read_pages(path):
    """Gives the pages of a file, values[channel, y, x] each, the tags of the first one, and what its description says.
    """
    pictures = wanted("PIL.Image", "python3-pil", "an image")
    pages, told, first = [], Told(), {}
    with pictures.open(path) as image:
        count = getattr(image, "n_frames", 1)
        for page in Progress("pages", count).over(range(count)):
            image.seek(page)
            tags = dict(getattr(image, "tag_v2", {}))
            see_tags(tags, path)
            pages.append(as_stored(channels_of(image, path), tags))
            if page == 0:
                told, first = told_by(tags, path), tags
    if len(pages) == 1 and told.channels * max(told.slices, 1) * told.times > len(pages[0]):
        pages = pages_behind(path, first, told, pages[0][0])
    return pages, first, told


def slices_of(pages, told, path):
    """Gives the slices of a file, values[layer, y, x] each: its pages, or where these go on by channels and times too,
    all pages of a slice.
    """
    numpy = wanted("numpy", "python3-numpy", "an image")
    counts = {"C": told.channels // len(pages[0]) or 1, "Z": told.slices or len(pages), "T": told.times}
    if math.prod(counts.values()) != len(pages):
        raise Trouble(
            f"{path}: its description says {told.channels} channels, {counts['Z']} slices and {counts['T']} times, "
            f"and it has {len(pages)} pages"
        )
    slow_first = told.order[::-1]
    numbers = numpy.arange(len(pages)).reshape([counts[it] for it in slow_first])
    of_slices = numpy.moveaxis(numbers, [slow_first.index(it) for it in "ZTC"], [0, 1, 2])
    return [numpy.concatenate([pages[it] for it in of_slice.ravel()]) for of_slice in of_slices]


def read_file(path):
    """Gives the slices of a file, values[layer, y, x] each, their spacing, its unit of length, and whether it has
    colours.
    """
    try:
        pages, tags, told = read_pages(path)
        return slices_of(pages, told, path), spacing_of(told, tags), told.unit, len(pages[0]) == 3
    except FileNotFoundError:
        raise Trouble(f"{path}: No such file", NOT_READ) from None
    except (Trouble, MemoryError):
        raise
    except Exception as it:  # Pillow has many of its own
        raise Trouble(f"{path}: not a complete image: {it}") from None


def grey(layers):
    """Gives values[layer, z, y, x]; where red, green and blue are the same, one of them alone."""
    same = layers.shape[0] == 3 and (layers[0] == layers[1]).all() and (layers[0] == layers[2]).all()
    return layers[:1] if same else layers


def read(paths: list[str]) -> Stack:
    """Gives the stack of image files, or of a folder of them; its spacing is that of the first file."""
    numpy = wanted("numpy", "python3-numpy", "a stack of images")
    files = image_files(paths)
    slices, spacing, length, colours = read_file(files[0])
    for path in Progress("images", len(files) - 1).over(files[1:]):
        for page in read_file(path)[0]:
            if page.shape != slices[0].shape:
                what = "size" if page.shape[1:] != slices[0].shape[1:] else "number of channels"
                raise Trouble(f"{path}: its {what} differs from that of {files[0]}")
            slices.append(page)
    if any(it.shape != slices[0].shape for it in slices):
        raise Trouble(f"{files[0]}: its pages differ in size")
    note = os.path.basename(files[0]) + (f" to {os.path.basename(files[-1])}" if len(files) > 1 else "")
    layers = grey(numpy.stack(slices, axis=1))
    return Stack(layers, spacing, length, note, colours and len(layers) == 3)
