"""Height lines in a shapefile, by python3-pyshp: lines and polygons with a column of heights, or with z."""
import os

from fku.importers.heights import Lines, see_lengths
from fku.importers.traced import Traced
from fku.trouble import NOT_READ, Trouble, read_bytes, wanted


def parts_of(shape):
    """Gives the parts of a shape: lists of points, with z where it has that."""
    points = [tuple(it) for it in shape.points]
    if hasattr(shape, "z"):
        points = [(*it, z) for it, z in zip(points, shape.z)]
    starts = list(shape.parts) + [len(points)]
    return [points[low:high] for low, high in zip(starts, starts[1:])]


def length_of(path: str, length: str) -> str:
    """Gives the name of the unit of length, by the file .prj beside a shapefile where none is given."""
    beside = os.path.splitext(path)[0] + ".prj"
    text = read_bytes(beside).decode("utf-8", "replace") if os.path.exists(beside) and not length else ""
    return length or ("m" if text.startswith("PROJCS") and '"met' in text.lower() else "")


def read(path, *, height=None, close=False, length="") -> Traced:
    """Gives the height lines of a shapefile. `height` is the name of the column with the height; `length` is the
    name of the unit of length.
    """
    shapefile = wanted("shapefile", "python3-pyshp", "a shapefile")
    try:
        with shapefile.Reader(path) as file:
            names = [it[0] for it in file.fields if it[0] != "DeletionFlag"]
            lines = Lines(path, names, height, close)
            box, length = tuple(file.bbox), length_of(path, length)
            if not length:
                see_lengths(box[:2], box[2:], path)
            for item in file.iterShapeRecords():
                if item.shape.shapeTypeName.startswith(("POLYLINE", "POLYGON")):
                    for part in parts_of(item.shape):
                        lines.take(part, item.record.as_dict(), item.shape.shapeTypeName.startswith("POLYGON"))
                else:
                    lines.traced.notes.append(f"a shape of kind {item.shape.shapeTypeName} was left out")
    except FileNotFoundError:
        raise Trouble(f"{path}: No such file", NOT_READ) from None
    except (Trouble, MemoryError):
        raise
    except Exception as it:  # shapefile and struct have many of their own
        raise Trouble(f"{path}: not a complete shapefile (.shp, .shx and .dbf): {it}") from None
    lines.traced.length = length
    return lines.traced
