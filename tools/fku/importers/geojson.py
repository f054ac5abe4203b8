"""Height lines in GeoJSON: lines and polygons with a property with their height, or with three coordinates.

The standard library is enough.
"""
import json

from fku.importers.heights import Lines, see_lengths
from fku.importers.traced import Traced
from fku.trouble import Trouble, read_bytes


def lines_of(geometry) -> list[tuple[list, bool]]:
    """Gives the lines of a geometry, and whether each is the border of a polygon."""
    kind, places = geometry["type"], geometry.get("coordinates", [])
    if kind == "LineString":
        return [(places, False)]
    if kind == "MultiLineString":
        return [(it, False) for it in places]
    if kind == "Polygon":
        return [(it, True) for it in places]
    if kind == "MultiPolygon":
        return [(it, True) for polygon in places for it in polygon]
    if kind == "GeometryCollection":
        return [line for it in geometry["geometries"] for line in lines_of(it)]
    return []


def features_of(data) -> list[tuple[dict, dict]]:
    """Gives the geometries and properties of a file."""
    if data["type"] == "FeatureCollection":
        return [it for feature in data["features"] for it in features_of(feature)]
    if data["type"] == "Feature":
        return [(data["geometry"], data.get("properties") or {})] if data["geometry"] else []
    return [(data, {})]


def read(path, *, height=None, close=False, length="") -> Traced:
    """Gives the height lines of a file. `height` is the name of the property with the height; `length` is the
    name of the unit of length.
    """
    try:
        features = features_of(json.loads(read_bytes(path)))
        found = [(line, closed, it) for geometry, it in features for line, closed in lines_of(geometry)]
        names = list(dict.fromkeys(name for _, _, it in found for name in it))
        lines = Lines(path, names, height, close)
        for line, closed, properties in found:
            lines.take(line, properties, closed)
        points = [it for line, _, _ in found for it in line]
        if points and not length:
            see_lengths(*(tuple(f(it[axis] for it in points) for axis in (0, 1)) for f in (min, max)), path)
    except (ValueError, KeyError, TypeError, IndexError, AttributeError, RecursionError) as it:
        raise Trouble(f"{path}: not a complete GeoJSON file: {type(it).__name__} {it}") from None
    lines.traced.length = length
    return lines.traced
