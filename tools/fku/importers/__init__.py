"""Reads outlines that were traced in other programs. Each kind of file has a module here with one function

    read(path, **options) -> Traced

and a line in `KINDS`. `fku.importers.read` finds the kind by the first bytes, else by the name.
"""
import importlib
import inspect
from dataclasses import dataclass

from fku.importers.traced import Traced
from fku.trouble import Trouble, read_bytes

FRONT = 4096  # bytes by which a kind is known


@dataclass(frozen=True)
class Kind:
    """A kind of file: its module here, what it is in words, the suffixes of its files, and the packages it needs."""

    module: str
    words: str
    suffixes: tuple[str, ...]
    packages: tuple[str, ...] = ()


KINDS = {
    "table": Kind("table", "a table of points", (".csv", ".tsv", ".txt", ".pts")),
    "imagej": Kind("imagej", "regions of ImageJ or Fiji", (".roi", ".zip")),
    "dicom": Kind("rtstruct", "a DICOM structure set", (".dcm",), ("pydicom",)),
    "imod": Kind("imod", "a model of IMOD", (".mod", ".fid")),
    "reconstruct": Kind("reconstruct", "a series of Reconstruct", (".ser",)),
    "svg": Kind("svg", "a drawing in SVG", (".svg",), ("svgelements",)),
    "geojson": Kind("geojson", "height lines in GeoJSON", (".geojson", ".json")),
    "shapefile": Kind("shapefile_lines", "height lines in a shapefile", (".shp",), ("shapefile",)),
}


MARKS = ((b"IMOD", "imod"), (b"Iout", "imagej"), (b"PK", "imagej"), (b"\0\0\x27\x0a", "shapefile"))
XML = ((b"<svg", "svg"), (b"<Series", "reconstruct"), (b"<Section", "reconstruct"))


def by_bytes(front: bytes) -> str | None:
    """Gives the kind of a file that begins with these bytes, where they show it."""
    if front[128:132] == b"DICM":
        return "dicom"
    for mark, kind in MARKS:
        if front.startswith(mark):
            return kind
    plain = front.lstrip(b"\xef\xbb\xbf \t\r\n")
    if plain.startswith(b"<"):
        return next((kind for mark, kind in XML if mark in plain), None)
    return "geojson" if plain.startswith(b"{") else None


def kind_of(path: str) -> str:
    """Gives the kind of a file."""
    if path == "-":
        raise Trouble(f"give --from, the kind of the standard input, one of: {', '.join(KINDS)}")
    front = read_bytes(path, FRONT)
    if not front:
        raise Trouble(f"{path}: is empty")
    by_name = [it for it, kind in KINDS.items() if path.lower().endswith(kind.suffixes)]
    kind = by_bytes(front) or (by_name[0] if by_name else "")
    if kind:
        return kind
    if b"\0" not in front:
        return "table"
    kinds = ", ".join(KINDS)
    hint = f"give its kind with --from, one of {kinds}; for volumes and images use tools/outlines"
    raise Trouble(f"{path}: is of an unknown kind: {hint}")


def read(path: str, kind: str | None = None, **options) -> Traced:
    """Gives the outlines of a file. Options that are None or False count as not given; Trouble says which of those that
    are given have no meaning for this kind of file.
    """
    kind = kind or kind_of(path)
    reader = importlib.import_module(f"fku.importers.{KINDS[kind].module}").read
    given = {name: value for name, value in options.items() if value not in (None, False, "")}
    useless = [f"--{it}" for it in given if it not in inspect.signature(reader).parameters]
    if useless:
        raise Trouble(f"{path}: {' and '.join(useless)} cannot be used with {KINDS[kind].words}")
    traced = reader(path, **given)
    if not any(traced.objects.values()) and not traced.faults:
        raise Trouble("\n".join([f"{path}: this file has no closed outline", *traced.notes]))
    return traced
