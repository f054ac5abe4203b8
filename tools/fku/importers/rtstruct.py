"""Structure sets of DICOM (RTSTRUCT), by python3-pydicom: coordinates of the patient in mm, to the left, back and top.

A structure may have several outlines in a plane: one inside another is a hole, as are what keyholes leave out and, of
kind CLOSEDPLANAR_XOR, what an even number of outlines enclose; the even-odd rule has all of it.
"""
import io
import warnings

from fku.importers.traced import Traced, height_of
from fku.trouble import Trouble, read_bytes, wanted

CLOSED = ("CLOSED_PLANAR", "CLOSEDPLANAR_XOR")
OPEN = ("OPEN_PLANAR",)
FLAT = 0.01  # mm by which points of one outline may differ in height


def loaded(path: str):
    """Gives the data set of a file, where it is a structure set; the mark at a DICOM file's front may be missing."""
    pydicom = wanted("pydicom", "python3-pydicom", "a DICOM structure set")
    try:
        bytes_of_file = read_bytes(path)
        data = pydicom.dcmread(io.BytesIO(bytes_of_file), force=bytes_of_file[128:132] != b"DICM")
        kind = str(data.get("Modality", None) or "")
        structures = len(data.get("ROIContourSequence", [])) and len(data.get("StructureSetROISequence", []))
    except (Trouble, MemoryError):
        raise
    except Exception as it:  # pydicom has many of its own
        raise Trouble(f"{path}: not a complete DICOM file: {it}") from None
    if not kind:
        raise Trouble(f"{path}: not a complete DICOM file: it does not say what it is")
    if kind != "RTSTRUCT":
        raise Trouble(f"{path}: this DICOM file is of kind {kind}, not a structure set (RTSTRUCT)")
    if not structures:
        raise Trouble(f"{path}: this structure set has no outlines")
    return data


def names_of(data) -> dict[int, str]:
    """Gives the names of structures by their numbers, each once."""
    names = {}
    for it in data.StructureSetROISequence:
        number = int(it.ROINumber)
        name = str(it.get("ROIName", "") or "").strip() or f"ROI {number}"
        names[number] = f"{name} {number}" if name in names.values() else name
    return names


def plane_text(points) -> str:
    """Gives the words for the plane in which points lie."""
    for axis, word in enumerate(("sagittal", "coronal")):
        values = [it[axis] for it in points]
        if max(values) - min(values) <= FLAT:
            return f"in a {word} plane"
    z = [it[2] for it in points]
    return f"in a plane that is not axial: its z goes from {min(z):g} to {max(z):g} mm"


def take_contour(traced, name, number, item, close):
    """Takes one outline of a structure."""
    what, kind = f"outline {number} of {name}", str(item.get("ContourGeometricType", ""))
    values = [float(it) for it in item.get("ContourData", None) or []]
    points = list(zip(values[0::3], values[1::3], values[2::3]))
    told = int(item.get("NumberOfContourPoints", None) or len(points))
    if len(values) % 3 or told != len(points):
        traced.fault(name, f"{what} is damaged: it has {len(values)} numbers, and says {told} points")
    elif kind not in (*CLOSED, *OPEN) or len(points) < 3:
        traced.notes.append(f"{what} ({kind}, {len(points)} points) encloses nothing, and was left out")
    elif height_of([z for _, _, z in points], FLAT) is None:
        traced.fault(name, f"{what} lies {plane_text(points)}; only slices of constant z can be used")
    elif kind in OPEN:
        traced.add_line(name, points[0][2], [(x, y) for x, y, _ in points], what, close)
    else:
        traced.add(name, points[0][2], [(x, y) for x, y, _ in points])


def read(path, *, close=False, spacing=None) -> Traced:
    """Gives the outlines of a structure set. `spacing` is the slice spacing, for a structure in one plane."""
    with warnings.catch_warnings():
        warnings.simplefilter("ignore")  # pydicom's, on values that are unusual, but can be read
        return traced_of(loaded(path), path, Traced(length="mm", world="LPS", spacing=spacing), close)


def traced_of(data, path, traced, close) -> Traced:
    """Adds the outlines of a data set."""
    try:
        names = names_of(data)
        for structure in data.ROIContourSequence:
            number = int(structure.ReferencedROINumber)
            name = names.get(number, f"ROI {number}")
            for at, item in enumerate(structure.get("ContourSequence", None) or [], 1):
                take_contour(traced, name, at, item, close)
    except (AttributeError, ValueError, TypeError, EOFError, NotImplementedError) as it:
        raise Trouble(f"{path}: the structure set is damaged: {it}") from None
    full = {int(it.ReferencedROINumber) for it in data.ROIContourSequence if it.get("ContourSequence", None)}
    traced.notes += [f"{name} has no outlines" for number, name in names.items() if number not in full]
    if not traced.objects:
        raise Trouble(f"{path}: this structure set has no closed outline")
    return traced
