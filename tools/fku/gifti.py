"""Writes a mesh as GIFTI (.gii). It needs numpy and nibabel."""
from fku.byu import Mesh
from fku.trouble import wanted


def gii(mesh: Mesh, factor, world: str = "") -> bytes:
    """Gives the bytes of the file: the points, as numbers of 32 bits, and the triangles of all parts. The points are
    said to be in the space of the scanner where their world is known.
    """
    numpy = wanted("numpy", "python3-numpy", "GIFTI")
    wanted("nibabel", "python3-nibabel", "GIFTI")
    from nibabel import gifti

    space = "NIFTI_XFORM_SCANNER_ANAT" if world else "NIFTI_XFORM_UNKNOWN"
    where = gifti.GiftiCoordSystem(space, space, numpy.eye(4))
    points = numpy.array([[float(value * factor) for value in point] for point in mesh.points], dtype=numpy.float32)
    triangles = numpy.array(mesh.triangles(), dtype=numpy.int32)
    meta = gifti.GiftiMetaData({"Name": ", ".join(mesh.names), "GeometricType": "Anatomical"})
    arrays = [
        gifti.GiftiDataArray(points, "NIFTI_INTENT_POINTSET", "NIFTI_TYPE_FLOAT32", coordsys=where, meta=meta),
        gifti.GiftiDataArray(triangles, "NIFTI_INTENT_TRIANGLE", "NIFTI_TYPE_INT32", coordsys=None),
    ]
    return gifti.GiftiImage(darrays=arrays).to_bytes()
