"""Makes the files of examples/traced: a vessel's wall with a stone in it, as four programs would write it.

    cd tools && python3 -m tests.traced_examples ../examples/traced

The wall is round, 12 mm wide and hollow, 8 mm, on ten slices 2 mm apart; its middle moves from slice to slice. The
stone stands on the slices 4 to 6. The four files have the same outlines, but for what their formats round.
"""
import math
import os
import sys

from tests.dicom_makers import contour, structure_set
from tests.outline_makers import circle, imod, imod_object, roi, roi_zip

COUNT, SPACING, PIXEL, POINTS = 10, 2.0, 0.5, 24
WALL, STONE = "vessel wall", "stone"


def rings(number):
    """Gives the name and the rings of each object on a slice, counted from 0, in mm."""
    x, y = 30 + 0.8 * number, 25 + 3 * math.sin(number / 3)
    found = [(WALL, [circle(6, POINTS, x, y), circle(4, POINTS, x, y, -1)])]
    return found + ([(STONE, [circle(2, POINTS, x, y)])] if 4 <= number <= 6 else [])


def table():
    """Gives the table of points."""
    lines = ["object,contour,x (mm),y (mm),z (mm)"]
    for number in range(COUNT):
        for name, found in rings(number):
            for at, ring in enumerate(found, 1):
                lines += [f"{name},{at},{x:.3f},{y:.3f},{number * SPACING:g}" for x, y in ring]
    return ("\n".join(lines) + "\n").encode()


def regions():
    """Gives the zip file of regions of ImageJ: the wall as a composite region, the stone as a fine polygon."""
    found = {}
    for number in range(COUNT):
        for name, given in rings(number):
            # The middle of the first pixel is at (0, 0), and ImageJ counts y downward from 100 mm above it.
            ringed = [[(x / PIXEL + 0.5, (100 - y) / PIXEL + 0.5) for x, y in ring] for ring in given]
            label = f"{number + 1:04d}-{name}"
            common = {"at": (1, number + 1, 1), "name": name, "box": (0, 0, 200, 200)}
            if len(ringed) == 1:
                found[label] = roi(7, [(0, 0)] * POINTS, fine=ringed[0], **common)
            else:
                steps = [[(0 if at == 0 else 1, *it) for at, it in enumerate(ring)] + [(4,)] for ring in ringed]
                found[label] = roi(1, shape=[value for ring in steps for step in ring for value in step], **common)
    return roi_zip(found, packed=False)


def structures():
    """Gives the DICOM structure set: the wall as one outline with a keyhole on each slice."""
    found = {WALL: [], STONE: []}
    for number in range(COUNT):
        for name, given in rings(number):
            points = [point for ring in given for point in (*ring, ring[0])] if len(given) > 1 else given[0]
            found[name].append(contour([(x, y, number * SPACING) for x, y in points]))
    return structure_set(list(found.items()))


def model():
    """Gives the model of IMOD."""
    found = {WALL: [], STONE: []}
    for number in range(COUNT):
        for name, given in rings(number):
            found[name] += [[(x / PIXEL, y / PIXEL, number) for x, y in ring] for ring in given]
    objects = [imod_object(name, contours) for name, contours in found.items()]
    return imod(objects, pixel=PIXEL, unit=-3, scale=SPACING / PIXEL)


FILES = {"vessel.csv": table, "vessel.zip": regions, "vessel.dcm": structures, "vessel.mod": model}


def main():
    """Writes the files into a folder."""
    for name, make in FILES.items():
        with open(os.path.join(sys.argv[1], name), "wb") as file:
            file.write(make())


if __name__ == "__main__":
    main()
