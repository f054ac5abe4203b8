"""Where the voxels of a volume are in a section text, in whole units, and where the text is in the source's space.

A text's own axes are at right angles: x runs along the first axis of the volume, and slices are level. So lengths,
areas and volumes in a text are true ones, whatever the volume's axes are. Where these are not at right angles (a shear,
as of a gantry that was tilted), the slices, and the rows in them, are shifted against each other. The rest is a
rotation, which the comments of the text have. It needs numpy.
"""
import math

from fku import tracing
from fku.space import Space
from fku.trouble import Trouble
from fku.volumes import AXES, Volume

LEAST_SHIFT = 0.05  # voxels that a shear moves the last voxel by; less is a rounding of the file's numbers
UPRIGHT, SLANTED = 1, 2  # how near a point may come to a voxel's centre, in units: where rows are shifted, not so near


def rotation_and_steps(matrix):
    """Gives a 3 x 3 matrix as the product of a rotation and of one that has zeros below its diagonal and numbers above
    0 on it (Gram and Schmidt). Numbers that are zeros stay so, so that axes along those of the space stay exact.
    """
    import numpy

    axes, steps = numpy.zeros((3, 3)), numpy.zeros((3, 3))
    for at in range(3):
        rest = matrix[:, at].copy()
        for k in range(at):
            steps[k, at] = axes[:, k] @ matrix[:, at]
            rest -= steps[k, at] * axes[:, k]
        steps[at, at] = math.hypot(*rest.tolist())
        axes[:, at] = rest / steps[at, at]
    return axes, steps


class Grid:
    """The whole places of a volume's voxels. `steps` are how far the centres are apart along x, y and z, in units;
    `shift` is what is taken from all coordinates; `slant` is how far rows are shifted along x for each unit of y, and
    `drift` how far each slice is shifted along x and y, in units: all three are 0 but for a shear.
    """

    def __init__(self, volume: Volume, unit: float, centred: bool):
        import numpy

        self.counts = volume.layers.shape[:0:-1]
        self.volume, self.unit = volume, unit
        self.axes, steps = rotation_and_steps(volume.matrix())
        self.steps = [it / unit for it in steps.diagonal().tolist()]
        over = [[abs(steps[k, j]) * (self.counts[j] - 1) / steps[k, k] for j in range(3)] for k in range(3)]
        if max(over[0][1], over[0][2], over[1][2]) < LEAST_SHIFT:
            steps = numpy.diag(volume.spacing)
            self.steps = [it / unit for it in volume.spacing]
        self.slant, self.drift = float(steps[0, 1] / steps[1, 1]), [float(it) / unit for it in steps[:2, 2]]
        self.margin = SLANTED if self.slant else UPRIGHT
        self.see()
        middle = [math.floor(it / 2) for it in (steps / unit) @ [n - 1 for n in self.counts]]
        self.shift = middle if centred else [0, 0, 0]

    def is_sheared(self) -> bool:
        """Whether the axes of the volume are not at right angles."""
        return bool(self.slant or any(self.drift))

    def see(self) -> None:
        """Refuses a unit that is too large."""
        for axis, step in zip(AXES, self.steps[:2]):
            if step < 2 * self.margin:
                least = 2 * self.margin
                needs = f"and {least} are required: give a smaller --unit"
                raise Trouble(f"voxels are {step:g} units apart along {axis}, {needs}")
        if self.steps[2] < 1:
            raise Trouble(f"slices are {self.steps[2]:g} units apart, and 1 is required: give a smaller --unit")

    def height(self, slice_number: float) -> int:
        """Gives the height of a slice; the number may lie between those of two slices."""
        return math.floor(slice_number * self.steps[2] + 0.5) - self.shift[2]

    def along(self, axis: int, start: int, count: int) -> list[int]:
        """Gives the places along x (0) or y (1) of so many voxels from one on, and of one before and one after, before
        `placed` shifts them.
        """
        return tracing.places(start + count, self.steps[axis])[start:]

    def placed(self, ring, slice_number: float):
        """Gives a ring of a slice where it lies in the text. Each point keeps its row: where rows are shifted, x is
        rounded by half a unit at most, and since points keep a distance of 2 units along x from each edge, none of them
        crosses one.
        """
        x0, y0 = (math.floor(it * slice_number + 0.5) - shift for it, shift in zip(self.drift, self.shift))
        if not self.slant:
            return [(x + x0, y + y0) for x, y in ring]
        return [(x + x0 + math.floor(self.slant * y + 0.5), y + y0) for x, y in ring]

    def space(self) -> Space:
        """Gives the place of the text in the source's space."""
        numbers = []
        for row, first in zip(self.axes.tolist(), self.volume.origin):
            row = [it * self.unit for it in row]
            numbers += [*row, first + sum(it * shift for it, shift in zip(row, self.shift))]
        return Space(tuple(it + 0.0 for it in numbers), self.volume.length, self.volume.world)
