"""What files of height lines share: which property has the height, and that coordinates are lengths.

Each height's lines bound what is higher than they are; by the even-odd rule a line in a line of its height is a hollow.
"""
from fku.importers.traced import Traced, height_of
from fku.trouble import Trouble

HEIGHTS = ("elev", "elevation", "height", "ele", "z", "alt", "altitude", "contour", "level", "hoehe", "h")
FLAT = 1e-6


def height_property(properties: list[str], wanted: str | None, path: str) -> str | None:
    """Gives the name of the property with the height, or None where none does."""
    if wanted is not None:
        if wanted not in properties:
            raise Trouble(f"{path}: no property is named {wanted}; there are: {', '.join(properties) or 'none'}")
        return wanted
    return next((it for name in HEIGHTS for it in properties if it.lower() == name), None)


class Lines:
    """Takes lines and polygons with their properties into outlines."""

    def __init__(self, path, properties, height, close):
        self.path, self.close, self.properties = path, close, properties
        self.property = height_property(properties, height, path)
        self.traced, self.count = Traced(), 0

    def height(self, properties, points):
        """Gives the height of a line: by its property, else by the third coordinate of its points."""
        if self.property is not None:
            try:
                return float(properties[self.property])
            except (KeyError, TypeError, ValueError):
                raise Trouble(f"{self.path}: line {self.count} has no height in the property {self.property}") from None
        heights = [it[2] for it in points if len(it) > 2]
        if len(heights) < len(points):
            raise Trouble(
                f"{self.path}: no property with the height of lines was found: name it with --height; "
                f"there are: {', '.join(self.properties) or 'none'}"
            )
        return height_of(heights, FLAT)

    def take(self, points, properties, closed=False):
        """Takes a line, or the border of a polygon, which is closed."""
        self.count += 1
        points = [tuple(map(float, it)) for it in points]
        if len(points) < 3:
            self.traced.notes.append(f"line {self.count} has {len(points)} points, and was left out")
            return
        height, what = self.height(properties, points), f"line {self.count}"
        flat = [it[:2] for it in points]
        if height is None:
            self.traced.fault("", f"{what} has points of several heights")
        elif closed or flat[0] == flat[-1]:
            self.traced.add("", height, flat)
        else:
            self.traced.add_line("", height, flat, f"{what}, of height {height:g},", self.close)


def see_lengths(low: tuple, high: tuple, path: str) -> None:
    """Refuses coordinates that are degrees, by their least and greatest x and y."""
    if -180 <= low[0] <= high[0] <= 180 and -90 <= low[1] <= high[1] <= 90:
        raise Trouble(
            f"{path}: its coordinates look like degrees; project them to lengths first, as with "
            "`ogr2ogr -t_srs EPSG:32632 out.shp IN`; if they are lengths, give --length m"
        )
