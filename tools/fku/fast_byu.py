"""Reads a surface of fku by numpy: exactly the texts that `byu.parse_lines` reads, and many times as fast.

All lines of a kind have one length, so a text is a table of signs. It is read column by column, all lines at once.
"""
import numpy

from fku import byu

ROWS = 65536  # of a table that are read at once
HEAD, PART, TWO_POINTS, ONE_POINT, TRIANGLE = 33, 17, 73, 37, 25  # bytes of lines
BLANK, MINUS, ZERO = b" -0"


def digit(column):
    """Gives the digits of a column of signs; a sign that is none gives a number above 9."""
    return column - numpy.uint8(ZERO)


def whole_numbers(columns):
    """Gives the numbers in 8 columns of signs, and whether fku spells all of them so: blanks, perhaps a minus, and
    digits, of which the first is no 0 but for the number 0.
    """
    right = digit(columns[7])  # the digit to the right of a column
    size, good = right.astype(numpy.int32), bool((right <= 9).all())
    negative = numpy.zeros(len(right), dtype=bool)
    for places in range(1, 8):
        column = columns[7 - places]
        here = digit(column)
        is_digit, is_minus = here <= 9, column == MINUS
        zero_is_first = (right == 0) & ~is_digit
        good &= bool((is_digit | is_minus | (column == BLANK)).all())
        good &= not ((right > 9) & (is_digit | is_minus)).any()
        good &= not (zero_is_first & (is_minus | (places > 1))).any()
        size += numpy.where(is_digit, here, 0).astype(numpy.int32) * numpy.int32(10**places)
        negative |= is_minus
        right = here
    return numpy.where(negative, -size, size), good and not (right == 0).any()


def coordinates(columns):
    """Gives the coordinates in 12 columns of signs, and whether fku spells all of them so."""
    digits = [digit(columns[it]) for it in (1, 3, 4, 5, 6, 7)]
    power, negative = digit(columns[11]), columns[0] == MINUS
    good = all((it <= 9).all() for it in digits) and (power <= 5).all()
    good = good and all((columns[at] == sign).all() for at, sign in zip((2, 8, 9, 10), b".E+0"))
    if not good:
        return None, False
    whole = numpy.zeros(len(power), dtype=numpy.int32)
    for it in digits:
        whole = whole * numpy.int32(10) + it
    unit = numpy.array([100000, 10000, 1000, 100, 10, 1], dtype=numpy.int32)[power]
    size = whole // unit
    good = (size * unit == whole).all() and ((power == 0) | (digits[0] > 0)).all()
    good = good and ((negative & (size > 0)) | (columns[0] == BLANK)).all()
    return numpy.where(negative, -size, size), bool(good)


def table(text, start: int, rows: int, length: int, width: int, numbers):
    """Gives the numbers of lines of one length, from a byte on, whose fields have this width: an array for each field;
    None where fku does not spell one so. `numbers` reads the columns of a field.
    """
    found = numpy.empty((length // width, rows), dtype=numpy.int32)
    for at in range(0, rows, ROWS):
        count = min(ROWS, rows - at)
        signs = numpy.frombuffer(text, numpy.uint8, count * length, start + at * length).reshape(count, length).T.copy()
        for field in range(length // width):
            values, good = numbers(signs[field * width : (field + 1) * width])
            if not good:
                return None
            found[field, at : at + count] = values
        if not (signs[-1] == ord("\n")).all():
            return None
    return found


def points_of(text, start, vertices):
    """Gives the points (x, y, z), one in each row, or None."""
    pairs = table(text, start, vertices // 2, TWO_POINTS, 12, coordinates)
    last = table(text, start + vertices // 2 * TWO_POINTS, vertices % 2, ONE_POINT, 12, coordinates)
    if pairs is None or last is None:
        return None
    return numpy.concatenate([pairs.T.reshape(-1, 3), last.T])


def arrays(text: bytes):
    """Gives the points of a text in whole units, int32 of shape n x 3; its triangles, int32 of shape m x 3, places of
    points counted from 0; and how many triangles each part has. None is given where it is not a text of fku.
    """
    try:
        parts, vertices, polygons = byu.read_head(byu.Lines(text[:HEAD]))
        body = HEAD + PART * parts
        sizes = byu.read_sizes(byu.Lines(text[HEAD:body]), parts, polygons)
    except byu.FaultAt:
        return None
    first = body + vertices // 2 * TWO_POINTS + vertices % 2 * ONE_POINT
    if len(text) != first + polygons * TRIANGLE:
        return None
    points = points_of(text, body, vertices)
    corners = table(text, first, polygons, TRIANGLE, 8, whole_numbers)
    if points is None or corners is None:
        return None
    corners[2] *= -1
    if corners.min() < 1 or corners.max() > vertices:
        return None
    return points, corners.T - 1, sizes


def tuples(rows) -> list[tuple[int, ...]]:
    """Gives the rows of an array as tuples."""
    return list(zip(*rows.T.tolist()))


def parse(text: bytes) -> byu.Mesh | None:
    """Gives the mesh of a text; None where it is not a text of fku, whose first fault `byu.parse_lines` finds."""
    found = arrays(text)
    if found is None:
        return None
    points, triangles, sizes = found
    return byu.Mesh(tuples(points), byu.split(tuples(triangles), sizes))
