"""Reads what `fku crossings` prints: which triangles of a surface cross another one of their part. The standard library
is enough.
"""
from dataclasses import dataclass

from fku.faults import see_answer
from fku.trouble import Trouble


@dataclass(frozen=True)
class Crossings:
    """For each triangle that crosses others of its part, counted from 0 through the file, how many these are; and for
    each part, how many pairs of its triangles cross.
    """

    counts: dict[int, int]
    pairs: list[int]


def number(words, *keys):
    """Gives the number that follows these keywords on a line; no sign and no needless 0."""
    *told, last = words
    value = int(last)
    if tuple(told) != keys or str(value) != last or value < 0:
        raise ValueError
    return value


def take_part(lines, after):
    """Gives the counts and the pairs of a part; its triangles come after this one, in order."""
    counts = {}
    for line in lines:
        words = line.split(" ")
        if words[0] == "CROSSINGS":
            pairs = number(words, "CROSSINGS")
            if sum(counts.values()) != 2 * pairs:
                raise ValueError
            return counts, pairs
        polygon = number(words[:2], "CROSS")
        count = number(words[2:])
        if polygon - 1 <= after or count == 0:
            raise ValueError
        after = polygon - 1
        counts[after] = count
    raise StopIteration


def take(lines):
    """Gives the crossings of all parts, one after another."""
    counts, pairs = {}, []
    for part in range(1, number(next(lines).split(" "), "PARTS") + 1):
        if number(next(lines).split(" "), "PART") != part:
            raise ValueError
        of_part, pairs_of_part = take_part(lines, max(counts, default=-1))
        counts.update(of_part)
        pairs.append(pairs_of_part)
    if next(lines, None) is not None:
        raise ValueError
    return Crossings(counts, pairs)


def read(data: bytes, path: str) -> Crossings:
    """Gives the crossings of a text that `fku crossings` printed. A text that is not whole, or in which the numbers of
    a part do not add up to twice its pairs, is a Trouble, and so is a refusal of fku.
    """
    see_answer(data, path, "text of crossings")
    try:
        return take(iter(data.decode("ascii").splitlines()))
    except (ValueError, StopIteration):
        raise Trouble(f"{path}: is not the complete output of `fku crossings`") from None


def see_fits(found: Crossings, sizes: list[int], path: str) -> None:
    """Refuses crossings that are not of a surface whose parts have these numbers of triangles, one after another."""
    triangles = sum(sizes)
    if len(found.pairs) != len(sizes):
        raise Trouble(f"{path}: has {len(found.pairs)} parts, and the surface has {len(sizes)}")
    if max(found.counts, default=-1) >= triangles:
        raise Trouble(f"{path}: names triangle {max(found.counts) + 1}, and the surface has {triangles}")
