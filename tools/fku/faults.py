"""The refusals of fku, in plain words: what each means, and what to change. The standard library is enough."""
import re
from dataclasses import dataclass

from fku.trouble import Trouble

FRONT = b"REFUSED "
USAGE = b"USAGE fku "


@dataclass(frozen=True)
class Kind:
    """One kind of refusal: its words in the line of a refusal, what it means, and what to change."""

    words: str
    meaning: str
    remedy: str


KINDS = {
    1: Kind(
        "FORM", "a line of the section text cannot be read at its place",
        "see which lines may stand there, and write one of them",
    ),
    2: Kind(
        "RANGE", "a number is out of its range",
        "take a larger unit, or count coordinates from a point near the outlines; weights are from 0 to 1000, and not "
        "both 0",
    ),
    3: Kind(
        "NAME TWICE", "two contours of the text, or two objects, have one name",
        "give each contour of the whole text a name of its own, and each object",
    ),
    4: Kind(
        "HEIGHT NOT RISING", "a section is not above the one before it in its object",
        "sort the sections by height, and put all contours of one height into one section",
    ),
    5: Kind("LIMIT", "the input exceeds a limit", "take less of it"),
    6: Kind("END MISSING", "the text ends without a line END", "write END as the last line, if the file is whole"),
    7: Kind(
        "NO CONTOURS", "there is no object, or one of the objects has no contour",
        "give each object a contour, or leave the object out",
    ),
    8: Kind(
        "SELF CROSSING", "an outline crosses or touches itself",
        "move its points apart where the two edges meet; leave out points that repeat others, also the last one where "
        "it repeats the first; or take a smaller unit, where rounding has moved points onto others",
    ),
    9: Kind(
        "CROSSING", "two outlines of one slice cross or touch",
        "move them apart where their edges meet, make them one outline where they belong together, or put them into "
        "different objects where they may overlap",
    ),
    10: Kind("LINK", "a link does not join two outlines that can be joined", "correct the link, or take it out"),
    11: Kind(
        "COMPOSITE LIMIT", "outlines of a slice that belong together have too many vertices; each bridge adds two",
        "thin their outlines, or keep apart what does not belong together: by objects, or by links",
    ),
    12: Kind("CERT FORM", "what follows END is not a certificate", "put the whole output of `certify` after END"),
    13: Kind("EDIT FORM", "a line is not an edit", "see the edit lines in docs/formats.md"),
    14: Kind("NO CONTOUR", "no contour has this name", "see the names in the section text"),
    15: Kind("NO VERTEX", "the contour has no such vertex", "count vertices from 0, in file order"),
    16: Kind("TOO FEW", "fewer than three vertices would be left", "drop the whole contour, or keep the vertex"),
    17: Kind(
        "HEIGHT OUTSIDE", "the height lies below the first section or above the last one, in each object",
        "take a height between two sections",
    ),
    18: Kind(
        "HEIGHT ON SECTION", "a section of some object has this height, where caps lie and no loop is defined",
        "take a height strictly between two neighbouring sections",
    ),
    19: Kind("NO SECTION", "no section has this height", "see the heights in the section text"),
    20: Kind("NO PAIR", "there are fewer pairs than this number", "count pairs from 1, as `tilings` prints them"),
    21: Kind("ONE OBJECT", "the text has several objects, and the command takes one", "give it the objects one by one"),
    22: Kind(
        "MARK FORM", "a line after END is not a mark",
        "write `MARK k r c`, with the pair from 1, the row and the column from 0",
    ),
    23: Kind("NO SPAN", "the pair has no such row or no such column", "count vertices from 0, as each ring runs"),
    24: Kind("MARK REPEATED", "two marks of a pair share a row or a column", "take one of them out"),
    25: Kind("MARKS CROSS", "no tiling contains all marks of the pair, since some cross", "take one of them out"),
    26: Kind(
        "CAP LIMIT", "an outline and the holes that end with it have too many vertices; each hole adds two",
        "thin the outlines of that slice, or take caps without holes (`reconstruct` in place of `ringcaps`)",
    ),
    27: Kind(
        "BYU FORM", "the text is not a surface that fku wrote", "give the whole output of `reconstruct`, byte for byte",
    ),
    28: Kind(
        "MID", "a rounded section between two others has a fault, such as an outline that crosses itself",
        "take a smaller unit, so that less is rounded; or rename contours such as m1",
    ),
}

LIMIT_REMEDIES = {
    "bytes": "thin the outlines, or divide the text into several",
    "objects": "divide the text into several",
    "sections": "take every second slice, or divide the text into several",
    "contours": "leave small outlines out, or divide the text into several",
    "vertices": "thin the outlines, or divide the text into several",
    "section_vertices": "thin the outlines of that slice, or leave its small ones out",
    "contour_vertices": "thin the outline where it has too many points; it needs three at least",
    "links": "take links out, or let overlaps decide (`PAIR overlap`)",
    "edits": "apply the edits in several calls",
}

LINK_REMEDIES = {
    "UNKNOWN": "one of the two names is of no outline of this object: correct it; links join outlines of one object",
    "NOT NEIGHBOURS": "the second outline must be in the slice next above that of the first",
    "DEPTH DIFFERS": "one of the two is a hole and the other none: link holes with holes, and others with others",
    "REPEATED": "take one of the two links out",
}

LINE = re.compile(r"REFUSED (\d+) (.*)")
AT_LINE = re.compile(r"(?:(\w+) )?line (\d+)")


@dataclass(frozen=True)
class Refusal:
    """The line of a refusal, taken apart.

    `number` and `kind` are the refusal's number and words, such as 8 and `SELF CROSSING`; `words` are those after them;
    `line` is the line of the input that it names, or 0; `limit` the limit that it names, `cause` the fault of a link,
    and `names` the contours that it names, each empty where it names none.
    """

    text: str
    number: int
    kind: str
    words: tuple[str, ...]
    line: int = 0
    limit: str = ""
    cause: str = ""
    names: tuple[str, ...] = ()

    def meaning(self) -> str:
        """Gives what is wrong, in plain words."""
        return KINDS[self.number].meaning if self.number in KINDS else "the input was refused"

    def remedy(self) -> str:
        """Gives what to change, in plain words."""
        if self.limit in LIMIT_REMEDIES:
            return LIMIT_REMEDIES[self.limit]
        if self.cause in LINK_REMEDIES:
            return LINK_REMEDIES[self.cause]
        return KINDS[self.number].remedy if self.number in KINDS else "see docs/formats.md"


def names_in(number: int, words: list[str]) -> tuple[str, ...]:
    """Gives the names of contours among the words of a refusal."""
    if number in (8, 14, 15, 16):
        return tuple(words[:1])
    return tuple(words[:2]) if number in (9, 10) else ()


def parse(line: bytes) -> Refusal:
    """Takes the line of a refusal apart; Trouble says that it is not one."""
    text = line.decode("ascii", "replace").strip()
    match = LINE.fullmatch(text)
    if not match:
        raise Trouble(f"{text or 'nothing'}: not a refusal of fku")
    number, rest = int(match[1]), match[2]
    kind = KINDS[number].words if number in KINDS else rest
    words = rest[len(kind) :].split()
    at = AT_LINE.search(rest)
    return Refusal(
        text, number, kind, tuple(words), line=int(at[2]) if at else 0,
        limit=words[0] if number == 5 and words else "", cause=" ".join(words[2:]) if number == 10 else "",
        names=names_in(number, words),
    )  # fmt: skip


def see_answer(data: bytes, path: str, what: str) -> None:
    """Refuses a file that has the line of a refusal or of the usage in place of what a command writes."""
    line = data[:1000].partition(b"\n")[0]
    if line.startswith(FRONT):
        it = parse(line)
        raise Trouble(
            f"{path}: is not a {what}: fku refused its input: {it.text}: {it.meaning()}. "
            "`tools/explain FILE` shows the fault in that input and what to change"
        )
    if line.startswith(USAGE):
        raise Trouble(f"{path}: is not a {what}: fku did not know the words of its call, and printed its usage")


class FkuError(Exception):
    """What the calls of the package `fku` raise: the program refused the outlines, or they cannot be given to it.

    The message says all of it in plain words. `refusal` is the program's line, such as `REFUSED 8 SELF CROSSING c1 0
    2`, or empty where it did not refuse; `number` and `kind` are those of the refusal, such as 8 and `SELF CROSSING`,
    or 0 and a word for a fault that was found before the program ran: `INPUT` (not arrays of such a shape), `RANGE`,
    `HEIGHT`, `TOO FEW`, `NO CONTOURS`, `NO PROGRAM`, `ENDED`. `object` is the name of the object, `z` the height of the
    slice in the unit of the rings given, each empty or None where no single one is at fault; `keys` are the outlines at
    fault, as (object, z, ring), and `key` the first of them, or None; `edges` two edges that meet, each two points (x,
    y) in the unit of the rings; `hint` what to change.
    """

    def __init__(self, message, kind, hint="", refusal="", number=0, object="", z=None, keys=(), edges=()):
        super().__init__(f"{message}; {hint}" if hint else message)
        self.refusal, self.number, self.kind, self.hint = refusal, number, kind, hint
        self.object, self.z, self.keys, self.edges = object, z, tuple(keys), tuple(edges)

    @property
    def key(self):
        """The first outline at fault, as (object, z, ring), or None."""
        return self.keys[0] if self.keys else None
