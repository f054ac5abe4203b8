"""Why a line of a section text cannot be read, and what to write in its place: for the faults that are made most.

Each adviser looks for one fault, and gives what is wrong and what to change, or None. The standard library is enough.
"""
import difflib
import itertools
import re
import unicodedata
from decimal import Decimal

from fku.names import Names
from fku.section_text import FARTHEST, MOST_NAME, NAME_RULE, is_name
from fku.standing import COSTS, KEYWORDS, Standing, is_kept, stand, words_of

WHOLE = re.compile(r"-?\d+", re.ASCII)
DECIMAL = re.compile(r"[-+]?(\d+\.?\d*|\.\d+)([eE][-+]?\d+)?", re.ASCII)
BYTE_ORDER_MARK = b"\xef\xbb\xbf"
MODULE = "the calls of the Python package do this by themselves: docs/python.md"

Advice = tuple[str, str]  # what is wrong, and what to change


class Case:
    """A line of a text that cannot be read: all lines, its number from 1, and what may stand there."""

    def __init__(self, lines: list[bytes], number: int):
        self.lines, self.number = lines, number
        self.line = lines[number - 1] if number <= len(lines) else b""
        self.words = words_of(self.line)
        self.standing: Standing = stand(lines, number)

    def keyword(self) -> str:
        """Gives the keyword that the line begins with, in capitals or not, or nothing."""
        first = self.words[0].upper() if self.words else ""
        return first if first in KEYWORDS else ""

    def looks_like_numbers(self) -> bool:
        """Whether the line begins as a point does."""
        return looks_like_point(self.words)


def looks_like_point(words: list[str]) -> bool:
    """Whether words begin as those of a point do, rightly written or not."""
    return bool(words) and re.match(r"[-+]?[\d.]", words[0], re.ASCII) is not None


def other_file(case: Case) -> Advice | None:
    """A file without any line of a section text."""
    wide = b"S\0E\0C\0T" in b"".join(case.lines[:9])  # text of 16 bits, whichever byte comes first
    if wide or any(words_of(line)[:1] and words_of(line)[0] in KEYWORDS for line in case.lines):
        return None
    return (
        "the file is not a section text: no line begins with one of its keywords",
        "`tools/contours FILE` makes one of a table of points and of what other programs write, and `tools/outlines "
        "FILE` of a volume; see docs/importing.md",
    )


def marks(case: Case) -> Advice | None:
    """A byte order mark, or text of 16 bits."""
    if case.line.startswith(BYTE_ORDER_MARK):
        return (
            "the file begins with a byte order mark, three bytes that the editor put before its first letter",
            "save it as UTF-8 without a byte order mark; `sed -i '1s/^\\xef\\xbb\\xbf//' FILE` takes the mark away",
        )
    if b"\0" in case.line or case.line[:2] in (b"\xff\xfe", b"\xfe\xff"):
        return (
            "the file is not a text of single bytes; perhaps it is UTF-16",
            "save it as ASCII; `iconv -f UTF-16 -t ASCII FILE` writes it so",
        )
    return None


def line_ends(case: Case) -> Advice | None:
    """Carriage returns without line feeds, or several before one."""
    if b"\r" not in case.line:
        return None
    return (
        "there is a carriage return inside the line: lines end with a line feed, with or without one carriage return "
        "before it",
        "`tr '\\r' '\\n' < FILE` writes line feeds in their place; the empty lines that may come of it do no harm",
    )


def strange_character(case: Case) -> Advice | None:
    """A character that is not ASCII, outside of names."""
    text = case.line.decode("utf-8", "backslashreplace")
    strange = [(at, it) for at, it in enumerate(text, 1) if not it.isascii()]
    if not strange or case.keyword() in ("OBJECT", "CONTOUR", "LINK"):
        return None
    at, letter = strange[0]
    name = unicodedata.name(letter, "without a name").lower()
    plain = "ASCII characters"
    if any(it in name for it in ("minus", "dash", "hyphen")):
        plain = "a plain `-`"
    elif letter.isspace():
        plain = "plain blanks"
    return f"character {at} of the line is {letter!r} ({name}), which is not ASCII", f"write {plain} in its place"


def comment_after(case: Case) -> Advice | None:
    """A comment on a line with other words."""
    if not any(it.startswith("#") for it in case.words[1:]):
        return None
    return "there is a comment after other words", "put the comment on a line of its own, with # as its first letter"


def small_letters(case: Case) -> Advice | None:
    """A keyword that is not in capitals, or nearly a keyword."""
    first = case.words[0] if case.words else ""
    if case.keyword() and first != case.keyword():
        return f"`{first}` is written in small letters", f"write it in capitals: `{case.keyword()}`"
    near = difflib.get_close_matches(first.upper(), KEYWORDS, 1, 0.75)
    if first and not case.keyword() and near and not case.looks_like_numbers():
        return f"`{first}` is none of the words that begin a line", f"perhaps `{near[0]}` is meant"
    return None


def head(case: Case) -> Advice | None:
    """A line of the head that is missing or wrong."""
    at, first = len(case.standing.head), case.words[0] if case.words else ""
    if at > 2:
        return None
    if first == ("SECTIONS", "COST", "PAIR")[at]:
        remedy = f"write {case.standing.due()}"
        if first == "COST" and case.words[1:2] == ["mix"]:
            remedy = "write `COST mix 2 1`, with two whole weights from 0 to 1000, for spans and for areas"
        return f"`{first}` is followed by other words than those that may stand there", remedy
    what = ("version", "rule of cost", "rule of pairs")[at]
    line = ("SECTIONS 1", "COST area", "PAIR overlap")[at]
    return f"the line of the {what} is missing", f"put a line `{line}` before it"


def count_too_large(case: Case) -> Advice | None:
    """A contour that ends before it has all its points."""
    if not (case.standing.wants_point() and case.keyword()):
        return None
    it = case.standing.contour
    have = len(it.points)
    remedy = f"write `CONTOUR {it.name} {have}` on line {it.line}, or add the points that are missing"
    if have < 3:
        remedy = "add the points that are missing: an outline has three points at least"
    return f"contour {it.name} has {have} point lines, and its line says {it.size}", remedy


def count_too_small(case: Case) -> Advice | None:
    """A point after a contour that has all its points."""
    it = case.standing.contour
    if case.standing.wants_point() or not case.looks_like_numbers() or it is None or case.standing.part.links:
        return None
    kept = (words for words in map(words_of, case.lines[case.number - 1 :]) if is_kept(words))
    more = list(itertools.takewhile(looks_like_point, kept))
    wrong = f"contour {it.name} has {it.size + len(more)} point lines, and its line says {it.size}"
    if more == [[str(number) for number in it.points[0]]]:
        return f"{wrong}: the last one is its first point again", "take the line out: an outline is closed by itself"
    return wrong, f"write `CONTOUR {it.name} {it.size + len(more)}` on line {it.line}, or take the points out"


def point_outside(case: Case) -> Advice | None:
    """A point before any contour, or after links."""
    if case.standing.wants_point() or not case.looks_like_numbers() or len(case.standing.head) < 3:
        return None
    return "a point stands outside of a contour", "put a line `CONTOUR name k` before the k points of each outline"


def commas(case: Case) -> Advice | None:
    """Commas, semicolons or brackets in a line of numbers."""
    text = " ".join(case.words)
    found = re.findall(r"[],;()[]", text)
    if not (case.standing.wants_point() or case.looks_like_numbers() or case.keyword() == "SECTION") or not found:
        return None
    if all(re.fullmatch(r"[-+]?\d+,\d+", it) for it in case.words) and len(case.words) == 2:
        return decimals_advice(case, "the numbers have decimal commas")
    return (
        "there are brackets around the numbers" if set(found) - set(",;") else "there are commas between the numbers",
        "put blanks in their place: `sed -i '/^[^A-Z#]/s/[],;()[]/ /g' FILE` does it for all lines of points",
    )


def decimal_places(case: Case) -> tuple[int, Decimal]:
    """Gives how many decimals the numbers of all lines have at most, and the largest absolute value of a number."""
    most, far = 0, Decimal(0)
    for line in case.lines:
        words = words_of(line)
        numbers = words[1:2] if words[:1] == ["SECTION"] else words if looks_like_point(words) else []
        for word in numbers:
            plain = word.replace(",", ".")
            if DECIMAL.fullmatch(plain):
                value = Decimal(plain)
                most = max(most, -value.normalize().as_tuple().exponent)
                far = max(far, abs(value))
    return most, far


def decimals_advice(case: Case, wrong: str) -> Advice:
    """Gives what to do about decimals: which power of ten makes integers of them that are still in the range."""
    most, far = decimal_places(case)
    places = most
    while places > 0 and far * 10**places > FARTHEST:
        places -= 1
    if most <= 0:
        return wrong, "write all numbers as whole ones, such as 10 for 10.0 and for 1e1"
    if places == 0:
        return wrong, f"round all coordinates and heights to integers: they reach to {far:g}; {MODULE}"
    kept = "" if places == most else f" and round: more decimals would pass {FARTHEST}"
    unit = Decimal(1).scaleb(-places)
    scale = f"multiply all coordinates and heights by {10**places}{kept}"
    return wrong, f"{scale}; a whole unit is then {unit} of yours, also in the surface; {MODULE}"


def decimals(case: Case) -> Advice | None:
    """Numbers that are not whole."""
    numbers = case.words[1:] if case.keyword() == "SECTION" else case.words if case.looks_like_numbers() else []
    strange = [it for it in numbers if DECIMAL.fullmatch(it) and not WHOLE.fullmatch(it)]
    if not strange:
        return None
    if re.fullmatch(r"\+\d+", strange[0]):
        return f"`{strange[0]}` has a plus sign", f"write `{strange[0][1:]}`"
    what = "an exponent" if re.search("[eE]", strange[0]) else "a decimal point"
    return decimals_advice(case, f"`{strange[0]}` has {what}, and coordinates and heights are integers")


def number_count(case: Case) -> Advice | None:
    """A point that has not two numbers."""
    if not case.standing.wants_point() or not case.looks_like_numbers() or len(case.words) == 2:
        return None
    if len(case.words) == 3:
        return "the point has three numbers", "write x and y alone: the height stands on the line `SECTION z`"
    wrong = f"the line has {len(case.words)} words, and a point has two"
    return wrong, "write one point on each line: x, a blank, and y"


def name_advice(text: str) -> Advice:
    """Gives what is wrong with a name, and a name that can stand for it."""
    short = Names().name(text)
    if len(text) > MOST_NAME and re.fullmatch(r"[\w.-]+", text, re.ASCII):
        wrong = f"the name `{text}` has {len(text)} letters, and the limit is {MOST_NAME}"
    else:
        wrong = f"the name `{text}` has other characters than a name may have"
    return wrong, f"a name has {NAME_RULE}: write such as `{short}`, the same wherever the name stands; {MODULE}"


def names(case: Case) -> Advice | None:
    """A name with blanks or other characters, or none."""
    count = {"OBJECT": 1, "CONTOUR": 1, "LINK": 2}.get(case.keyword())
    if not count or case.words[0] != case.keyword():
        return None
    words = case.words[1:-1] if case.keyword() == "CONTOUR" and len(case.words) > 2 else case.words[1:]
    if len(words) == count:
        bad = [it for it in words if not is_name(it)]
        return name_advice(bad[0]) if bad else None
    if len(words) > count and count == 1:
        return name_advice(" ".join(words))
    wrong = f"the line has {len(words)} names, and must have {count}"
    return wrong, f"write `{case.keyword()} " + "name " * count + "..`"


def contour_count(case: Case) -> Advice | None:
    """A contour without the number of its points."""
    if case.words[:1] != ["CONTOUR"] or (len(case.words) == 3 and WHOLE.fullmatch(case.words[2])):
        return None
    return (
        "the line has no integer, the number of points, after the name",
        f"write `CONTOUR {(case.words[1:2] or ['name'])[0]} k`, k being how many points follow",
    )


def order(case: Case) -> Advice | None:
    """A line that is good by itself and stands at the wrong place."""
    standing, word = case.standing, case.keyword()
    if word == "OBJECT" and standing.version == "1":
        return "objects have names in version 2 alone", "write `SECTIONS 2` on the first line"
    if word in ("SECTION", "CONTOUR", "LINK") and standing.version == "2" and standing.part is None:
        return "in version 2 an object must begin first", "put a line `OBJECT name` before it, or write `SECTIONS 1`"
    if word == "LINK" and standing.head[2][1] != "links":
        return "links are read under `PAIR links` alone", "write `PAIR links` on the third line, or take the links out"
    if word in ("SECTION", "CONTOUR") and standing.part and standing.part.links:
        return "the links of an object stand after all its sections", "put the links after the object's last contour"
    if word == "CONTOUR" and standing.part and not standing.part.sections:
        return "a contour needs a section first", "put a line `SECTION z` before it, with its height"
    if word == "SECTION" and len(case.words) != 2:
        return "a section has a height, and nothing else", "write `SECTION z`, with an integer for z"
    if word in KEYWORDS[:3]:
        return f"`{word}` stands in the head alone, once", "take the line out"
    return None


def tail(case: Case) -> Advice | None:
    """A line after END."""
    if not case.standing.ended:
        return None
    return (
        "there is a line after END that is not a comment",
        "put END at the very end; lines after it are for `check`, `edit` and `landmarks` alone",
    )


ADVISERS = (
    other_file, marks, line_ends, strange_character, tail, small_letters, head, count_too_large, commas, comment_after,
    decimals, count_too_small, point_outside, number_count, names, contour_count, order,
)  # fmt: skip


def advice(case: Case) -> Advice:
    """Gives what is wrong with the line, and what to change, by the first adviser that knows."""
    for adviser in ADVISERS:
        found = adviser(case)
        if found:
            return found
    return "the line is none of those that may stand there", "write one that may, or take the line out"
