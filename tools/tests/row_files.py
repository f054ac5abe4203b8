"""Reads the rows of `tools/tests/rows/`: what the program is called with, and what it must answer.

A file of rows has groups. `== TITLE` begins one. Paragraphs, parted by empty lines, follow: one that expects nothing is
shared by all rows of the group after it, and each other one is a row. A paragraph has lines `KEY: VALUE`:

    words: WORD ..       the words of the command line; several such lines are several calls with the same answer
    input: NAME ..       the input: the shared texts `rows/texts/NAME.txt`, one after another (`usage`: the
                         line in docs/formats.md)
    line N: TEXT         line N of the input, counted from 1, is this one instead
    drop: N              line N of the input is left out
    more: TEXT           a line that follows the input
    output: NAME ..      the whole output, as for `input`, and the status is 0
    prints: TEXT         the output is this line, and the status is 0
    begins: NAME ..      how the output begins; `ends` how it ends; `bytes: N` how long it is; the status is 0
    refused: WORDS       the output is the line `REFUSED WORDS`, and the status is 1
    status: N            another status

A text goes on in the lines below its key: `| TEXT` is a line of it, and `\\ TEXT` is text without an end of line, in
which `\\n`, `\\r`, `\\t` and `\\\\` stand for these characters. `input` and `output` may come again, and go on with the
same text. A line that begins with `#` is a comment. Keys of a row replace those that are shared; `line`, `drop` and
`more` are applied in their order.
"""
import os
import re
from typing import NamedTuple

FOLDER = f"{os.path.dirname(os.path.abspath(__file__))}/rows"
FORMATS = f"{FOLDER}/../../../docs/formats.md"
EXPECTED = ("output", "prints", "begins", "ends", "bytes", "refused", "status")
CHANGES = ("line", "drop", "more")
KEYS = ("words", "input", *CHANGES, *EXPECTED)


class Row(NamedTuple):
    """One call: where it stands, its words and input, and what is expected: the status, whole texts or their ends."""

    place: str
    words: list
    input: bytes
    status: int
    expected: dict  # of output, begins, ends: bytes; of bytes: how many

    def complaint(self, status, output):
        """Tells what is wrong with a status and an output, or nothing."""
        if status != self.status:
            return f"the status is {status} and not {self.status}; the output begins {output[:100]!r}"
        tests = {
            "output": lambda it: output == it,
            "begins": output.startswith,
            "ends": output.endswith,
            "bytes": lambda it: len(output) == it,
        }
        for key, wanted in self.expected.items():
            if not tests[key](wanted):
                shown = wanted if key == "bytes" else wanted[:2000]
                return f"{key}: {shown!r} is wanted; there are {len(output)} bytes: {output[:2000]!r}"
        return ""


class Entry:
    """A line of a paragraph: its key, the number with it, its value, and the text in the lines below it."""

    def __init__(self, at, line):
        found = re.fullmatch(r"([a-z]+)(?: (\d+))?:(?: (.*))?", line)
        if not found or found[1] not in KEYS:
            raise ValueError(f"line {at}: no key of a row: {line}")
        self.at, self.key, self.number, self.value, self.text = at, found[1], int(found[2] or 0), found[3] or "", ""

    def go_on(self, line):
        """Takes a line of text below."""
        if line[0] == "|":
            self.text += line[2:] + "\n"
        else:
            signs = {"n": "\n", "r": "\r", "t": "\t", "\\": "\\"}
            self.text += re.sub(r"\\(.)", lambda it: signs[it[1]], line[2:])

    def whole(self):
        """Gives the texts that it names and the one below it."""
        return "".join(map(shared_text, self.value.split())) + self.text

    def lines(self):
        """Gives its value as a line, and the text below it."""
        return (self.value + "\n" if self.value else "") + self.text


def shared_text(name):
    """Gives a text of the folder of texts, or the usage line as docs/formats.md has it."""
    if name == "usage":
        with open(FORMATS, encoding="utf-8") as file:
            return re.search(r"(?m)^USAGE .*\n", file.read())[0]
    with open(f"{FOLDER}/texts/{name}.txt", encoding="ascii", newline="") as file:
        return file.read()


def changed(text, entries):
    """Gives an input with lines replaced, left out or added."""
    for it in entries:
        if it.key == "more":
            text += it.lines()
            continue
        number = it.number or int(it.value)
        lines = text.splitlines(keepends=True)
        if not 1 <= number <= len(lines):
            raise ValueError(f"line {it.at}: there is no line {number} of the input")
        lines[number - 1] = it.lines() if it.key == "line" else ""
        text = "".join(lines)
    return text


def rows_of(name, shared, entries):
    """Gives the rows of a paragraph: one for each line of words."""
    own = {it.key for it in entries}
    everything = [it for it in shared if it.key not in own or it.key in CHANGES] + entries
    text = "".join(it.whole() for it in everything if it.key == "input")
    text = changed(text, [it for it in everything if it.key in CHANGES])
    status, expected = 0, {}
    for it in everything:
        if it.key == "status":
            status = int(it.value)
        elif it.key == "bytes":
            expected["bytes"] = int(it.value)
        elif it.key == "refused":
            status, expected["output"] = 1, f"REFUSED {it.value}\n".encode()
        elif it.key == "prints":
            expected["output"] = it.lines().encode()
        elif it.key in EXPECTED:
            expected[it.key] = expected.get(it.key, b"") + it.whole().encode()
    for it in everything:
        if it.key == "words":
            yield Row(f"{name}:{entries[0].at}", it.value.split(), text.encode(), status, expected)


def paragraphs(lines):
    """Gives the titles and the paragraphs of a file, each a list of entries."""
    entries = []
    for at, line in enumerate([*lines, ""], 1):
        if line.startswith("#"):
            continue
        if line.startswith(("| ", "\\ ")) or line == "|":
            entries[-1].go_on(line)
        elif line and not line.startswith("== "):
            entries.append(Entry(at, line))
        elif entries:
            yield entries
            entries = []
        if line.startswith("== "):
            yield line[3:]


def read(path):
    """Gives the rows of a file."""
    with open(path, encoding="ascii", newline="") as file:
        lines = file.read().split("\n")
    shared, found = [], []
    for it in paragraphs(lines):
        if isinstance(it, str):
            shared = []
        elif any(entry.key in EXPECTED for entry in it):
            found += rows_of(os.path.basename(path), shared, it)
        else:
            shared = it
    return found


def all_rows():
    """Gives the rows of all files."""
    names = sorted(it for it in os.listdir(FOLDER) if it.endswith(".rows"))
    return [row for name in names for row in read(f"{FOLDER}/{name}")]
