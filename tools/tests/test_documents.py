"""The manual page has what the README and the formats have: all commands, options, refusals, limits and statuses. The
links of the pages lead somewhere, and the messages of a page are those of the tools.
"""
import glob
import os
import re
import unittest

from tests.common import TOP, commands, file
from tests.row_files import shared_text

PAGE = file("docs/fku.1").decode()
README = file("README.md").decode()
FORMATS = file("docs/formats.md").decode()


def plain(text):
    """Gives mdoc lines as plain words: macros and the blanks that they eat are gone."""
    text = re.sub(r" Ns = Ns ", "=", text)
    text = re.sub(r"(?m)^\.(Op|It|Cm|Ar|Li|Fl|Nm) ", "", text)
    return re.sub(r"\b(Cm|Ar|Li|Fl|Op) ", "", text)


def synopsis_words(lines):
    """Gives a call of the synopsis as plain words."""
    lines = re.sub(r"(?m)^\.Op (.*)$", r"[\1]", lines)
    return plain(re.sub(r"\.?\bFl ", "-", lines)).replace("\n", " ")


def items(section):
    """Gives the items of a section of the page, as plain words."""
    text = PAGE.partition(f".Sh {section}\n")[2].partition("\n.Sh ")[0]
    return [plain(it) for it in re.findall(r"(?m)^\.It (.*)$", text)]


def first_cells(text, head):
    """Gives the first cells of the table with this heading row, without their back quotes."""
    rows = text.partition(head)[2].partition("\n\n")[0].split("\n")[2:]
    return [row.split("|")[1].strip().strip("`") for row in rows]


class Page(unittest.TestCase):
    """What stands in the README or the formats stands in the page, and the other way round."""

    def test_commands(self):
        """Each list of commands has those of the usage line, and the synopsis the words that README.md has."""
        names = set(shared_text("usage").split()[2].split("|"))
        self.assertGreater(len(names), 4)
        words = {re.sub(r"(--\w+) ", r"\1=", it) for it, _ in commands()}
        self.assertEqual({it.split()[0] for it in words}, names)
        self.assertEqual({it.split()[0] for it in items("COMMANDS")}, names)
        synopsis = PAGE.partition(".Sh SYNOPSIS\n.Nm\n")[2].partition("\n.Sh ")[0]
        self.assertEqual({synopsis_words(it) for it in synopsis.split("\n.Nm\n")}, words)

    def test_refusals(self):
        refusals = first_cells(FORMATS, "| Words | When |")
        self.assertGreater(len(refusals), 12)
        self.assertEqual(items("REFUSALS"), refusals)

    def test_statuses(self):
        statuses = first_cells(FORMATS, "| Status | Meaning |")
        self.assertEqual(items("EXIT STATUS"), statuses)

    def test_limits(self):
        limits = FORMATS.partition("| What is limited |")[2].partition("\n\n")[0]
        page = " ".join(items("INPUT"))
        for number in re.findall(r"\d[\d,]*\d|\d", limits):
            self.assertIn(number, page)

    def test_options(self):
        self.assertEqual(
            sorted(it.split("=")[0].lstrip("-") for it in items("OPTIONS")),
            sorted(set(re.findall(r"--(\w+)", README.partition("## The commands")[2].partition("\n\n##")[0]))),
        )


class Messages(unittest.TestCase):
    """The tools have the messages that docs/importing.md says what to do about."""

    def test_messages(self):
        table = file("docs/importing.md").decode().partition("| Message | What to do |")[2].partition("\n\n")[0]
        messages = [it for row in table.split("\n")[2:] for it in re.findall("`([^`]+)`", row.split("|")[1])]
        self.assertGreater(len(messages), 9)
        paths = glob.glob("tools/fku/**/*.py", root_dir=TOP, recursive=True)
        sources = re.sub(r"\{[^{}]*\}", "{}", "\n".join(file(it).decode() for it in paths))
        for message in messages:
            words = [rf"(?:{re.escape(it)}|\S*{{}}\S*)" for it in message.split()]
            with self.subTest(message=message):
                self.assertRegex(sources, " ".join(words))


def headings(page):
    """Gives the names by which links lead to the headings of a page."""
    text = re.sub(r"(?ms)^```.*?^```$", "", page)
    return {re.sub(r"[^\w\- ]", "", it.lower()).replace(" ", "-") for it in re.findall(r"(?m)^#+ (.*)$", text)}


class Links(unittest.TestCase):
    """Links and pictures of the pages lead to files of the repository, and to headings that are there."""

    def test_links(self):
        pages = [*glob.glob(f"{TOP}/*.md"), *glob.glob(f"{TOP}/docs/*.md"), *glob.glob(f"{TOP}/examples/*.md")]
        pages += glob.glob(f"{TOP}/crates/*/README.md")
        self.assertGreater(len(pages), 25)
        for page in (os.path.relpath(it, TOP) for it in pages):
            for link in re.findall(r"\]\(([^)\s]+)\)", file(page).decode()):
                path, _, heading = link.partition("#")
                target = os.path.normpath(os.path.join(os.path.dirname(page), path)) if path else page
                with self.subTest(page=page, link=link):
                    self.assertTrue(os.path.exists(f"{TOP}/{target}"))
                    self.assertTrue(not heading or heading in headings(file(target).decode()))
