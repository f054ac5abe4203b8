"""The page that `show --html` writes: its structure, what it carries, and that no text of a file becomes a script."""
import base64
import hashlib
import html.parser
import json
import re
import struct
import subprocess
import sys
import tempfile
import unittest
from fractions import Fraction

from fku import byu, page
from fku.section_text import Object, Section
from tests.common import TOOLS, TOP, file, fku, tool

EVIL = "</script><script>alert(1)</script><!--\"'&<img src=x onerror=alert(2)>\u2028."
SCRIPTS = (None, "text/javascript", "module")  # types that a browser runs


class Elements(html.parser.HTMLParser):
    """The elements of a page: pairs of a tag and its attributes, with the texts of scripts, styles and the title."""

    def __init__(self, text):
        super().__init__()
        self.found, self.texts, self.is_open = [], [], False
        self.feed(text)

    def handle_starttag(self, tag, attrs):
        self.found.append((tag, dict(attrs)))
        self.texts.append("")
        self.is_open = True

    def handle_endtag(self, tag):
        self.is_open = False

    def handle_data(self, data):
        if self.is_open:
            self.texts[-1] += data

    def of(self, tag):
        """Gives the attributes and the texts of the elements with this tag."""
        return [(words, text) for (name, words), text in zip(self.found, self.texts) if name == tag]

    def carried(self):
        """Gives the texts of scripts that are data, by their names."""
        return {words["id"]: text for words, text in self.of("script") if "id" in words}

    def data(self):
        """Gives what the JSON text has."""
        return json.loads(self.carried()["data"])

    def numbers(self, name, kind):
        """Gives the numbers of an array."""
        data = base64.b64decode(self.carried()[f"array_{name}"], validate=True)
        return list(struct.unpack(f"<{len(data) // struct.calcsize(kind)}{kind}", data))


def elements(content):
    """Gives the elements of the page of this content."""
    return Elements(page.page(content).decode())


def small(**more):
    """Gives a small content: two tetrahedra, two objects, a loop and a mark."""
    points = [(0, 0, 0), (9, 0, 0), (0, 9, 0), (0, 0, 9), (-999999, 999999, 5)]
    first = [(0, 2, 1), (0, 1, 3), (1, 2, 3), (2, 0, 3)]
    mesh = byu.Mesh(points, [first, [(0, 2, 4)]])
    objects = [Object("a", [Section(-3, [("c", [(0, 0), (9, 0), (0, 9)])])]), Object("b", [Section(4), Section(7)])]
    words = {
        "title": "small", "sources": [("Surface", "small.byu")], "mesh": mesh, "names": ["a", "b"], "outlines": objects,
        "loop_height": 5, "loops": [[(Fraction(1, 4), Fraction(-1, 2)), (Fraction(3), Fraction(7, 8))]],
        "marks": {4: 3, 1: 1},
    }  # fmt: skip
    return page.Content(**{**words, **more})


class Structure(unittest.TestCase):
    """What stands in the page."""

    def test_one_file_that_needs_no_other(self):
        text = page.page(small()).decode()
        self.assertNotRegex(text, r"https?:|\bimport\b|\bfetch\b|XMLHttpRequest|WebSocket|@import|url\(")
        for tag, words in Elements(text).found:
            for name in ("src", "href", "action", "data", "srcset", "poster", "background"):
                if name in words:
                    self.assertEqual((tag, words[name]), ("link", "data:,"))

    def test_a_browser_may_run_these_scripts_only(self):
        found = elements(small())
        (words,) = [words for words, _ in found.of("meta") if words.get("http-equiv") == "Content-Security-Policy"]
        rules = dict(it.strip().split(" ", 1) for it in words["content"].split(";"))
        self.assertEqual(rules["default-src"], "'none'")
        for tag, rule in [("script", "script-src"), ("style", "style-src")]:
            texts = [text for words, text in found.of(tag) if words.get("type") in SCRIPTS]
            digests = [base64.b64encode(hashlib.sha256(it.encode()).digest()).decode() for it in texts]
            self.assertEqual(rules[rule].split(), [f"'sha256-{it}'" for it in digests])
        self.assertEqual(len(found.of("style")), 1)
        for _, words in found.found:
            self.assertFalse([name for name in words if name.startswith("on") or name == "style"])

    def test_names_of_elements(self):
        found = elements(small())
        names = [words["id"] for _, words in found.found if "id" in words]
        self.assertEqual(len(names), len(set(names)))
        for _, words in found.found:
            for name in ("for", "aria-controls", "aria-describedby"):
                self.assertLessEqual(set(words.get(name, "").split()), set(names))
        scripts = "".join(page.text_of(name) for name in page.SCRIPTS)
        self.assertLessEqual(set(re.findall(r'element\("(\w+)"\)', scripts)), set(names))
        self.assertEqual(set(re.findall(r'numbersOf\("(\w+)"', scripts)), set(page.arrays(small())))

    def test_each_control_has_a_label(self):
        text = page.text_of("page.html")
        for control in re.findall(r"<input[^>]*>", text):
            before = text[: text.index(control)]
            in_label = before.count("<label") > before.count("</label>")
            self.assertTrue(in_label or "aria-label=" in control, control)
        for button in re.findall(r"<button[^>]*>(.*?)</button>", text):
            self.assertTrue(button)
        self.assertIn('lang="en"', text)
        self.assertIn("<noscript>", text)

    def test_the_scripts_can_stand_in_a_page(self):
        for name in page.SCRIPTS:
            self.assertNotRegex(page.text_of(name), r"</script|<!--|innerHTML|document\.write|\beval\b", name)
        self.assertNotIn("</style", page.text_of("page.css"))

    def test_texts_stand_out_from_their_ground(self):
        def light(colour):
            parts = [int(colour[at : at + 2], 16) / 255 for at in (1, 3, 5)]
            parts = [it / 12.92 if it <= 0.04045 else ((it + 0.055) / 1.055) ** 2.4 for it in parts]
            return 0.2126 * parts[0] + 0.7152 * parts[1] + 0.0722 * parts[2]

        def contrast(a, b):
            low, high = sorted((light(a), light(b)))
            return (high + 0.05) / (low + 0.05)

        pairs = [("ink", "panel"), ("ink", "back"), ("ink", "control"), ("soft", "panel"), ("soft", "back")]
        pairs += [("on-accent", "accent"), ("outlines", "back"), ("loops", "back")]
        for block in re.findall(r":root(?:\.dark)? \{(.*?)\}", page.text_of("page.css"), re.DOTALL):
            colours = dict(re.findall(r"--([\w-]+): (#\w{6});", block))
            for a, b in pairs:
                with self.subTest(a=a, b=b):
                    self.assertGreaterEqual(contrast(colours[a], colours[b]), 4.5)


class Carried(unittest.TestCase):
    """What the page carries is what was given."""

    def test_numbers(self):
        content = small()
        found = elements(content)
        self.assertEqual(found.numbers("points", "i"), [it for point in content.mesh.points for it in point])
        self.assertEqual(found.numbers("triangles", "H"), [it for one in content.mesh.triangles() for it in one])
        self.assertEqual(found.numbers("marks", "I"), [1, 1, 4, 3])
        self.assertEqual(found.numbers("outline_sizes", "i"), [0, -3, 3])
        self.assertEqual(found.numbers("outline_points", "i"), [0, 0, 9, 0, 0, 9])
        self.assertEqual(found.numbers("loop_sizes", "i"), [0, 5, 2])
        self.assertEqual(found.numbers("loop_points", "d"), [0.25, -0.5, 3, 0.875])
        data = found.data()
        self.assertEqual([(it["name"], it["count"]) for it in data["parts"]], [("a", 4), ("b", 1)])
        self.assertEqual(len({tuple(it["colour"]) for it in data["parts"]}), 2)
        self.assertTrue(data["matched"] and data["marked"] and not data["wide"])

    def test_many_points(self):
        mesh = byu.Mesh([(at, 0, at % 7) for at in range(65537)], [[(0, 1, 65536)]])
        found = elements(page.Content("many", [], mesh))
        self.assertEqual(found.numbers("triangles", "I"), [0, 1, 65536])
        self.assertEqual([it["name"] for it in found.data()["parts"]], ["part 1"])

    def test_lines_alone(self):
        found = elements(small(mesh=None, names=[], marks=None))
        self.assertEqual((found.numbers("points", "i"), found.data()["parts"]), ([], []))
        self.assertEqual(found.numbers("outline_sizes", "i"), [0, -3, 3])
        self.assertFalse(found.data()["marked"])

    def test_a_name_is_a_name_only(self):
        plain = elements(small())
        evil = elements(small(title=EVIL, sources=[(EVIL, EVIL)], names=[EVIL, "$title ${data}"], unit=(1.0, EVIL)))
        self.assertEqual([tag for tag, _ in evil.found], [tag for tag, _ in plain.found])
        self.assertEqual([words for tag, words in evil.found], [words for tag, words in plain.found])
        data = evil.data()
        self.assertEqual([it["name"] for it in data["parts"]], [EVIL, "$title ${data}"])
        self.assertEqual((data["sources"][0]["name"], data["unit"]["name"]), (EVIL, EVIL))
        self.assertEqual(evil.of("title")[0][1].strip(), EVIL)
        self.assertEqual(evil.of("h1")[0][1].strip(), EVIL)
        runs = [[text for words, text in it.of("script") if words.get("type") in SCRIPTS] for it in (plain, evil)]
        self.assertEqual(*runs)


class Written(unittest.TestCase):
    """`show --html`."""

    def shown(self, words, text=b""):
        """Gives the elements of a page that `show` writes to the standard output."""
        status, out, told = tool("show", [*words, "--html", "-"], text)
        self.assertEqual((status, told), (0, ""))
        return Elements(out.decode())

    def test_the_standard_library_is_enough(self):
        command = [sys.executable, "-S", "-s", f"{TOOLS}/show", "--surface", f"{TOP}/examples/caudate.byu"]
        with tempfile.TemporaryDirectory() as folder:
            words = ["--outlines", f"{TOP}/examples/caudate.txt", "--html", f"{folder}/a.html"]
            ran = subprocess.run([*command, *words], env={}, capture_output=True, timeout=300, check=False)
            self.assertEqual((ran.returncode, ran.stdout, ran.stderr), (0, b"", b""))
            with open(f"{folder}/a.html", encoding="utf-8") as opened:
                found = Elements(opened.read())
        mesh = byu.read_mesh(f"{TOP}/examples/caudate.byu")
        self.assertEqual(found.numbers("points", "i"), [it for point in mesh.points for it in point])
        self.assertEqual(found.numbers("triangles", "H"), [it for one in mesh.triangles() for it in one])
        self.assertEqual(len(found.numbers("outline_sizes", "i")), 3 * 38)
        self.assertEqual(found.of("title")[0][1].strip(), "caudate.byu")
        names = [("Surface", "caudate.byu"), ("Outlines", "caudate.txt")]
        self.assertEqual([(it["role"], it["name"]) for it in found.data()["sources"]], names)

    def test_parts_have_the_names_of_objects(self):
        text = file("examples/thalami.txt")
        surface = fku(["reconstruct"], text)[1]
        notes = b"# name: left Thalamus, left <1>\n# space: affine .01 0 0 5 0 .01 0 5 0 0 .01 5\n# space: length mm\n"
        with tempfile.TemporaryDirectory() as folder:
            with open(f"{folder}/a.txt", "wb") as opened:
                opened.write(notes + text)
            found = self.shown(["--surface", "-", "--outlines", f"{folder}/a.txt"], surface)
        data = found.data()
        self.assertEqual([it["name"] for it in data["parts"]], ["Thalamus, left <1>", "right"])
        self.assertEqual(data["unit"], {"factor": 0.01, "name": "mm"})
        words = ["--surface", "-", "--unit", "2 µm", "--title", "T", "--view=-60,15", "--edges"]
        data = self.shown(words, surface).data()
        self.assertEqual([it["name"] for it in data["parts"]], ["part 1", "part 2"])
        self.assertEqual(data["unit"], {"factor": 2, "name": "µm"})
        self.assertEqual((data["view"], data["edges"], data["sources"][0]["name"]), ([-60, 15], True, "standard input"))

    def test_loops_and_marks(self):
        squares = f"{TOP}/examples/squares"
        loops = fku(["slice", "--height=5"], file("examples/squares.txt"))[1]
        found = self.shown(["--outlines", f"{squares}.txt", "--loops", "-"], loops)
        self.assertEqual(found.numbers("loop_sizes", "i"), [0, 5, 8])
        self.assertEqual(found.numbers("loop_points", "d")[:6], [0, 0, 5, 0, 10, 0])
        self.assertEqual(found.data()["view"], [0, 90])
        marks = b"PARTS 1\nPART 1\nCROSS 2 1\nCROSS 12 1\nCROSSINGS 1\n"
        found = self.shown(["--surface", f"{squares}.byu", "--mark", "-"], marks)
        self.assertEqual(found.numbers("marks", "I"), [1, 1, 11, 1])
        words = ["--surface", f"{squares}.byu", "--mark", "-", "--html", "-"]
        status, out, told = tool("show", words, marks.replace(b"12", b"13"))
        self.assertEqual((status, out), (1, b""))
        self.assertIn("triangle 13", told)
