"""The page of `show --html` in a real browser: what its picture shows, its controls, mouse, fingers and keys."""
import io
import os
import tempfile
import unittest

from fku import byu, page
from tests.common import TOP, file, fku, tool
from tests_with_packages.browser import CHROMIUM, Browser
from tests_with_packages.makers import needs

EVIL = "</title><script>document.title = 'run'; window.run = true</script>"
PICTURE = 690  # the width of the picture; the settings stand beside it

# what a dot looks like, by its red, green and blue
LOOKS = {
    "orange": lambda r, g, b: r > 1.25 * g > 1.25 * 2 * b and r > 60,
    "blue": lambda r, g, b: b > 1.15 * g > 1.15 * 1.2 * r and b > 60,
    "red": lambda r, g, b: r > 100 and r > 3 * g and r > 3 * b,
    "violet": lambda r, g, b: r > 2 * g and b > 2 * g and r > 100,
    "navy": lambda r, g, b: b > 2 * r and b > 1.5 * g and 60 < b < 150,
    "ground": lambda r, g, b: (r, g, b) in [(0xEE, 0xF1, 0xF4), (0x12, 0x16, 0x1C)],
}


class Picture:
    """The dots of a window's left part, where the surface is drawn."""

    def __init__(self, data):
        from PIL import Image

        self.dots = Image.open(io.BytesIO(data)).convert("RGB").crop((0, 0, PICTURE, 700))

    def places(self, look):
        """Gives the places of the dots that look so: pairs of x and y."""
        wide = self.dots.width
        return [divmod(at, wide)[::-1] for at, dot in enumerate(self.dots.getdata()) if LOOKS[look](*dot)]

    def count(self, look):
        """Gives how many dots look so."""
        return len(self.places(look))

    def highest(self, look):
        """Gives the highest dot that looks so, counted from above."""
        return min(y for _, y in self.places(look))

    def __eq__(self, other):
        return self.dots.tobytes() == other.dots.tobytes()

    def is_nearly(self, other):
        """Whether all but one dot in a hundred are the same."""
        same = sum(a == b for a, b in zip(self.dots.getdata(), other.dots.getdata()))
        return same > 0.99 * self.dots.width * self.dots.height


@needs("PIL")
@unittest.skipUnless(CHROMIUM, "needs the package chromium")
class Page(unittest.TestCase):
    """Two thalami with outlines, loops and marks that were made up, in one browser for all tests."""

    @classmethod
    def setUpClass(cls):
        cls.folder = tempfile.TemporaryDirectory()
        cls.page = f"{cls.folder.name}/page.html"
        text = file("examples/thalami.txt")
        marks = "".join(f"CROSS {number} 1\n" for number in range(101, 161))
        texts = {
            "thalami.byu": fku(["reconstruct"], text)[1],
            "loops.txt": fku(["slice", "--height=7450"], text)[1],
            "marks.txt": f"PARTS 2\nPART 1\n{marks}CROSSINGS 30\nPART 2\nCROSSINGS 0\n".encode(),
        }
        for name, data in texts.items():
            with open(f"{cls.folder.name}/{name}", "wb") as opened:
                opened.write(data)
        words = ["--surface", f"{cls.folder.name}/thalami.byu", "--outlines", f"{TOP}/examples/thalami.txt"]
        words += ["--loops", f"{cls.folder.name}/loops.txt", "--mark", f"{cls.folder.name}/marks.txt"]
        status, _, told = tool("show", [*words, "--unit=0.01mm", f"--title={EVIL}", "--html", cls.page])
        if status:
            raise AssertionError(told)
        cls.browser = Browser(1000, 700)

    @classmethod
    def tearDownClass(cls):
        cls.browser.close()
        cls.folder.cleanup()

    def tearDown(self):
        self.assertEqual(self.browser.complaints, [])
        self.assertEqual(self.browser.seen["request of the network"], 0)

    def load(self, fragment=""):
        """Opens the page with a fragment, and gives its picture."""
        self.browser.open(self.page, fragment)
        return self.picture()

    def open(self, fragment=""):
        """Gives the page, which is open already, the state of a fragment, and gives its picture."""
        if not self.browser.ask("location.href").startswith(f"file://{self.page}"):
            return self.load(fragment)
        self.browser.ask(f"state = stateOf('{fragment}'); change({{}}); showAnswer('')")
        self.browser.settle()
        return self.picture()

    def picture(self):
        return Picture(self.browser.picture())

    def set(self, name, value, event):
        """Gives a control a value, as a user does."""
        self.browser.ask(
            f"(() => {{ const it = document.getElementById('{name}'); it.value = '{value}'; "
            f"it.dispatchEvent(new Event('{event}', {{ bubbles: true }})); }})()"
        )
        self.browser.settle()
        return self.picture()

    def click(self, name):
        """Clicks an element, and gives the picture."""
        self.browser.click(name)
        return self.picture()

    def test_parts_outlines_loops_and_marks_are_seen(self):
        seen = self.load("#outlines=0&loops=0&marks=0")
        for look, least in [("orange", 30000), ("blue", 30000), ("ground", 50000)]:
            self.assertGreater(seen.count(look), least, look)
        self.assertEqual([seen.count(look) for look in ("red", "violet", "navy")], [0, 0, 0])
        self.assertEqual(self.load("#outlines=0&loops=0&marks=0"), seen)
        rows = [("loops=0&marks=0", "navy"), ("outlines=0&marks=0", "violet"), ("outlines=0&loops=0", "red")]
        for words, look in rows:
            self.assertGreater(self.open(f"#{words}").count(look), 100, look)

    def test_another_fragment(self):
        other = self.open("#outlines=0&view=40,30")
        first = self.load()
        self.browser.ask("location.hash = '#outlines=0&view=40,30'")
        self.browser.wait("state.view[0] === 40")
        self.browser.settle()
        self.assertEqual(self.picture(), other)
        self.browser.ask("location.hash = ''")
        self.browser.wait("state.view[0] === 30")
        self.browser.settle()
        self.assertEqual(self.picture(), first)

    def test_a_title_is_text(self):
        self.load()
        self.assertEqual(self.browser.ask("document.title"), EVIL)
        self.assertEqual(self.browser.ask("document.querySelector('h1').textContent.trim()"), EVIL)
        self.assertIsNone(self.browser.ask("window.run"))

    def test_the_cut(self):
        plain = "#view=0,0&outlines=0&loops=0&marks=0"
        whole, cut = self.open(plain), self.open(f"{plain}&cut=7450")
        self.assertGreater(cut.highest("orange"), whole.highest("orange") + 100)
        self.assertLess(cut.count("orange"), 0.7 * whole.count("orange"))
        above = self.open(f"{plain}&cut=7450&keep=above")
        self.assertEqual(above.highest("orange"), whole.highest("orange"))
        both = above.count("orange") + cut.count("orange")
        self.assertAlmostEqual(both / whole.count("orange"), 1, delta=0.05)
        self.open(plain)
        self.assertEqual(self.set("height_slider", 7450, "input"), cut)
        self.assertTrue(self.browser.ask("document.getElementById('cut').checked"))
        self.assertEqual(self.browser.ask("document.getElementById('height_length').textContent"), "74.5 mm")
        self.set("height", 8000, "change")
        self.assertEqual(self.set("height", 7450, "change"), cut)
        self.assertEqual(self.click("cut"), whole)

    def test_a_cut_opens_a_filled_section(self):
        seen = self.open("#view=0,90&cut=7450&outlines=0&loops=0&marks=0")
        counts = seen.dots.getcolors(1 << 20)
        for part in [(0.9, 0.62, 0.0), (0.34, 0.71, 0.91)]:
            fill = [255 * (it + 0.3 * (1 - it)) for it in part]
            near = [count for count, dot in counts if max(abs(a - b) for a, b in zip(dot, fill)) < 3]
            self.assertGreater(sum(near), 10000, part)

    def test_parts_switched_off(self):
        plain = "#outlines=0&loops=0&marks=0"
        whole, left = self.open(plain), self.open(f"{plain}&hide=2")
        self.assertEqual((left.count("blue"), left.count("orange") > 30000), (0, True))
        self.open(plain)
        self.browser.ask("parts[1].box.click()")
        self.browser.settle()
        self.assertEqual(self.picture(), left)
        self.assertEqual(self.click("all"), whole)
        self.assertEqual(self.click("none").count("ground"), self.open(f"{plain}&hide=1,2").count("ground"))
        self.assertEqual(self.picture().count("orange"), 0)
        names = self.browser.ask("[...document.querySelectorAll('#list .name')].map((it) => it.textContent).join()")
        self.assertEqual(names, "left,right")

    def test_switches(self):
        first = self.open("#marks=0")
        seen = [first]
        for name in ("edges", "outlines", "loops", "box", "dark"):
            changed = self.click(name)
            self.assertTrue(all(changed != it for it in seen), name)
            self.assertEqual(self.open("#marks=0"), first)
            seen.append(changed)
        flat = self.open("#marks=0&flat=1")
        self.assertTrue(all(flat != it for it in seen))
        thin = self.set("opacity", 30, "input")
        self.assertNotEqual(thin, flat)
        self.assertEqual(self.open("#marks=0&flat=1&opacity=0.3"), thin)
        self.assertGreater(self.open("#marks=0&outlines=0&dark=1").count("ground"), 50000)

    def test_mouse(self):
        first = self.open()
        self.browser.drag((300, 300), (400, 300))
        self.assertEqual(self.browser.ask("state.view.join()"), "-10,20")
        turned = self.picture()
        self.assertNotEqual(turned, first)
        self.browser.drag((300, 300), (340, 280), "right")
        self.assertEqual(self.browser.ask("state.view.join()"), "-10,20")
        self.assertNotEqual(self.picture(), turned)
        self.browser.mouse("mouseWheel", 200, 200, "none", deltaX=0, deltaY=-200)
        self.browser.wait("state.half < 0.8 * camera.whole.half")
        self.browser.wait("location.hash === fragmentOf(state)")
        self.browser.settle()
        told, kept = self.browser.ask("location.hash"), self.picture()
        self.assertTrue(self.load(told).is_nearly(kept))
        self.assertEqual(self.click("reset"), first)

    def test_a_click_asks(self):
        self.open("#view=0,0&outlines=0&loops=0&marks=0")
        x, y = self.picture().places("blue")[20000]
        for kind in ("mousePressed", "mouseReleased"):
            self.browser.mouse(kind, x, y)
        told = self.browser.ask("document.getElementById('answer').textContent")
        self.assertRegex(told, r"^right, triangle [\d,]+: x [\d,]+, y [\d,]+, z [\d,]+$")

    def test_fingers(self):
        self.open()
        self.browser.touch([(300, 300), (330, 300), (350, 300)])
        self.assertEqual(self.browser.ask("state.view.join()"), "10,20")
        before = self.browser.ask("camera.half")
        self.browser.touch([(250, 300), (200, 300), (150, 300)], [(350, 300), (400, 300), (450, 300)])
        self.assertEqual(self.browser.ask("state.view.join()"), "10,20")
        self.assertAlmostEqual(before / self.browser.ask("state.half"), 3, delta=0.1)

    def test_keys(self):
        first = self.open()
        self.browser.ask("canvas.focus()")
        self.browser.key("ArrowLeft")
        self.browser.key("ArrowDown")
        self.assertEqual(self.browser.ask("state.view.join()"), "35,25")
        self.browser.key("+")
        before = self.browser.ask("state.at")
        self.browser.key("ArrowLeft", shift=True)
        self.assertNotEqual(self.browser.ask("state.at"), before)
        self.assertLess(self.browser.ask("state.half / camera.whole.half"), 0.9)
        self.browser.key("PageDown")
        self.assertLess(self.browser.ask("state.cut"), self.browser.ask("highest"))
        self.browser.click("cut")
        self.browser.key("Home")
        self.assertEqual(self.picture(), first)

    def test_places_of_marks(self):
        self.open("#outlines=0&loops=0&hide=1")
        self.assertEqual(self.picture().count("red"), 0)
        seen = self.click("next")
        self.assertGreater(seen.count("red") + seen.count("orange"), 1000)
        told = self.browser.ask("document.getElementById('answer').textContent")
        self.assertRegex(told, r"^Place 1 of \d+: triangle")
        hidden = self.open("#outlines=0&loops=0&through=0&view=180,20").count("red")
        self.assertNotEqual(hidden, self.open("#outlines=0&loops=0&view=180,20").count("red"))

    def test_a_small_window(self):
        self.open()
        self.browser.resize(360, 640, 2)
        self.assertEqual(self.browser.ask("document.documentElement.scrollWidth"), 360)
        self.assertGreater(self.browser.ask("canvas.clientHeight"), 250)
        self.assertEqual(self.browser.ask("canvas.width"), 720)
        self.browser.resize(1000, 700)

    def test_many_parts_and_many_points(self):
        path = f"{self.folder.name}/many.html"
        names = [EVIL, *(f"part <{number}> & more" for number in range(2, 15))]
        corner = [(0, 0, 0), (20, 0, 0), (0, 20, 0), (0, 0, 20)]
        corners = [(30 * at + x, y, z) for at in range(14) for x, y, z in corner]
        parts = [
            [(at, at + 2, at + 1), (at, at + 1, at + 3), (at + 1, at + 2, at + 3), (at + 2, at, at + 3)]
            for at in range(65536, 65536 + 56, 4)
        ]
        with open(path, "wb") as opened:
            mesh = byu.Mesh([(0, 0, 0)] * 65536 + corners, parts)
            opened.write(page.page(page.Content("many", [], mesh, names, view=(0, 20))))
        self.browser.open(path)
        told = self.browser.ask("[...document.querySelectorAll('#list .name')].map((it) => it.textContent)")
        self.assertEqual(told, names)
        self.assertIsNone(self.browser.ask("window.run"))
        seen = self.picture()
        self.assertGreater(min(seen.count("orange"), seen.count("blue")), 300)
        self.set("find", "PART <1", "input")
        listed = "parts.filter((it) => !it.line.hidden).map((it) => it.number).join()"
        self.assertEqual(self.browser.ask(listed), "10,11,12,13,14")
        self.click("none")
        self.assertEqual(self.browser.ask("[...state.hide].join()"), "10,11,12,13,14")
        self.browser.ask("parts[2].line.querySelector('button').click()")
        self.assertEqual(self.browser.ask("state.hide.size"), 13)
        self.assertFalse(self.browser.ask("state.hide.has(3)"))

    def test_outlines_alone_seen_from_above(self):
        path = f"{self.folder.name}/outlines.html"
        self.assertEqual(tool("show", ["--outlines", f"{TOP}/examples/squares.txt", "--html", path])[0], 0)
        self.browser.open(path)
        self.assertGreater(self.picture().count("navy"), 1000)


@unittest.skipUnless(CHROMIUM, "needs the package chromium")
class WithoutWebGL(unittest.TestCase):
    """A browser that cannot draw."""

    def test_it_says_so(self):
        with tempfile.TemporaryDirectory() as folder, Browser(800, 600, ["--disable-3d-apis"]) as browser:
            path = os.path.join(folder, "page.html")
            self.assertEqual(tool("show", ["--surface", f"{TOP}/examples/squares.byu", "--html", path])[0], 0)
            browser.open(path)
            self.assertIn("WebGL 2 is missing", browser.ask("document.getElementById('trouble').innerText"))
            self.assertIn("Parts", browser.ask("document.body.innerText"))
