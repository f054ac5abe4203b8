"""A browser without a window, for tests of pages: Chromium, driven by its DevTools protocol over two pipes."""
import base64
import collections
import json
import os
import select
import shutil
import subprocess
import tempfile
import time

CHROMIUM = shutil.which("chromium") or shutil.which("chromium-browser") or shutil.which("google-chrome")
WORDS = [
    "--headless", "--no-sandbox", "--use-angle=swiftshader", "--enable-unsafe-swiftshader", "--hide-scrollbars",
    "--no-first-run", "--disable-extensions", "--force-device-scale-factor=1", "--remote-debugging-pipe",
]  # fmt: skip
LONGEST = 120  # seconds that an answer may take


class Browser:
    """One page in a browser. `complaints` has what its console and the browser say of errors and warnings."""

    def __init__(self, width=1000, height=700, more=()):
        self.folder = tempfile.TemporaryDirectory(ignore_cleanup_errors=True)
        self.complaints, self.answers, self.number, self.left = [], {}, 0, b""
        self.seen = collections.Counter()
        to_browser, self.write = os.pipe()
        self.read, from_browser = os.pipe()
        words = [CHROMIUM, *WORDS, *more, f"--user-data-dir={self.folder.name}", f"--window-size={width},{height}"]
        # the browser reads from the descriptor 3 and writes to 4; a shell moves them there
        moved = ["sh", "-c", 'exec "$0" "$@" 3<&"$IN" 4>&"$OUT"', *words]
        high = [os.dup(it) for it in (to_browser, from_browser)]
        env = {**os.environ, "IN": str(high[0]), "OUT": str(high[1])}
        self.process = subprocess.Popen(
            moved, pass_fds=high, env=env, stdin=subprocess.DEVNULL, stdout=subprocess.DEVNULL,
            stderr=subprocess.DEVNULL, start_new_session=True,
        )  # fmt: skip
        for it in (to_browser, from_browser, *high):
            os.close(it)
        self.session = None
        target = self.call("Target.createTarget", url="about:blank", newWindow=True)["targetId"]
        self.session = self.call("Target.attachToTarget", targetId=target, flatten=True)["sessionId"]
        for domain in ("Page", "Runtime", "Log", "Network"):
            self.call(f"{domain}.enable")
        self.resize(width, height)
        self.call("Emulation.setEmulatedMedia", features=[{"name": "prefers-color-scheme", "value": "light"}])

    def __enter__(self):
        return self

    def __exit__(self, *_):
        self.close()

    def close(self):
        """Ends the browser."""
        try:
            self.session = None
            self.call("Browser.close")
            self.process.wait(20)
        except (AssertionError, OSError, subprocess.TimeoutExpired):
            self.process.kill()
            self.process.wait()
        os.close(self.read)
        os.close(self.write)
        self.folder.cleanup()

    def next_message(self, until):
        """Gives the next message of the browser."""
        while b"\0" not in self.left:
            ready = select.select([self.read], [], [], max(0, until - time.monotonic()))[0]
            data = os.read(self.read, 1 << 20) if ready else b""
            if not data:
                raise AssertionError("the browser does not answer")
            self.left += data
        message, _, self.left = self.left.partition(b"\0")
        return json.loads(message)

    def note(self, message):
        """Keeps what a message tells that nobody asked for."""
        method, told = message.get("method"), message.get("params", {})
        self.seen[method] += 1
        if method == "Runtime.exceptionThrown":
            self.complaints.append(told["exceptionDetails"].get("exception", {}).get("description", "an exception"))
        elif method == "Runtime.consoleAPICalled" and told["type"] in ("error", "warning", "assert"):
            self.complaints.append(" ".join(str(it.get("value")) for it in told["args"]))
        elif method == "Log.entryAdded" and told["entry"]["level"] in ("error", "warning"):
            self.complaints.append(told["entry"]["text"])
        elif method == "Network.requestWillBeSent":
            url = told["request"]["url"]
            self.seen["request of the network"] += not url.startswith(("file:", "data:", "about:"))

    def call(self, method, **words):
        """Calls a method of the protocol, and gives its result."""
        self.number += 1
        message = {"id": self.number, "method": method, "params": words}
        if self.session:
            message["sessionId"] = self.session
        os.write(self.write, json.dumps(message).encode() + b"\0")
        until = time.monotonic() + LONGEST
        while True:
            answer = self.next_message(until)
            if answer.get("id") != self.number:
                self.note(answer)
                continue
            if "error" in answer:
                raise AssertionError(f"{method}: {answer['error']}")
            return answer["result"]

    def open(self, path, fragment=""):
        """Opens a file, and waits until it is loaded and drawn."""
        for url in ("about:blank", f"file://{path}{fragment}"):
            self.call("Page.navigate", url=url)
            without = json.dumps(url.partition("#")[0])
            self.wait(f"location.href.startsWith({without}) && document.readyState == 'complete'")
        self.settle()

    def wait(self, script):
        """Waits until a script is true in the page."""
        until = time.monotonic() + LONGEST
        while not self.ask(script):
            if time.monotonic() > until:
                raise AssertionError(f"in vain: {script}")
            time.sleep(0.05)

    def resize(self, width, height, ratio=1):
        """Gives the page a width and a height in pixels; each has `ratio` pixels of the screen along a side."""
        words = {"width": width, "height": height, "deviceScaleFactor": ratio, "mobile": ratio > 1}
        self.call("Emulation.setDeviceMetricsOverride", **words)
        self.settle()

    def settle(self):
        """Waits until the picture is drawn."""
        self.ask("new Promise((done) => requestAnimationFrame(() => requestAnimationFrame(done)))")

    def ask(self, script):
        """Gives what a script gives in the page."""
        told = self.call("Runtime.evaluate", expression=script, awaitPromise=True, returnByValue=True)
        if "exceptionDetails" in told:
            raise AssertionError(told["exceptionDetails"])
        return told["result"].get("value")

    def mouse(self, kind, x, y, button="left", **more):
        """Lets the mouse act at a place of the page: mousePressed, mouseMoved, mouseReleased or mouseWheel."""
        held = {"left": 1, "right": 2}.get(button, 0) if kind != "mouseReleased" else 0
        words = {"type": kind, "x": x, "y": y, "button": button, "buttons": held, "clickCount": 1}
        self.call("Input.dispatchMouseEvent", **words, **more)

    def drag(self, start, end, button="left"):
        """Drags the mouse from one place to another."""
        self.mouse("mousePressed", *start, button)
        for step in (1, 2, 3, 4):
            self.mouse("mouseMoved", *(a + (b - a) * step / 4 for a, b in zip(start, end)), button)
        self.mouse("mouseReleased", *end, button)
        self.settle()

    def touch(self, *fingers):
        """Moves fingers over the page: each has the places that it passes."""
        for at, places in enumerate(zip(*fingers)):
            points = [{"x": x, "y": y, "id": number} for number, (x, y) in enumerate(places)]
            self.call("Input.dispatchTouchEvent", type="touchMove" if at else "touchStart", touchPoints=points)
        self.call("Input.dispatchTouchEvent", type="touchEnd", touchPoints=[])
        self.settle()

    def key(self, key, shift=False):
        """Presses a key and lets it go."""
        names = ["PageUp", "PageDown", "End", "Home", "ArrowLeft", "ArrowUp", "ArrowRight", "ArrowDown"]
        code = 33 + names.index(key) if key in names else ord(key)
        for kind in ("rawKeyDown", "keyUp"):
            self.call("Input.dispatchKeyEvent", type=kind, key=key, windowsVirtualKeyCode=code, modifiers=8 * shift)
        self.settle()

    def click(self, name):
        """Clicks the element of this name, and waits until the picture is drawn."""
        self.ask(f"document.getElementById({json.dumps(name)}).click()")
        self.settle()

    def picture(self):
        """Gives the PNG picture of the window."""
        return base64.b64decode(self.call("Page.captureScreenshot", format="png")["data"])
