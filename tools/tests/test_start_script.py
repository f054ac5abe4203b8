"""The start script ./fku, and tools/which, tools/build and tools/release: in a copy of the checkout that has the
program as its release, and a stand-in for the Rattle kit where one is wanted.
"""
import functools
import hashlib
import os
import pty
import re
import shutil
import signal
import subprocess
import tempfile
import time
import unittest

from tests.common import PROGRAM, TOP, commands, file
from tests.row_files import shared_text

SQUARES = file("examples/squares.txt")
SURFACE = file("examples/squares.byu")
SCRIPTS = ("fku", "tools/sources.sh", "tools/which", "tools/build", "tools/release")
KIT = "rattle-kit-0 logic 0"

# The program is said to stand on two crates, so that its sources are few and a checksum of them takes little time.
CRATES = "byu_text: fku_types itoa\nmesh_edges: fku_types\nfku_types: arrayvec\nfku: byu_text clap\n"

# A stand-in for `rt`: `rt version` prints a line, `rt help` the words that `rt ci` takes, and `rt ci` says that it has
# proved all crates, and gives a program.
STAND_IN = """#!/bin/sh
if [ "$1" = version ]; then echo '{kit}'; exit; fi
if [ "$1" = help ]; then echo 'rt ci {takes}'; exit; fi
[ $# = 1 ] || [ -n '{takes}' ] || exit 2
[ ! -e {folder}/fails ] || {{ echo 'rt: it failed'; exit 1; }}
sed 's/:.*//' crates.txt | while read -r name; do echo "rt: $name proved"; done
mkdir -p crates/fku/out && cp {program} crates/fku/out/fku
"""


class Checkout(unittest.TestCase):
    """A copy of the checkout, in which tests change what they want to."""

    @classmethod
    def setUpClass(cls):
        """Makes the copy that each test's own is a copy of."""
        cls.room = tempfile.TemporaryDirectory()
        cls.top, cls.kit = f"{cls.room.name}/whole/checkout", f"{cls.room.name}/whole/kit"
        for name in (*SCRIPTS, "README.md", "HANDLES", "docs/formats.md", "examples/squares.txt"):
            os.makedirs(os.path.dirname(f"{cls.top}/{name}"), exist_ok=True)
            shutil.copy(f"{TOP}/{name}", f"{cls.top}/{name}")
        os.makedirs(f"{cls.top}/crates")
        with open(f"{cls.top}/crates.txt", "w", encoding="ascii") as opened:
            opened.write(CRATES)
        for crate in ("byu_text", "fku_types"):
            os.symlink(f"{TOP}/crates/{crate}", f"{cls.top}/crates/{crate}")
        shutil.copytree(f"{TOP}/crates/fku", f"{cls.top}/crates/fku", ignore=shutil.ignore_patterns("out"))
        cls("put_release").put_release()

    @classmethod
    def tearDownClass(cls):
        cls.room.cleanup()

    def setUp(self):
        own = f"{self.room.name}/own"
        shutil.copytree(f"{self.room.name}/whole", own, symlinks=True)
        self.addCleanup(shutil.rmtree, own)
        self.top, self.kit = f"{own}/checkout", f"{own}/kit"
        self.put_kit()

    def path(self, name):
        """Gives the path of a file of the copy."""
        return f"{self.top}/{name}"

    def sources(self):
        """Gives the checksum of the copy's sources, by the function of the scripts."""
        return self.ask('top=$1; . "$top/tools/sources.sh"; sources_sum')

    def ask(self, script):
        """Gives the line that a script prints; its first word is the top of the copy."""
        ran = subprocess.run(["sh", "-c", script, "sh", self.top], stdout=subprocess.PIPE, check=True)
        return ran.stdout.decode().strip()

    def put_release(self):
        """Makes the program the release of the copy's sources, by `tools/release` and a stand-in for the kit."""
        self.put_kit()
        os.makedirs(self.path("crates/fku/out"))
        shutil.copy(PROGRAM, self.path("crates/fku/out/fku"))
        made = self.call("tools/release", kit=True)
        self.assertEqual((made[0], made[2]), (0, b""))
        shutil.rmtree(self.path("crates/fku/out"))

    def put_kit(self, program=PROGRAM, takes="[--anew] [NAME..]"):
        """Makes a folder for the path with a stand-in for `rt`, whose `rt ci` takes these words."""
        os.makedirs(self.kit, exist_ok=True)
        self.put_command("rt", STAND_IN.format(kit=KIT, folder=self.kit, program=program, takes=takes))

    def put_command(self, name, text):
        """Puts a command into that folder."""
        with open(f"{self.kit}/{name}", "w", encoding="ascii") as opened:
            opened.write(text)
        os.chmod(f"{self.kit}/{name}", 0o755)

    def environment(self, kit):
        """Gives an environment whose path has no Rattle kit, or the stand-in first."""
        return {"PATH": f"{self.kit}:/usr/bin:/bin" if kit else "/usr/bin:/bin", "LANG": "C"}

    def call(self, *words, text=SQUARES, kit=False, **how):
        """Runs a script of the copy, and gives its status, its output and its standard error."""
        how = {"stdout": subprocess.PIPE, **({} if "stdin" in how else {"input": text}), **how}
        words = [self.path(words[0]), *words[1:]]
        ran = subprocess.run(
            words, stderr=subprocess.PIPE, env=self.environment(kit), cwd="/", timeout=120, check=False, **how
        )
        return ran.returncode, ran.stdout, ran.stderr

    def change(self, name, old=None, new="\n"):
        """Puts a text in the place of another one in a file of the copy, or adds it."""
        with open(self.path(name), encoding="ascii") as opened:
            text = opened.read()
        with open(self.path(name), "w", encoding="ascii") as opened:
            opened.write(text + new if old is None else text.replace(old, new))

    def spoil(self, name, place):
        """Changes one byte of a file of the copy."""
        with open(self.path(name), "r+b") as opened:
            opened.seek(place)
            byte = opened.read(1)[0]
            opened.seek(place)
            opened.write(bytes([byte ^ 1]))


class Choice(Checkout):
    """Which program runs, and what is said where none does."""

    def is_refused(self, *parts, kit=False):
        """No program runs, and the standard error has these parts."""
        status, output, error = self.call("fku", "reconstruct", kit=kit)
        self.assertEqual((status, output), (70, b""))
        for part in parts:
            self.assertIn(part, error.decode())

    def test_a_clean_checkout_runs_at_once(self):
        self.assertEqual(self.call("fku", "reconstruct"), (0, SURFACE, b""))
        status, output, error = self.call("tools/which")
        self.assertEqual((status, output.decode()), (0, self.path("release/fku-linux-x86-64\n")))
        self.assertIn(b"the released program", error)

    def test_called_through_a_link(self):
        os.symlink(self.path("fku"), f"{self.kit}/fku")
        os.symlink("fku", f"{self.kit}/surface")
        ran = subprocess.run(
            ["surface", "reconstruct"], input=SQUARES, capture_output=True, env=self.environment(True), check=False
        )
        self.assertEqual((ran.returncode, ran.stdout), (0, SURFACE))

    def test_the_checksum(self):
        """It is that of the files' own checksums and names, and of the lines of crates.txt."""
        lines = dict(re.findall(r"(?m)^(\w+): *(.*)$", file("crates.txt").decode()))
        below, open_ = {"fku"}, ["fku"]
        while open_:
            more = [it for it in lines[open_.pop()].split() if it in lines and it not in below]
            below.update(more)
            open_ += more
        sums = []
        for crate in below:
            for part in ("src", "specs", "proofs"):
                for folder, _, names in os.walk(f"{TOP}/crates/{crate}/{part}"):
                    for name in names:
                        path = os.path.relpath(f"{folder}/{name}", f"{TOP}/crates")
                        sums.append(f"{hashlib.sha256(file(f'crates/{path}')).hexdigest()}  {path}\n")
        self.top = TOP
        names = self.ask('top=$1; . "$top/tools/sources.sh"; crates')
        self.assertEqual(set(names.split()), below)
        whole = self.ask('top=$1; . "$top/tools/sources.sh"; crate_lines') + "\n" + "".join(sorted(sums))
        self.assertEqual(self.sources(), hashlib.sha256(whole.encode()).hexdigest())

    def test_other_crates_do_not_count(self):
        before = self.sources()
        self.change("crates.txt", new="one_more: fku\n")
        os.makedirs(self.path("crates/one_more/src"))
        self.change("crates/fku/README.md")
        self.assertEqual(self.sources(), before)
        self.change("crates.txt", "fku: byu_text", "fku: fku_types byu_text")
        self.assertNotEqual(self.sources(), before)

    def test_a_changed_source_without_a_kit(self):
        self.change("crates/fku/src/main.rt")
        self.is_refused("changed, or the release is old", "no rt on the path", "README.md", "git status")
        self.assertEqual(self.call("tools/which")[:2], (1, b""))

    def test_a_new_source_and_one_that_is_gone(self):
        os.makedirs(self.path("crates/fku/proofs"))
        with open(self.path("crates/fku/proofs/More.antt"), "w", encoding="ascii"):
            pass
        self.is_refused("other sources than those in crates/")
        shutil.rmtree(self.path("crates/fku/proofs"))
        self.assertEqual(self.call("fku", "reconstruct")[0], 0)
        os.unlink(self.path("crates/byu_text"))
        self.is_refused("other sources than those in crates/")

    def test_an_old_release(self):
        self.change("release/fku-linux-x86-64.txt", self.sources(), 64 * "0")
        self.is_refused("changed, or the release is old", "no rt on the path")

    def test_no_release(self):
        os.unlink(self.path("release/fku-linux-x86-64.txt"))
        self.is_refused("there is no release", "no rt on the path")

    def test_a_damaged_release(self):
        self.spoil("release/fku-linux-x86-64", 1000)
        self.is_refused("fku-linux-x86-64 is not the program that was released")

    def test_another_system(self):
        os.unlink(f"{self.kit}/rt")
        for name, answer, part in (
            ("uname", "echo Linux aarch64", "this system is Linux aarch64"),
            ("getconf", "echo glibc 2.31", "version 2.34 or later, and this system has 2.31"),
            ("getconf", "exit 1", "this system has another C library"),
        ):
            with self.subTest(answer):
                self.put_command(name, f"#!/bin/sh\n{answer}\n")
                self.is_refused(part, "tools/build", kit=True)
                os.unlink(f"{self.kit}/{name}")
        for version in ("2.34", "2.101", "3.0"):
            self.put_command("getconf", f"#!/bin/sh\necho glibc {version}\n")
            self.assertEqual(self.call("fku", "reconstruct", kit=True), (0, SURFACE, b""))


class Build(Checkout):
    """`tools/build`, and the call of it where sources were changed; the kit is a stand-in."""

    def test_a_changed_source_is_built_once(self):
        self.change("crates/fku/src/main.rt")
        status, output, error = self.call("fku", "reconstruct", kit=True)
        self.assertEqual((status, output), (0, SURFACE))
        self.assertIn(b"crate 3 of 3 is done: fku", error)
        self.assertEqual(self.call("fku", "reconstruct"), (0, SURFACE, b""))
        self.assertEqual(self.call("tools/which")[1].decode(), self.path("crates/fku/out/fku\n"))
        self.spoil("crates/fku/out/fku", 1000)
        self.assertEqual(self.call("fku", "reconstruct")[0], 70)

    def test_sources_that_change_again(self):
        for _ in range(2):
            self.change("crates/fku/src/main.rt")
            self.assertEqual(self.call("fku", "reconstruct", kit=True)[:2], (0, SURFACE))

    def test_a_kit_that_keeps_nothing(self):
        self.put_kit(takes="")
        self.assertEqual(self.call("tools/build", kit=True)[0], 0)
        self.change("crates/fku/src/main.rt")
        self.assertEqual(self.call("fku", "reconstruct", kit=True)[:2], (0, SURFACE))

    def test_a_build_that_fails(self):
        self.change("crates/fku/src/main.rt")
        with open(f"{self.kit}/fails", "w", encoding="ascii"):
            pass
        status, output, error = self.call("fku", "reconstruct", kit=True)
        self.assertEqual((status, output), (70, b""))
        self.assertIn(b"the build failed", error)
        self.assertIn(b"rt: it failed", error)

    def test_the_same_as_the_release(self):
        status, _, error = self.call("tools/build", kit=True)
        self.assertEqual(status, 0, error)
        self.assertIn(b"it is the same as the released program, byte for byte", error)

    def test_other_than_the_release(self):
        other = f"{self.kit}/other"
        shutil.copy(PROGRAM, other)
        with open(other, "ab") as opened:
            opened.write(b"\0")
        self.put_kit(other)
        status, _, error = self.call("tools/build", kit=True)
        self.assertEqual(status, 1)
        self.assertIn(b"it differs from the released program", error)

    def test_without_a_kit(self):
        status, _, error = self.call("tools/build")
        self.assertEqual(status, 70)
        self.assertIn(b"no rt on the path", error)


class Release(Checkout):
    """`tools/release --check`, which the gate calls: nothing may differ by one byte."""

    def setUp(self):
        super().setUp()
        os.makedirs(self.path("crates/fku/out"))
        shutil.copy(PROGRAM, self.path("crates/fku/out/fku"))

    def check(self):
        """Gives the status and the last line."""
        status, output, _ = self.call("tools/release", "--check", kit=True)
        return status, output.decode().split("\n")[-2]

    def fails(self):
        """The check fails."""
        status, line = self.check()
        self.assertEqual((status, line.startswith("3 passed")), (1, False), line)

    def test_it_passes(self):
        self.assertEqual(self.check(), (0, "3 passed, 0 failed"))

    def test_a_byte_of_the_text(self):
        name = "release/fku-linux-x86-64.txt"
        with open(self.path(name), encoding="ascii") as opened:
            ends = [it.end() for it in re.finditer("\n", opened.read())]
        for end in ends:
            self.spoil(name, end - 2)
            self.fails()
            self.spoil(name, end - 2)
        self.assertEqual(self.check(), (0, "3 passed, 0 failed"))

    def test_bytes_of_the_program(self):
        size = os.path.getsize(PROGRAM)
        for place in (0, size // 3, size // 2, size - 1):
            self.spoil("release/fku-linux-x86-64", place)
            self.fails()
            self.spoil("release/fku-linux-x86-64", place)
        self.spoil("crates/fku/out/fku", size // 2)
        self.fails()

    def test_a_byte_of_a_source(self):
        self.spoil("crates/fku/src/main.rt", 100)
        self.fails()

    def test_another_kit(self):
        for kit, status in (("rattle-kit-1 logic 0", 0), ("rattle-kit-0 logic 1", 1), ("other", 1)):
            self.put_command("rt", f"#!/bin/sh\necho {kit}\n")
            self.assertEqual(self.check()[0], status, kit)

    def test_not_executable(self):
        os.chmod(self.path("release/fku-linux-x86-64"), 0o644)
        self.fails()


class Streams(Checkout):
    """What the program reads and writes, and its status, are its own; faults are told on the standard error."""

    def test_a_refusal_into_a_file(self):
        with open(f"{self.kit}/surface", "w+b") as surface:
            status, _, error = self.call("fku", "reconstruct", text=b"SECTIONS 1\nx\n", stdout=surface)
            surface.seek(0)
            self.assertEqual((status, surface.read()), (1, b"REFUSED 1 FORM line 2\n"))
        self.is_told(error)

    def is_told(self, error):
        """The refusal of line 2 is told, with what it means."""
        lines = error.decode().split("\n")
        self.assertEqual(lines[0], "fku: the input was refused: REFUSED 1 FORM line 2")
        self.assertIn("cannot be read at its place", lines[1])
        self.assertIn("docs/formats.md", error.decode())
        self.assertIn("tools/explain FILE reconstruct", error.decode())

    def test_the_input_is_named(self):
        """Where the input is a file, the call of `tools/explain` has its name."""
        with open(f"{self.kit}/bad.txt", "w+b") as bad:
            bad.write(b"SECTIONS 1\nx\n")
            bad.flush()
            bad.seek(0)
            status, output, error = self.call("fku", "slice", "--height=5", stdin=bad)
        self.assertEqual((status, output), (1, b"REFUSED 1 FORM line 2\n"))
        self.assertIn(f"tools/explain {self.kit}/bad.txt slice --height=5", error.decode())

    def test_a_refusal_behind_other_bytes_of_a_file(self):
        with open(f"{self.kit}/surface", "w+b") as surface:
            surface.write(b"before\n")
            surface.flush()
            status, _, error = self.call("fku", "reconstruct", text=b"SECTIONS 1\nx\n", stdout=surface)
            surface.seek(0)
            self.assertEqual((status, surface.read()), (1, b"before\nREFUSED 1 FORM line 2\n"))
        self.is_told(error)

    def test_a_refusal_into_a_pipe(self):
        status, output, error = self.call("fku", "reconstruct", text=b"SECTIONS 1\nx\n")
        self.assertEqual((status, output), (1, b"REFUSED 1 FORM line 2\n"))
        self.is_told(error)

    def test_each_refusal_has_a_meaning(self):
        """The words after the number are looked up in the table of refusals, by the number."""
        for text, part in (
            (b"", "none is `END`"),
            (SQUARES.replace(b"10 10", b"-1 5", 1), "is not simple"),
            (SQUARES.replace(b"b 4", b"a 4"), "has the name of an earlier contour"),
        ):
            status, _, error = self.call("fku", "reconstruct", text=text)
            self.assertEqual(status, 1)
            self.assertIn(part, error.decode())

    def test_a_refusal_on_a_terminal(self):
        """There the line itself stands above, and is not told again."""
        reader, writer = pty.openpty()
        status, _, error = self.call("fku", "reconstruct", text=b"SECTIONS 1\nx\n", stdout=writer)
        os.close(writer)
        shown = os.read(reader, 4096)
        os.close(reader)
        self.assertEqual((status, shown), (1, b"REFUSED 1 FORM line 2\r\n"))
        self.assertIn(b"the input was refused", error)

    def test_bad_words(self):
        status, output, error = self.call("fku", "weave")
        self.assertEqual((status, output), (2, shared_text("usage").encode()))
        self.assertIn(b"./fku --help", error)
        self.assertEqual(self.call("fku")[0], 2)
        self.assertEqual(self.call("fku", "reconstruct", "--help")[0], 2)

    def test_a_file_without_its_sign(self):
        """Where a word names a file, what is missing may be the `<` before it."""
        path = f"{self.kit}/my.txt"
        with open(path, "wb") as file:
            file.write(SQUARES)
        self.assertIn(f"./fku COMMAND < {path}", self.call("fku", "reconstruct", path)[2].decode())
        self.assertNotIn(b"<", self.call("fku", "reconstruct", f"{path}.txt")[2])

    def test_read_faults(self):
        folder = os.open("/", os.O_RDONLY)
        status, output, error = self.call("fku", "reconstruct", stdin=folder)
        os.close(folder)
        self.assertEqual((status, output), (3, b""))
        self.assertIn(b"could not be read", error)
        self.assertEqual(self.closed("<&-")[:2], (3, b""))

    def closed(self, redirection):
        """Runs `reconstruct` with another stream closed or sent elsewhere."""
        script = f'exec "$0" reconstruct {redirection}'
        ran = subprocess.run(
            ["sh", "-c", script, self.path("fku")],
            input=SQUARES,
            capture_output=True,
            env=self.environment(False),
            timeout=60,
            check=False,
        )
        return ran.returncode, ran.stdout, ran.stderr

    def test_write_faults(self):
        for redirection in (">&-", ">/dev/full"):
            status, output, error = self.closed(redirection)
            self.assertEqual((status, output), (4, b""))
            self.assertIn(b"could not be written", error)
        self.assertEqual(self.closed("2>&-"), (0, SURFACE, b""))
        self.assertEqual(self.closed(">&- 2>&- <&-")[0], 3)

    def test_a_reader_that_leaves(self):
        """A pipe whose reader has gone before the program writes, and one whose reader goes amid a long output."""
        for text, reads in ((SQUARES, 0), (file("examples/caudate.txt"), 10)):
            process = subprocess.Popen(
                [self.path("fku"), "reconstruct"],
                stdin=subprocess.PIPE,
                stdout=subprocess.PIPE,
                stderr=subprocess.PIPE,
                env=self.environment(False),
            )
            if reads:
                process.stdin.write(text)
                process.stdin.close()
                process.stdout.read(reads)
                process.stdout.close()
            else:
                process.stdout.close()
                process.stdin.write(text)
                process.stdin.close()
            error = process.stderr.read()
            process.stderr.close()
            self.assertEqual(process.wait(), 4)
            self.assertIn(b"could not be written", error)

    def test_long_outputs_are_the_same(self):
        for name in ("caudate", "labels", "hill"):
            text = file(f"examples/{name}.txt")
            plain = subprocess.run([PROGRAM, "reconstruct"], input=text, stdout=subprocess.PIPE, check=True).stdout
            self.assertEqual(self.call("fku", "reconstruct", text=text), (0, plain, b""))

    def test_no_memory_and_no_words(self):
        self.assertEqual(self.call("fku", b"\377")[:2], (6, b""))

    def test_a_signal_ends_both(self):
        for number in (signal.SIGTERM, signal.SIGINT, signal.SIGHUP, signal.SIGQUIT):
            for sink in (subprocess.PIPE, subprocess.DEVNULL):
                process = subprocess.Popen(
                    [self.path("fku"), "reconstruct"],
                    stdin=subprocess.PIPE,
                    stdout=sink,
                    stderr=subprocess.PIPE,
                    env=self.environment(False),
                    start_new_session=True,
                    # a shell's job in the background, in which the tests may run, ignores some signals
                    preexec_fn=functools.partial(signal.signal, number, signal.SIG_DFL),
                )
                self.wait_for_program()
                process.send_signal(number)
                process.communicate(timeout=20)
                self.assertEqual(process.returncode, -number)
                self.assertTrue(self.has_ended(process.pid))

    def has_ended(self, group):
        """Whether all processes of a group end within some seconds."""
        for _ in range(200):
            try:
                os.killpg(group, 0)
            except ProcessLookupError:
                return True
            time.sleep(0.05)
        return False

    def wait_for_program(self):
        """Waits until the program runs below the script."""
        for _ in range(400):
            if any(map(self.is_program, filter(str.isdigit, os.listdir("/proc")))):
                return
            time.sleep(0.05)
        self.fail("the program did not start")

    def is_program(self, process):
        """Whether a process runs the released program of the copy."""
        try:
            return os.readlink(f"/proc/{process}/exe") == self.path("release/fku-linux-x86-64")
        except OSError:
            return False

    def test_a_program_that_a_signal_ends(self):
        for number, part in ((4, "lacks an instruction"), (9, "by signal 9")):
            with open(self.path("release/fku-linux-x86-64"), "w", encoding="ascii") as opened:
                opened.write(f"#!/bin/sh\nkill -{number} $$\n")
            total = hashlib.sha256(f"#!/bin/sh\nkill -{number} $$\n".encode()).hexdigest()
            text = re.sub("(?m)^sha256: .*", f"sha256: {total}", self.text())
            with open(self.path("release/fku-linux-x86-64.txt"), "w", encoding="ascii") as opened:
                opened.write(text)
            status, output, error = self.call("fku", "reconstruct")
            self.assertEqual((status, output), (128 + number, b""))
            self.assertIn(part, error.decode())

    def text(self):
        """Gives the text of the release."""
        with open(self.path("release/fku-linux-x86-64.txt"), encoding="ascii") as opened:
            return opened.read()

    def test_help(self):
        status, output, error = self.call("fku", "--help")
        self.assertEqual((status, error), (0, b""))
        for words, text in commands():
            text = re.sub(r"\[([^]]*)\]\([^)]*\)", r"\1", text)
            self.assertRegex(output.decode(), rf"(?m)^  {re.escape(words)}  +{re.escape(text)}: \S")

    def test_version(self):
        status, output, error = self.call("fku", "--version")
        self.assertEqual((status, error), (0, b""))
        self.assertIn("the released program", output.decode())
        for line in self.text().split("\n"):
            self.assertIn(line, output.decode())
