"""What the companion tools share: their exit statuses, and how they report what is wrong."""
import importlib
import importlib.util
import os
import subprocess
import sys

REFUSED = 1  # the input cannot be used; 2 is argparse's status for a usage error
NOT_READ = 3
NOT_WRITTEN = 4
NO_MEMORY = 5
NO_PACKAGE = 69

DEBIANS_PYTHON = "/usr/bin/python3"  # which Debian's packages are for

STATUSES = (
    "status: 0 done, 1 the input cannot be used, 2 usage error, 3 a file could not be read, "
    "4 a file could not be written, 5 out of memory, 69 a package is missing"
)


class Trouble(Exception):
    """Ends a tool with a message and a status."""

    def __init__(self, message, status=REFUSED):
        super().__init__(message)
        self.status = status


def end(tool, main):
    """Runs `main`, and ends the process with its status. The standard error has the message of a Trouble, each of its
    lines after the name of the tool.
    """
    try:
        sys.exit(main())
    except Trouble as it:
        print("\n".join(f"{tool}: {line}" for line in str(it).split("\n")), file=sys.stderr)
        sys.exit(it.status)
    except MemoryError:
        print(f"{tool}: out of memory", file=sys.stderr)
        sys.exit(NO_MEMORY)
    except KeyboardInterrupt:
        sys.exit(130)


def has_packages(python, packages):
    """Whether a Python has these packages."""
    code = "import importlib.util, sys; sys.exit(not all(map(importlib.util.find_spec, sys.argv[1:])))"
    return subprocess.run([python, "-c", code, *packages], stdin=subprocess.DEVNULL, check=False).returncode == 0


def go_on_where(packages):
    """Begins again under Debian's own Python, where this one lacks one of these packages and that has them all.

    It comes before any input is read and any output is written.
    """
    if all(map(importlib.util.find_spec, packages)) or not os.access(DEBIANS_PYTHON, os.X_OK):
        return
    if has_packages(DEBIANS_PYTHON, packages):
        os.execv(DEBIANS_PYTHON, [DEBIANS_PYTHON, *sys.argv])


def wanted(module, debian, what):
    """Gives a module of a package; Trouble names the Debian package that has it, and what needs it."""
    try:
        return importlib.import_module(module)
    except ImportError:
        raise Trouble(
            f"{what} needs the Python package {module.partition('.')[0]}: on Debian `apt-get install {debian}`; "
            f"this Python is {sys.executable}, Debian's own is {DEBIANS_PYTHON}",
            NO_PACKAGE,
        ) from None


def read_bytes(path, most=None):
    """Gives the bytes of a file, `-` being the standard input; of a longer file than `most` the first most + 1."""
    size = -1 if most is None else most + 1
    try:
        if path == "-":
            return sys.stdin.buffer.read(size)
        with open(path, "rb") as file:
            return file.read(size)
    except OSError as it:
        raise Trouble(f"{path}: {it.strerror}", NOT_READ) from None


def write_output(data):
    """Writes to the standard output, and flushes it; where that fails, Python has nothing left to flush at its end."""
    try:
        sys.stdout.buffer.write(data)
        sys.stdout.buffer.flush()
    except OSError as it:
        os.dup2(os.open(os.devnull, os.O_WRONLY), sys.stdout.fileno())
        raise Trouble(f"the standard output: {it.strerror}", NOT_WRITTEN) from None


def write_bytes(path, data):
    """Writes a file whole, `-` being the standard output; no half of a file stays."""
    if path == "-":
        write_output(data)
        return
    try:
        with open(path, "wb") as file:
            file.write(data)
    except OSError as it:
        if os.path.isfile(path):
            os.unlink(path)
        raise Trouble(f"{path}: {it.strerror}", NOT_WRITTEN) from None
