"""What the tests share: the program, the tools, and whether a mesh is closed."""
import collections
import os
import re
import subprocess
import sys
from fractions import Fraction

from fku import byu

TOOLS = os.path.dirname(os.path.dirname(os.path.abspath(__file__)))
TOP = os.path.dirname(TOOLS)


def chosen():
    """Gives the path of the program that ./fku runs, or nothing where it would have to be built first."""
    ran = subprocess.run([f"{TOOLS}/which"], stdout=subprocess.PIPE, stderr=subprocess.DEVNULL, check=False)
    return ran.stdout.decode().rstrip("\n")


PROGRAM = os.environ.get("FKU") or chosen()


def file(name):
    """Gives the bytes of a file of the repository."""
    with open(f"{TOP}/{name}", "rb") as opened:
        return opened.read()


def commands():
    """Gives the commands in the table of README.md: the words of each, as they stand there, and what it reads."""
    table = file("README.md").decode().partition("| Words | Input | Output |")[2].partition("\n\n")[0]
    return re.findall(r"(?m)^\| `([^`]*)` \| ([^|]*) \|", table)


def fku(words, text):
    """Runs the program, and gives its status and what it wrote."""
    ran = subprocess.run([PROGRAM, *words], input=text, capture_output=True, timeout=300, check=False)
    return ran.returncode, ran.stdout


def tool(name, words, text=b""):
    """Runs a tool by this Python, and gives its status, what it wrote, and what it told on the standard error."""
    command = [sys.executable, f"{TOOLS}/{name}", *words]
    ran = subprocess.run(command, input=text, capture_output=True, timeout=300, check=False)
    return ran.returncode, ran.stdout, ran.stderr.decode()


def unpaired(mesh):
    """Gives the directed edges that occur more often than their reverse; none where the mesh is closed."""
    count = collections.Counter()
    for triangle in mesh.triangles():
        for at in range(3):
            count[triangle[at - 1], triangle[at]] += 1
    return [edge for edge in count if count[edge] > count[edge[::-1]]]


def is_closed(text):
    """Whether a surface is closed, by its edges, and where the program has the command `count`, by that too."""
    by_edges = not unpaired(byu.parse(text))
    status, out = fku(["count"], text)
    if status != 2 and (b"CLOSED yes\n" in out) != by_edges:
        raise AssertionError(f"fku count says {out!r}")
    return by_edges


def volume(points, triangles):
    """Gives the volume inside a closed mesh, exactly where the points are whole or fractions."""
    six = 0
    for a, b, c in triangles:
        (ax, ay, az), (bx, by, bz), (cx, cy, cz) = points[a], points[b], points[c]
        six += ax * (by * cz - bz * cy) + ay * (bz * cx - bx * cz) + az * (bx * cy - by * cx)
    return Fraction(six) / 6
