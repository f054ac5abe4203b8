"""Puts the program into the package `fku`: the one in the folder `release`, or else the one that was built in this
checkout. Where there is neither, the package looks for the program when it is used. pyproject.toml has all else.
"""
import os

from setuptools import setup
from setuptools.command.build_py import build_py

try:
    from setuptools.command.bdist_wheel import bdist_wheel
except ImportError:  # before setuptools 70
    from wheel.bdist_wheel import bdist_wheel

NAME = "fku-linux-x86-64"
PROGRAM = next(filter(os.path.isfile, (f"release/{NAME}", "crates/fku/out/fku")), None)


class WithProgram(build_py):
    """Copies the program beside the modules; a package that is used from the checkout finds it there."""

    def run(self):
        super().run()
        if PROGRAM and not getattr(self, "editable_mode", False):
            folder = os.path.join(self.build_lib, "fku", "program")
            self.mkpath(folder)
            self.copy_file(PROGRAM, os.path.join(folder, NAME))
            os.chmod(os.path.join(folder, NAME), 0o755)


class ForOneSystem(bdist_wheel):
    """Marks a package that has the program as one for its system, and for each Python 3."""

    def get_tag(self):
        return ("py3", "none", "linux_x86_64") if PROGRAM else super().get_tag()


setup(cmdclass={"build_py": WithProgram, "bdist_wheel": ForOneSystem})
