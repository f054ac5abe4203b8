"""Closed triangle surfaces from outlines on serial slices, by the proved program `fku`.

    import fku
    mesh = fku.reconstruct({0: [ring, ..], 1.5: [ring, ..]}, unit=0.01)

`fku.api` says what the calls take and give, and docs/python.md has examples. The calls need numpy, and load it when the
first of them is used; the modules of the companion tools, such as `fku.section_text`, stand beside them.
"""
import importlib

CALLS = (
    "certify", "check", "clean", "densify", "read_outlines", "reconstruct", "report", "slice", "tilings", "to_text",
)  # fmt: skip
RESULTS = (
    "Area", "Certificate", "Cleaned", "Dense", "Key", "Loop", "Mesh", "Note", "Part", "Report", "Source", "Tiling",
    "Verdict",
)  # fmt: skip

__all__ = ["FkuError", *CALLS, *RESULTS]


def __getattr__(name):
    """Gives a call or a type of `fku.api`, which is loaded then."""
    if name not in __all__:
        raise AttributeError(f"module 'fku' has no attribute {name!r}")
    return getattr(importlib.import_module("fku.faults" if name == "FkuError" else "fku.api"), name)


def __dir__():
    """Gives the names of the package."""
    return sorted({*globals(), *__all__})
