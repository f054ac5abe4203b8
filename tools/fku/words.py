"""Readers of words of a tool's command line. The standard library is enough."""
import argparse
import math
import textwrap


class Paragraphs(argparse.HelpFormatter):
    """Writes the description of a tool in its paragraphs."""

    def _fill_text(self, text, width, indent):
        paragraphs = [" ".join(it.split()) for it in text.strip().split("\n\n")]
        indents = {"initial_indent": indent, "subsequent_indent": indent}
        return "\n\n".join(textwrap.fill(it, width, **indents) for it in paragraphs)


def number(word):
    """Gives the number that a word is."""
    try:
        value = float(word)
    except ValueError:
        value = math.nan
    if not math.isfinite(value):
        raise argparse.ArgumentTypeError(f"{word} is not a number")
    return value


def not_below_0(word):
    """Gives a number from 0 on."""
    if number(word) < 0:
        raise argparse.ArgumentTypeError(f"{word}: a number of 0 or more is required")
    return number(word)


def above_0(word):
    """Gives a number above 0."""
    if not_below_0(word) == 0:
        raise argparse.ArgumentTypeError(f"{word}: a number above 0 is required")
    return number(word)


def whole(word):
    """Gives an integer from 0 on."""
    if not (word.isascii() and word.isdecimal()):
        raise argparse.ArgumentTypeError(f"{word}: an integer of 0 or more is required")
    return int(word)


def cost(word):
    """Gives a cost rule as a section text has it: span, area, or mix with two weights up to 1,000, not both 0."""
    rule, *weights = word.split(",")
    weights = [whole(it) for it in weights]
    mixed = rule == "mix" and len(weights) == 2 and 0 < max(weights) <= 1000
    if not (mixed or rule in ("span", "area") and not weights):
        raise argparse.ArgumentTypeError(f"{word}: give span, area, or mix,A,B with weights from 0 to 1000, not both 0")
    return " ".join([rule, *map(str, weights)])
