"""Tests of the companion tools that need the standard library, and the built program."""
