"""Tests of the companion tools that need packages."""
