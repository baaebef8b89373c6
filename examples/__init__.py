"""Captures, and programs that make them: `python3 -m examples.make`."""
