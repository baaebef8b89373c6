"""Builds the program and the library for other systems. Each module is run as `python3 -m systems.NAME`."""
