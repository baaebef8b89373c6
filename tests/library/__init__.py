"""Tests of the library: from C, C++ and Python."""
