"""Tests of what builds for other systems, and of what is built."""
