"""Tests of what proves the crates for `make run`."""
