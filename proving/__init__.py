"""Proves the crates for `make run` and `make lib`: in which order, and how far it is."""
