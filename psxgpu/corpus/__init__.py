"""Folders of captures: what a player gives for each is recorded as sums, and checked again."""
