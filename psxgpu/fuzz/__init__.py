"""Searches for every way in which another player differs, and keeps one small capture of each."""
