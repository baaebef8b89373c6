"""Tests of the page and the module for browsers."""
