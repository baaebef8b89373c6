"""Tests of recorder/: its header, its plugin, its command."""
