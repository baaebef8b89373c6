"""Makes the packages: `python3 -m packages.build dist DIR`."""
