"""Builds the module and the pages for browsers: `python3 -m web.build`."""
