"""The page of the conformance suite: `python3 -m web.suite_page.pack` makes it."""
