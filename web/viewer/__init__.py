"""The viewer, web/viewer.html: `python3 -m web.viewer.pack` packs its modules into one page."""
