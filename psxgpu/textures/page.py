"""The page of textures, which can be searched, and the contact sheet."""
from __future__ import annotations

import html
from typing import Dict, List, Sequence, Tuple

from psxgpu.textures.pixels import FULL, Texture, png_rgba
from psxgpu.textures.sources import Source

GROUND = (58, 58, 66, FULL)
SHEET_WIDTH, GAP = 1024, 4
MOST_SCALE, SHOWN = 4, 256          # of a texture on the page: pixels of a texel, pixels of a side
PAGE = '''<!doctype html>
<html lang="en"><meta charset="utf-8"><meta name="viewport" content="width=device-width">
<title>Textures of %(name)s</title><style>
:root { color-scheme: light dark; --back: light-dark(#fff, #3a3a42); --quiet: light-dark(#555, #bbb);
  --one: light-dark(#ddd, #4a4a52); --other: light-dark(#eee, #42424a) }
body { font: 14px/1.4 system-ui, sans-serif; margin: 1em; background: var(--back); overflow-wrap: anywhere }
main { display: flex; flex-wrap: wrap; gap: 12px; align-items: end; margin-top: 1em }
figure { margin: 0; max-width: min(260px, 100%%) } figcaption { font-size: 11px; color: var(--quiet) } [hidden] { display: none }
img { max-width: 100%%; height: auto; image-rendering: pixelated;
  background: repeating-conic-gradient(var(--one) 0 25%%, var(--other) 0 50%%) 0 0/16px 16px }
input[type=search] { width: min(24em, 100%%); box-sizing: border-box } output { margin-left: 1em }
</style>
<h1>Textures of %(name)s</h1>
<p>%(count)d textures, in the order of their first use; all in one picture: <a href="sheet.png">sheet.png</a>.</p>
<p><input type="search" placeholder="all words, as: 8 bits page (640, 0)" aria-label="search">
<label><input type="checkbox"> also later versions of a place</label> <output></output></p>
<main>
%(figures)s
</main>
<script>
const search = document.querySelector('input[type=search]')
const later = document.querySelector('input[type=checkbox]')
const show = () => {
  const words = search.value.toLowerCase().split(/\\s+/)
  let count = 0
  for (const figure of document.querySelectorAll('figure')) {
    const text = figure.textContent.toLowerCase()
    figure.hidden = !words.every(word => text.includes(word)) || figure.dataset.version > 1 && !later.checked
    count += !figure.hidden
  }
  document.querySelector('output').textContent = count + ' shown'
}
search.oninput = later.onchange = show
show()
</script>
</html>
'''
FIGURE = ('<figure data-version="%d"><a href="%s"><img src="%s" width="%d" height="%d" alt="%s" loading="lazy"></a>'
          '<figcaption>%s</figcaption></figure>')


def caption(texture: Texture, version: int, versions: int) -> str:
    """Returns what the page says of a texture."""
    text = '%d by %d, %s; event %d, %d packet%s' % (texture.width, texture.height, texture.source.text(), texture.event,
                                                    texture.uses, '' if texture.uses == 1 else 's')
    return text + ('; version %d of %d' % (version, versions) if versions > 1 else '')


def figures(textures: Sequence[Texture]) -> List[str]:
    """Returns the figures of the page. Textures of the same source are versions of one."""
    counts: Dict[Source, int] = {}
    for it in textures:
        counts[it.source] = counts.get(it.source, 0) + 1
    seen, out = {}, []      # type: Dict[Source, int], List[str]
    for it in textures:
        seen[it.source] = version = seen.get(it.source, 0) + 1
        scale = max(1, min(MOST_SCALE, SHOWN // max(it.width, it.height)))
        text = html.escape(caption(it, version, counts[it.source]))
        out.append(FIGURE % (version, it.name, it.name, it.width * scale, it.height * scale, text.partition(';')[0], text))
    return out


def page(name: str, textures: Sequence[Texture]) -> str:
    """Returns the page."""
    return PAGE % dict(name=html.escape(name), count=len(textures), figures='\n'.join(figures(textures)))


def over_ground(pixels: bytes) -> bytes:
    """Returns pixels over the colour of the page."""
    out = bytearray(GROUND * (len(pixels) // 4))
    for at in range(0, len(pixels), 4):
        alpha = pixels[at + 3]
        if alpha == FULL:
            out[at:at + 4] = pixels[at:at + 4]
        elif alpha:
            out[at:at + 3] = bytes((a + b) // 2 for a, b in zip(pixels[at:at + 3], GROUND))
    return bytes(out)


def shelves(textures: Sequence[Texture]) -> Tuple[List[Tuple[int, int, Texture]], int]:
    """Returns where each texture is on the sheet, the highest first, and the sheet's height."""
    places, x, y, high = [], GAP, GAP, 0     # type: List[Tuple[int, int, Texture]], int, int, int
    for it in sorted(textures, key=lambda it: (-it.height, it.event)):
        if x + it.width + GAP > SHEET_WIDTH:
            x, y, high = GAP, y + high + GAP, 0
        places.append((x, y, it))
        x, high = x + it.width + GAP, max(high, it.height)
    return places, y + high + GAP


def sheet(textures: Sequence[Texture]) -> bytes:
    """Returns all textures in one PNG."""
    places, height = shelves(textures)
    out = bytearray(bytes(GROUND) * (SHEET_WIDTH * height))
    for x, y, it in places:
        for row in range(it.height):
            at = 4 * ((y + row) * SHEET_WIDTH + x)
            out[at:at + 4 * it.width] = over_ground(it.row(row))
    return png_rgba(SHEET_WIDTH, height, bytes(out))
