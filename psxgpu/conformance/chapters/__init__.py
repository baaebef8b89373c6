"""The chapters, in the order of psx-spx. The modules of MORE add to the chapters of others."""
from typing import Tuple

from psxgpu.conformance.suite import Chapter

from . import (across_pixels, across_places, across_sizes, across_slopes, across_windows, area, blending, copies,
               cuts, display, dither, dma, fills, gouraud, large_transfers, lines, loads, mask, modulation, opcodes,
               ordering_tables, polygon_textures, polygons, reads, rectangles, status, stores, tall, texels, textures,
               transfers, turns, windows)

MODULES = (fills, loads, stores, copies, rectangles, polygons, gouraud, dither, modulation, blending, textures, texels,
           windows, lines, area, mask, opcodes, cuts, status, reads, display, dma, turns, tall)
MORE = (across_pixels, across_places, across_sizes, across_slopes, across_windows, large_transfers,
        ordering_tables, polygon_textures, transfers)
CHAPTERS: Tuple[Chapter, ...] = tuple(module.CHAPTER for module in MODULES)
