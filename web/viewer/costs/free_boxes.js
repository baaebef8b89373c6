// The largest boxes of tiles that nothing touches: nothing draws, shows or reads there.

/** A tile has 16 by 16 cells. */
export const TILE = 16;
export const ACROSS = 1024 / TILE;

// The largest box of zeros of a grid of rows of 64, in tiles.
function largest(grid) {
    const heights = new Uint16Array(ACROSS + 1), down = grid.length / ACROSS;
    let best = { x: 0, y: 0, w: 0, h: 0 };
    for (let y = 0; y < down; y++) {
        const open = [];
        for (let x = 0; x <= ACROSS; x++) {
            if (x < ACROSS) heights[x] = grid[y * ACROSS + x] ? 0 : heights[x] + 1;
            let from = x;
            while (open.length > 0 && open.at(-1).high >= heights[x]) {
                const { at, high } = open.pop();
                from = at;
                if (high * (x - at) > best.w * best.h) best = { x: at, y: y - high + 1, w: x - at, h: high };
            }
            open.push({ at: from, high: heights[x] });
        }
    }
    return best;
}

/**
 * Returns the largest free boxes in cells, the largest first; they do not overlap.
 * @param {Uint8Array} touched for each tile whether something touches it
 * @param {number} most how many
 * @returns {{x: number, y: number, w: number, h: number}[]}
 */
export function freeBoxes(touched, most) {
    const grid = touched.slice(), out = [];
    while (out.length < most) {
        const { x, y, w, h } = largest(grid);
        if (w * h === 0) break;
        for (let row = y; row < y + h; row++) grid.fill(1, row * ACROSS + x, row * ACROSS + x + w);
        out.push({ x: x * TILE, y: y * TILE, w: w * TILE, h: h * TILE });
    }
    return out;
}
