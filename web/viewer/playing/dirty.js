// Which tiles of video memory hold other cells than they should, when only one cell is drawn.

const WIDE = 6, HIGH = 4, ACROSS = 1024 >> WIDE, DOWN = 1024 >> HIGH;

export class Dirty {
    /** @param {number} height of video memory */
    constructor(height) { Object.assign(this, { down: height >> HIGH, tiles: new Uint8Array(ACROSS * DOWN) }); }

    // Whether `look` is true for the index of a tile that a box touches. A box may reach over the edges.
    some(x1, y1, x2, y2, look) {
        const right = Math.min(x2 >> WIDE, (x1 >> WIDE) + ACROSS - 1);
        const low = Math.min(y2 >> HIGH, (y1 >> HIGH) + this.down - 1);
        for (let y = y1 >> HIGH; y <= low; y++) {
            const row = (y % this.down) * ACROSS;
            for (let x = x1 >> WIDE; x <= right; x++) if (look(row + x % ACROSS)) return true;
        }
        return false;
    }

    /** Marks the tiles of a box, whose corners are inside of it. */
    mark(x1, y1, x2, y2) {
        this.some(x1, y1, x2, y2, tile => {
            this.tiles[tile] = 1;
            return false;
        });
    }

    /** Returns whether a tile of a box is marked. */
    touches(x1, y1, x2, y2) { return this.some(x1, y1, x2, y2, tile => this.tiles[tile] === 1); }
}
