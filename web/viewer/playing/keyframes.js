// States that are kept at intervals. Video memory is cut into tiles of 64 by 16 cells, and a tile that is as it was in
// the state before is kept once; main memory is the same in all states, since steps leave it as it is.

import { outlineOf } from '../reading/outline.js';

const WIDE = 64, HIGH = 16, ROW = 1024;
const TILE_WORDS = WIDE * HIGH / 2, WIDE_WORDS = WIDE / 2, ROW_WORDS = ROW / 2;

function sameTile(cells, at, tile) {
    for (let row = 0, k = 0; row < HIGH; row++) {
        const from = at + row * ROW_WORDS;
        for (let word = 0; word < WIDE_WORDS; word++) if (cells[from + word] !== tile[k++]) return false;
    }
    return true;
}

function takeTile(cells, at) {
    const tile = new Uint32Array(TILE_WORDS);
    for (let row = 0; row < HIGH; row++) {
        const from = at + row * ROW_WORDS;
        tile.set(cells.subarray(from, from + WIDE_WORDS), row * WIDE_WORDS);
    }
    return tile;
}

// Bytes of tiles; with more, every other state is let go.
const MOST = 160e6;

export class Keyframes {
    constructor() {
        this.frames = [];
        this.memory = null;
        this.bytesKept = 0;
    }

    get isFull() { return this.bytesKept > MOST; }

    // Lets every other state go, but for the first.
    thin() {
        this.frames = this.frames.filter((_, k) => k % 2 === 0);
        this.bytesKept = 4 * TILE_WORDS * new Set(this.frames.flatMap(({ tiles }) => tiles)).size;
    }

    // Lets the states after a step go.
    dropAfter(step) {
        const { frames } = this, end = this.indexAt(step) + 1;
        for (let k = frames.length - 1; k >= end; k--) {
            const own = frames[k].tiles.filter((tile, at) => tile !== frames[k - 1]?.tiles[at]);
            this.bytesKept -= 4 * TILE_WORDS * own.length;
        }
        frames.length = end;
    }

    // Keeps the state after `step` steps, later than all that are kept. `bytes`: those of a snapshot.
    add(step, bytes) {
        const { vramAt, memoryAt } = outlineOf(bytes);
        this.memory ??= bytes.slice(memoryAt);
        const cells = new Uint32Array(bytes.buffer.slice(bytes.byteOffset + vramAt, bytes.byteOffset + memoryAt));
        const last = this.frames.at(-1), tiles = [];
        for (let at = 0; at < cells.length; at += ROW_WORDS * HIGH) {
            for (let column = 0; column < ROW_WORDS; column += WIDE_WORDS) {
                const old = last?.tiles[tiles.length];
                if (old && sameTile(cells, at + column, old)) tiles.push(old);
                else {
                    tiles.push(takeTile(cells, at + column));
                    this.bytesKept += 4 * TILE_WORDS;
                }
            }
        }
        this.frames.push({ step, front: bytes.slice(0, vramAt), tiles });
    }

    // The place of the last state that is kept at or before a step, or -1.
    indexAt(step) {
        let low = 0, high = this.frames.length;
        while (low < high) {
            const middle = (low + high) >> 1;
            if (this.frames[middle].step <= step) low = middle + 1; else high = middle;
        }
        return low - 1;
    }

    // Whether the state after this number of steps is kept.
    isKept(step) { return this.frames.at(-1)?.step === step; }

    stepOf(index) { return this.frames[index].step; }

    // The registers of a kept state.
    registers(index) { return outlineOf(this.frames[index].front).registers; }

    // A kept state as the bytes of a snapshot.
    bytes(index) {
        const { front, tiles } = this.frames[index];
        const cells = new Uint32Array(tiles.length * TILE_WORDS);
        const across = ROW / WIDE;
        tiles.forEach((tile, k) => {
            const at = Math.floor(k / across) * ROW_WORDS * HIGH + (k % across) * WIDE_WORDS;
            for (let row = 0; row < HIGH; row++) {
                cells.set(tile.subarray(row * WIDE_WORDS, (row + 1) * WIDE_WORDS), at + row * ROW_WORDS);
            }
        });
        const out = new Uint8Array(front.length + 4 * cells.length + this.memory.length);
        out.set(front);
        out.set(new Uint8Array(cells.buffer), front.length);
        out.set(this.memory, front.length + 4 * cells.length);
        return out;
    }
}
