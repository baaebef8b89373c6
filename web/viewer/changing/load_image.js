// The words of a load whose cells are those of a PNG: of 15 bits, or of the indices of a palette.

import { pixelsOfPng } from '../comparing/compare.js';
import { sizeOf } from '../reading/grammar.js';

const COMMAND_WORDS = 3, OPAQUE = 128;

const distance = (a, b) => [0, 5, 10].reduce((sum, at) => sum + ((a >> at & 31) - (b >> at & 31)) ** 2, 0);

// A pixel as a colour of 15 bits.
const colorAt = (data, at) => data[at] >> 3 | data[at + 1] >> 3 << 5 | data[at + 2] >> 3 << 10;

// The index of the nearest colour; for a pixel that is not drawn, that of 0000h.
function indexOf(colors, color, isDrawn) {
    const nearness = value => (value === 0) === isDrawn ? Infinity : isDrawn ? distance(value, color) : 0;
    let best = 0;
    colors.forEach((value, index) => { if (nearness(value) < nearness(colors[best])) best = index; });
    return best;
}

// The colours of a palette in video memory.
const paletteOf = (cells, { x, y }, depth) =>
    Array.from({ length: 1 << depth }, (_, index) => cells[1024 * y + (x + index & 1023)]);

// Puts a pixel into the cells: its colour, with bit 15 as it was, or its index in a palette.
function putPixel(out, k, { color, isDrawn }, { depth, colors }) {
    if (depth === 15) {
        out[k] = isDrawn ? out[k] & 0x8000 | color : 0;
        return;
    }
    const perCell = 16 / depth, at = Math.floor(k / perCell), shift = k % perCell * depth;
    out[at] = out[at] & ~((1 << depth) - 1 << shift) | indexOf(colors, color, isDrawn) << shift;
}

/**
 * Returns the words of a load with the cells of an image. The image has the size of the load in cells, or in texels of 8 or
 * 4 bits; these are looked up in the palette that the texture view shows.
 * @param {Blob} file a PNG
 * @param {{words: number[]}} load
 * @param {number[]} words of the load with its data
 * @param {{cells: Uint16Array, how: {palette: {x: number, y: number}} | undefined}} seen
 * @returns {Promise<Uint32Array>}
 * @throws {RangeError} if the image has another size
 */
export async function wordsOfImage(file, load, words, { cells, how }) {
    const { w, h } = sizeOf(load.words[2]), { width, height, data } = await pixelsOfPng(file), depth = 16 * w / width;
    if (height !== h || ![4, 8, 16].includes(depth)) {
        throw new RangeError(`it has ${width} × ${height} pixels; this load has ${w} × ${h} cells, or ${2 * w} × ${h} texels `
            + `of 8 bits, or ${4 * w} × ${h} of 4 bits`);
    }
    if (depth < 16 && !how) throw new RangeError('choose its palette in the view Texture first');
    const all = Uint32Array.from(words), out = new Uint16Array(all.buffer, 4 * COMMAND_WORDS);
    const colors = depth < 16 ? paletteOf(cells, how.palette, depth) : [];
    for (let k = 0; k < width * height; k++) {
        const pixel = { color: colorAt(data, 4 * k), isDrawn: data[4 * k + 3] >= OPAQUE };
        putPixel(out, k, pixel, { depth: depth === 16 ? 15 : depth, colors });
    }
    return all;
}
