// The words that count the cells that packets cover: each packet is drawn again, flat, and adds one step of a channel
// (B + F) to the cells that it covers. Texels that are not drawn count as drawn.

import { KIND } from '../reading/rows.js';

/** Settings of a machine that counts: B + F, no mask. */
export const ADD = [0xE1000020, 0xE6000000];

/** The words of a drawing area and an offset that leave all cells. */
export const WHOLE = [0xE3000000, 0xE4000000 | 1023 | 1023 << 10, 0xE5000000];

/** What a channel counts to. */
export const MOST = 31;

/** One step of red, green and blue. */
export const STEPS = [0x000008, 0x000800, 0x080000];

/** Returns the word of a vertex. */
export const vertexWord = ({ x, y }) => ((x & 0x7FF) | (y & 0x7FF) << 16) >>> 0;

/**
 * Returns the words that add a step to the cells of a shape, its vertices being cells.
 * @param {{kind: number, points: {x: number, y: number}[], size: {w: number, h: number} | undefined}} shape
 * @param {number} step one of STEPS
 * @returns {number[]}
 */
export function covering({ kind, points, size }, step) {
    const vertices = points.map(vertexWord);
    if (kind === KIND.POLYGON) return [(vertices.length === 4 ? 0x2A000000 : 0x22000000) | step, ...vertices];
    if (kind === KIND.RECTANGLE) return [0x62000000 | step, vertices[0], size.w | size.h << 16];
    return vertices.length === 2 ? [0x42000000 | step, ...vertices] : [];
}
