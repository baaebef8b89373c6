// Which texels a textured packet reads: its coordinates, the flips of a rectangle, and the texture window. The box of a
// polygon ends before its greatest coordinate if that seems to be the edge after the last texel, as in `psxgpu textures`.

import { windowOf } from './fields.js';

const STEP = 8;

/** The least and the greatest coordinate.
 * @typedef {[number, number]} Span */

/**
 * Returns what a texture window makes of a coordinate.
 * @param {number} at 0 to 255
 * @param {number} mask
 * @param {number} offset
 */
export const windowed = (at, mask, offset) => (at & ~mask & 255) | (offset & mask);

/** Returns the least and the greatest of what a texture window makes of the coordinates of a span.
 * @param {Span} span
 * @param {number} mask
 * @param {number} offset
 * @returns {Span} */
export function windowedSpan([low, high], mask, offset) {
    const seen = Array.from({ length: high - low + 1 }, (_, k) => windowed(low + k, mask, offset));
    return [Math.min(...seen), Math.max(...seen)];
}

/** @param {number[]} values
 * @returns {Span} */
function polygonSpan(values) {
    const low = Math.min(...values), high = Math.max(...values);
    return high > low && (high - low) % STEP === 0 ? [low, high - 1] : [low, high];
}

/** @param {number} at
 * @param {number} size
 * @param {boolean} isFlipped
 * @returns {Span} all, if the coordinates wrap */
function rectangleSpan(at, size, isFlipped) {
    const [low, high] = isFlipped ? [at - size + 1, at] : [at, at + size - 1];
    return low < 0 || high > 255 ? [0, 255] : [low, high];
}

/**
 * Returns the box of the texels that a packet reads, its last ones inside; null if it reads none.
 * @param {object} packet of `packetOf`
 * @param {ArrayLike<number>} registers those after its words
 * @returns {{u1: number, v1: number, u2: number, v2: number} | null}
 */
export function texelBox(packet, registers) {
    if (!packet?.page) return null;
    const { vertices, size, flipX, flipY } = packet, { maskX, maskY, x, y } = windowOf(registers[1]);
    if (size && !(size.w && size.h)) return null;
    const [us, vs] = size
        ? [rectangleSpan(vertices[0].u, size.w, flipX), rectangleSpan(vertices[0].v, size.h, flipY)]
        : [polygonSpan(vertices.map(({ u }) => u)), polygonSpan(vertices.map(({ v }) => v))];
    const [u1, u2] = windowedSpan(us, maskX, x), [v1, v2] = windowedSpan(vs, maskY, y);
    return { u1, v1, u2, v2 };
}

/**
 * Returns the corners of a polygon in its texture page, as the texture window moves them; null if it moves them apart.
 * @param {object} packet
 * @param {ArrayLike<number>} registers
 * @returns {{x: number, y: number}[] | null}
 */
export function texelCorners({ vertices }, registers) {
    const { maskX, maskY, x, y } = windowOf(registers[1]);
    const moves = vertices.map(({ u, v }) => ({ u, v, x: windowed(u, maskX, x), y: windowed(v, maskY, y) }));
    const isOne = moves.every(at => at.x - at.u === moves[0].x - moves[0].u && at.y - at.v === moves[0].y - moves[0].v);
    return isOne ? moves.map(at => ({ x: at.x, y: at.y })) : null;
}
