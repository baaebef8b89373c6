// How far two cells or pixels are apart, as `psxgpu compare` counts: the greatest difference of a channel, 31 steps in a
// cell and 255 in a pixel. Bit 15 of a cell has no size: it always counts.

/** The size of a difference in bit 15 alone. */
export const BIT_15 = 255;

const BANDS = [1, 2, 3, 4, 8, 16, 32, 64, 128, 256];

/** @param {number} a
 * @param {number} b */
export function cellSteps(a, b) {
    const red = Math.abs((a & 31) - (b & 31)), green = Math.abs((a >> 5 & 31) - (b >> 5 & 31));
    return Math.max(red, green, Math.abs((a >> 10 & 31) - (b >> 10 & 31))) || (a === b ? 0 : BIT_15);
}

/** Of two pixels of four bytes, the last of which is 255.
 * @param {number} a
 * @param {number} b */
export function pixelSteps(a, b) {
    const red = Math.abs((a & 255) - (b & 255)), green = Math.abs((a >> 8 & 255) - (b >> 8 & 255));
    return Math.max(red, green, Math.abs((a >> 16 & 255) - (b >> 16 & 255)));
}

/**
 * Returns in words how many differ by how much.
 * @param {Uint8Array} steps
 * @param {boolean} areCells
 * @returns {string}
 */
export function bandsText(steps, areCells) {
    const sizes = new Uint32Array(256), sum = (low, high) => sizes.subarray(low, high).reduce((a, b) => a + b, 0);
    for (const size of steps) sizes[size]++;
    const bit15 = areCells ? sizes[BIT_15] : 0, out = bit15 ? [`bit 15: ${bit15}`] : [];
    if (areCells) sizes[BIT_15] = 0;
    BANDS.slice(0, -1).forEach((low, k) => {
        const high = BANDS[k + 1], count = sum(low, high);
        if (count) out.push(`${high === low + 1 ? low : `${low} to ${high - 1}`}: ${count}`);
    });
    return out.join(', ');
}
