// What a caller may pass as bytes or as words.

/** @typedef {number | Iterable<number>} Words a number, or an array of numbers */

/** Returns the bytes of a typed array, a DataView or an ArrayBuffer, without a copy.
 * @param {BufferSource} data */
export function bytesOf(data) {
    return ArrayBuffer.isView(data) ? new Uint8Array(data.buffer, data.byteOffset, data.byteLength) : new Uint8Array(data);
}

/** Returns words as an array of 32-bit words. A Uint32Array is not copied.
 * @param {Words} words */
export function wordsOf(words) {
    if (words instanceof Uint32Array) return words;
    return typeof words === 'number' ? Uint32Array.of(words) : Uint32Array.from(words);
}
