// Bytes of recordings as text: packed by gzip, in base64.

import { MOST_FIRST, packingOf, unpacking } from '../reading/packings.js';

// How many bytes are made text at once.
const PART = 1 << 15;

/**
 * Returns the bytes of a text in base64.
 * @param {string} text
 * @returns {Uint8Array}
 */
export const bytesOfText = text =>
    Uint8Array.fromBase64?.(text) ?? Uint8Array.from(atob(text), letter => letter.charCodeAt(0));

/**
 * Returns bytes in base64.
 * @param {Uint8Array} bytes
 * @returns {string}
 */
export function textOfBytes(bytes) {
    if (bytes.toBase64) return bytes.toBase64();
    const parts = [];
    for (let at = 0; at < bytes.length; at += PART) parts.push(String.fromCharCode(...bytes.subarray(at, at + PART)));
    return btoa(parts.join(''));
}

/**
 * Returns bytes that are packed by gzip as a file without the packing.
 * @param {Uint8Array} bytes
 * @returns {Promise<Blob>}
 */
export const unpacked = bytes =>
    new Response(new Blob([bytes]).stream().pipeThrough(new DecompressionStream('gzip'))).blob();

/**
 * Returns the bytes of a file, packed by gzip. A file that is packed so stays as it is.
 * @param {Blob} file
 * @returns {Promise<Uint8Array>}
 */
export async function gzipped(file) {
    const packing = packingOf(new Uint8Array(await file.slice(0, MOST_FIRST).arrayBuffer()));
    if (packing?.name === 'gzip') return new Uint8Array(await file.arrayBuffer());
    const plain = packing ? file.stream().pipeThrough(unpacking(packing)) : file.stream();
    return new Uint8Array(await new Response(plain.pipeThrough(new CompressionStream('gzip'))).arrayBuffer());
}
