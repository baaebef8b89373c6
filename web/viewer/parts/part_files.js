// The files of one long recording, as `psxgpu corpus split` cuts it: a capture, and snapshots that continue it.

import { bytesOf } from '../reading/opening.js';

// Bytes of a snapshot up to the number of the events before it: the magic number, the rows of video memory, two words.
const KNOWN = 20, LOW = 12, HIGH = 16;
const NUMBER = /^\d+/;

/**
 * @typedef {object} Part
 * @property {Blob} file
 * @property {string} name
 * @property {number} before the number of events before it
 */

// The first bytes of a file, unpacked; fewer if it has no more or is damaged.
async function firstBytes(file) {
    const out = [];
    try {
        for await (const piece of bytesOf(file)) {
            out.push(...piece.subarray(0, KNOWN));
            if (out.length >= KNOWN) break;
        }
    } catch {
        // what it is not is said when it is opened
    }
    return Uint8Array.from(out.slice(0, KNOWN));
}

/**
 * Returns the number of events before a recording, or -1 if a file is none.
 * @param {Blob} file
 * @returns {Promise<number>}
 */
async function eventsBefore(file) {
    const bytes = await firstBytes(file), head = String.fromCharCode(...bytes.subarray(0, 8));
    if (/^PSXGPUC[123]$/.test(head)) return 0;
    if (head !== 'PSXGPUS1' || bytes.length < KNOWN) return -1;
    const data = new DataView(bytes.buffer);
    return data.getUint32(HIGH, true) * 2 ** 32 + data.getUint32(LOW, true);
}

/**
 * Returns the recordings among files, in the order of their events.
 * @param {File[]} files
 * @returns {Promise<Part[]>}
 */
export async function recordingsOf(files) {
    const parts = await Promise.all(files.map(async file =>
        ({ file, name: file.name, before: await eventsBefore(file) })));
    return parts.filter(({ before }) => before >= 0).sort((one, other) => one.before - other.before);
}

/**
 * Returns why recordings are not the parts of one, or an empty text.
 * @param {Part[]} parts in the order of their events
 * @returns {string}
 */
export function whyNotParts(parts) {
    for (let k = 1; k < parts.length; k++) {
        const [{ name, before }, next] = [parts[k - 1], parts[k]];
        if (before === next.before) return `${name} and ${next.name} both begin after event ${before}`;
        const [number, following] = [name, next.name].map(it => Number(NUMBER.exec(it)?.[0] ?? NaN));
        if (Number.isNaN(number) || Number.isNaN(following) || following === number + 1) continue;
        return following > number ? `part ${number + 1} is missing` : `${next.name} continues ${name}`;
    }
    return '';
}
