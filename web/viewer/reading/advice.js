// What a refused file seems to be, and what to do with it: one sentence beside the program's line.

import { Refusal } from './refusal.js';

const HEAD = 512, NEWEST = { C: 3, S: 1 };
const OPENS = 'Open a capture, a snapshot or a GPU dump.', AGAIN = 'Copy it again.';

// Files of other kinds by what they begin with.
const KINDS = [
    ['\x89PNG', 'a picture (PNG)', 'compare it with an open recording in Compare'],
    ['P6', 'a picture (PPM)', 'compare it with an open recording in Compare'],
    ['\xFF\xD8\xFF', 'a picture (JPEG), whose colours are not exact', 'make a PNG with the program that drew it'],
    ['GIF8', 'a picture (GIF)', 'make a PNG of it, and compare it in Compare'],
    ['BM', 'a picture (BMP)', 'make a PNG of it, and compare it in Compare'],
    ['PS-X EXE', 'a program for the console', 'record it with recorder/record'],
    ['\x7FELF', 'a program', 'record what it draws in an emulator'],
    ['7z\xBC\xAF', 'packed by 7-Zip', 'unpack it, and open what is in it'],
    ['%PDF', 'a document (PDF)', 'open a capture'],
];

const latin = bytes => String.fromCharCode(...bytes);
const isText = bytes => bytes.length > 0 && bytes.every(byte => byte >= 32 || (byte >= 9 && byte <= 13));
const isLog = text => /^\s*(#.*\n\s*)*(gp0|gp1|ram|dma|begin|turn|read|stat|skip|vram|settings|display)\s/.test(text);

/**
 * Returns what a file that is no capture seems to be, and what to do.
 * @param {Uint8Array} bytes its first bytes
 * @returns {string}
 */
export function kindAdvice(bytes) {
    const text = latin(bytes), known = KINDS.find(([first]) => text.startsWith(first));
    const version = /^PSXGPU([CS])([0-9])/.exec(text);
    if (version && Number(version[2]) > NEWEST[version[1]]) {
        const what = version[1] === 'C' ? 'capture' : 'snapshot';
        return `It seems to be a ${what} of version ${version[2]}, which is newer than this page: `
            + 'take the page of a newer release.';
    }
    if (text.startsWith('PSXGPU')) return `It begins almost like a capture: its first eight bytes are damaged. ${AGAIN}`;
    if (known) return `It seems to be ${known[1]}: ${known[2]}.`;
    if (bytes.every(byte => byte === 0)) return `It begins with zeros: its copy may have been interrupted. ${AGAIN}`;
    if (isLog(text)) return 'It seems to be a log of words: make a capture of it with psxgpu from-log.';
    if (isText(bytes)) return `It seems to be a text. ${OPENS}`;
    return `It is of no kind that this page knows. ${OPENS}`;
}

const ADVICE = {
    truncated: 'The file ends before its End record: copy it again, or complete it with psxgpu mend.',
    'bad-record': 'The word there begins no record: the file is damaged, or was written by a faulty recorder. psxgpu mend '
        + 'keeps what is before it.',
    'bad-snapshot': 'The state at its beginning is damaged: make the snapshot again with psxgpu_tool cut.',
    'too-long': 'It has more than 1 GB, the limit of the format: cut it into parts with psxgpu trim.',
    'bad-dma': 'A DMA start has a mode that the port does not know: the recorder wrote a wrong CHCR.',
    'dma-too-long': 'A DMA start moves more words than main memory has: the recorder wrote a wrong BCR.',
    'list-loop': 'A linked list leads back to one of its nodes: main memory lacks a write, or the recorded program hangs.',
};

/**
 * Returns a sentence that says what a refused file seems to be and what to do; empty for other faults.
 * @param {Error} fault
 * @param {Blob} file
 * @returns {Promise<string>}
 */
export async function adviceOf(fault, file) {
    if (!(fault instanceof Refusal)) return '';
    if (file.size === 0) return 'The file is empty: copy it again.';
    const first = new Uint8Array(await file.slice(0, HEAD).arrayBuffer());
    const isShort = fault.cause === 'truncated' && first.length < 8;
    return fault.cause === 'not-capture' || (isShort && !latin(first).startsWith('PSXGPU'.slice(0, first.length)))
        ? kindAdvice(first) : ADVICE[fault.cause] ?? '';
}
