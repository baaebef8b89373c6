// Captures and snapshots, played by the calls of a machine, so that a page can look at it in between.
// docs/CAPTURE.md has the format.

import { KIND, isAllowed } from './viewer/reading/allowed.js';

/** A record: its kind, the count of its tag (events, words or the channel), the words after its tag, and the byte offset
 * of what follows it.
 * @typedef {{ kind: number, count: number, words: Uint32Array, end: number }} PlayedRecord */
/** @typedef {import('./library.js').Library} Library */
/** @typedef {import('./machine.js').Machine} Machine */

const { END, RAM, GP0, GP1, READ, STAT, DMA, BEGIN, TURN, SKIP } = KIND;
const HEADERS = ['PSXGPUC1', 'PSXGPUC2', 'PSXGPUC3'], SNAPSHOT = 'PSXGPUS1', HEADER_BYTES = 8;
/** The number of words after the tag of a record.
 * @type {Record<number, (count: number) => number>} */
const WORDS = { [RAM]: count => count + 1, [GP0]: count => count, [GP1]: () => 1, [DMA]: () => 3, [BEGIN]: () => 3 };

/** Yields the records from a byte offset to the End record. Throws RangeError if the bytes end before it, or at a record
 * that there is not in captures of this version.
 * @param {Uint8Array} bytes
 * @param {number} at
 * @param {number} [version]
 * @returns {Generator<PlayedRecord, void>} */
export function* records(bytes, at, version = 3) {
    const data = new DataView(bytes.buffer, bytes.byteOffset, bytes.byteLength);
    for (;;) {
        if (at + 4 > bytes.length) throw new RangeError('the capture ends before its End record');
        const tag = data.getUint32(at, true), kind = tag >>> 24, count = tag & 0xFFFFFF;
        if (!isAllowed(kind, count, version)) throw new RangeError(`bad record at byte ${at}`);
        if (kind === END) return;
        const size = 4 * (WORDS[kind] ? WORDS[kind](count) : 0);
        if (at + 4 + size > bytes.length) throw new RangeError('the capture ends before its End record');
        const end = at + 4 + size;
        yield { kind, count, words: new Uint32Array(bytes.slice(at + 4, end).buffer), end };
        at = end;
    }
}

/** Plays a record. Returns the words that it read and that are shown.
 * @param {Machine} machine
 * @param {PlayedRecord} record
 * @returns {number[]} */
function playRecord(machine, { kind, count, words }) {
    const times = (/** @type {() => any} */ call) => Array.from({ length: count }, call);
    switch (kind) {
    case RAM: machine.ram(words[0], words.subarray(1)); break;
    case GP0: machine.gp0(words); break;
    case GP1: machine.gp1(words[0]); break;
    case READ: return times(() => machine.read());
    case STAT: return [machine.status()];
    case DMA: machine.dma(count, words[0], words[1], words[2]); break;
    case BEGIN: machine.begin(words[0], words[1], words[2]); break;
    case TURN: times(() => machine.turn()); break;
    case SKIP: times(() => machine.skip()); break;
    default: throw new RangeError('record of kind ' + kind);
    }
    return [];
}

/** Returns a machine in the first state of a capture or a snapshot, the byte offset of the first record, and the version
 * whose records there may be.
 * @param {Library} library
 * @param {Uint8Array} bytes */
export function begun(library, bytes) {
    const header = new TextDecoder('latin1').decode(bytes.subarray(0, HEADER_BYTES));
    const machine = library.machine({ tall: header === HEADERS[2] });
    if (HEADERS.includes(header)) return { machine, at: HEADER_BYTES, version: HEADERS.indexOf(header) + 1 };
    try {
        if (header !== SNAPSHOT) throw new RangeError('neither a capture nor a snapshot');
        machine.load(bytes);
        return { machine, at: machine.stateView().length, version: HEADERS.length };
    } catch (bad) {
        machine.close();
        throw bad;
    }
}

/** Plays a capture or a snapshot with a machine of its own. Yields the machine after each record, with the record and the
 * words that it read, and at the end, or before a refused record, with null as the record. Then it throws the refusal.
 * @param {Library} library
 * @param {Uint8Array} bytes
 * @returns {Generator<{ machine: Machine, record: PlayedRecord | null, words: number[] }, void>} */
export function* played(library, bytes) {
    const { machine, at, version } = begun(library, bytes);
    /** @type {unknown} */
    let refusal = null;
    try {
        try {
            for (const record of records(bytes, at, version)) yield { machine, record, words: playRecord(machine, record) };
        } catch (bad) {
            refusal = bad;
        }
        yield { machine, record: null, words: [] };
    } finally {
        machine.close();
    }
    if (refusal) throw refusal;
}

/** Plays a capture or a snapshot by `played`. `seen` receives what it yields.
 * @param {Library} library
 * @param {Uint8Array} bytes
 * @param {(machine: Machine, record: PlayedRecord | null, words: number[]) => void} seen */
export function playRecords(library, bytes, seen) {
    for (const { machine, record, words } of played(library, bytes)) seen(machine, record, words);
}

/** @param {PlayedRecord} record @param {number} opcode of GP1 */
const isControl = (record, opcode) => record.kind === GP1 && (record.words[0] >>> 24 & 63) === opcode;

/** Returns whether a record is a flip: GP1(05h), the start of the display area.
 * @param {PlayedRecord} record */
export const isFlip = record => isControl(record, 5);

/** Returns whether a record marks a frame: GP1(3Fh).
 * @param {PlayedRecord} record */
export const isMark = record => isControl(record, 0x3F);
