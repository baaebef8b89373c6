// A GPU dump of DuckStation or PCSX-Redux (.psxgpu) as the bytes of a capture, piece by piece. What the page reads of a
// file comes through here, so no other module knows of dumps. docs/DUMPS.md has the format.

import { DumpFault, MOST_WORDS, Records, TYPE, Words } from './dump_records.js';

/** How many bytes tell whether a file is a dump. */
export const DUMP_HEADER = 14;

const HEADER = 'PSXGPUDUMPv1\0\0';
const TITLES = { 0: 'GP0', 1: 'GP1', 2: 'VSync', 3: 'discard', 4: 'readback', 5: 'trace begin', 6: 'GPU version' };
// Types whose packets may be long, and so come in parts. The others that are known have few words.
const LONG = [TYPE.PORT0, TYPE.PORT1, TYPE.READBACK], MOST_SHORT = 16384;

/**
 * Returns whether bytes begin a dump.
 * @param {Uint8Array} bytes the first bytes of a file
 * @returns {boolean}
 */
export function isDump(bytes) {
    return bytes.length >= DUMP_HEADER && String.fromCharCode(...bytes.subarray(0, DUMP_HEADER)) === HEADER;
}

/** Takes a dump apart as its bytes come. What is in its packets goes to `records`. */
class DumpReader {
    constructor(records) {
        Object.assign(this, { records, rest: new Uint8Array(0), held: new Words() });
        Object.assign(this, { type: 0, left: 0, begin: DUMP_HEADER, place: DUMP_HEADER });
    }

    /**
     * Takes the next bytes of the dump.
     * @param {Uint8Array} bytes
     */
    push(bytes) {
        const both = new Uint8Array(this.rest.length + bytes.length), whole = both.length & ~3;
        both.set(this.rest);
        both.set(bytes, this.rest.length);
        this.rest = both.slice(whole);
        const words = new Uint32Array(both.buffer, 0, whole >> 2);
        for (let at = 0; at < words.length;) {
            const count = this.left > 0 ? this.takePart(words.subarray(at, at + this.left)) : this.takeTag(words[at]);
            at += count;
            this.place += 4 * count;
        }
    }

    takeTag(word) {
        Object.assign(this, { type: word >>> 24, left: word & MOST_WORDS, begin: this.place });
        if (!LONG.includes(this.type) && this.type in TITLES && this.left > MOST_SHORT) {
            throw new DumpFault(this.begin, `a packet ${TITLES[this.type]} of ${this.left} words`);
        }
        if (this.left === 0) this.records.packet(this.type, new Uint32Array(0), this.begin);
        return 1;
    }

    // Words of the open packet. Those of a port, and words read back, are taken as they come.
    takePart(words) {
        this.left -= words.length;
        if (LONG.includes(this.type)) this.records.packet(this.type, words, this.begin);
        else if (this.type in TITLES) {
            this.held.put(words);
            if (this.left === 0) this.records.packet(this.type, this.held.take(), this.begin);
        }
        return words.length;
    }

    /** Ends the dump. Throws a DumpFault if it ends inside a packet. */
    end() {
        if (this.left === 0 && this.rest.length === 0) return;
        const begin = this.left > 0 ? this.begin : this.place;
        throw new DumpFault(this.place + this.rest.length,
            `the dump ends inside a packet, which begins at byte ${begin}`);
    }
}

/**
 * Yields the bytes of the capture that a dump is. What is before a fault comes first.
 * @param {Uint8Array} first the bytes that were read already, the header of the dump among them
 * @param {AsyncIterator<Uint8Array>} pieces the others
 * @yields {Uint8Array}
 */
export async function* captureOf(first, pieces) {
    const records = new Records(), reader = new DumpReader(records);
    let fault = null;
    const attempt = work => {
        try {
            work();
        } catch (found) {
            fault = found;
        }
        return records.take();
    };
    yield attempt(() => reader.push(first.subarray(DUMP_HEADER)));
    for (let isDone = false; !isDone && !fault;) {
        const { done, value } = await pieces.next();
        isDone = done;
        yield attempt(() => done ? reader.end() : reader.push(value));
    }
    if (fault) throw fault;
    records.end();
    yield records.take();
}
