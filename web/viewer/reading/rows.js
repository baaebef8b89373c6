// The rows of the list: packets and their parts, words for GP1, and reads in a row. They are in the order in which
// they are completed. A row has its first step and the one that completes it, its kind, its head and its area.

import { STEP, isWord } from './track.js';

/** 0 to 8 are the classes of notes; a joint of a polyline is of class 2, too. A row that a change leaves out is OMITTED. */
export const KIND = { OTHER: 0, POLYGON: 1, LINE: 2, RECTANGLE: 3, COPY: 4, LOAD: 5, STORE: 6, SETTING: 7, FINISH: 8,
    JOINT: 12, OMITTED: 14, GP1: 16, READS: 17, STATUS: 18 };

/** In the place of an area: there is none, or it is not known yet. */
export const NO_AREA = 0xFFFFFFFF;
export const NOT_YET = 0xFFFFFFFE;

const FIRST_ROOM = 1024;

export class Rows {
    constructor() {
        this.length = 0;
        this.kind = new Uint8Array(FIRST_ROOM);
        for (const name of ['first', 'done', 'head', 'near', 'far']) this[name] = new Uint32Array(FIRST_ROOM);
        this.earlier = { row: -1, words: [] };
        /** The kinds of the rows that changes leave out. */
        this.omitted = new Map();
    }

    grow() {
        for (const name of ['kind', 'first', 'done', 'head', 'near', 'far']) {
            const old = this[name];
            this[name] = new old.constructor(2 * old.length);
            this[name].set(old);
        }
    }

    add(kind, first, done, head) {
        if (this.length === this.kind.length) this.grow();
        const row = this.length++;
        this.kind[row] = kind;
        this.first[row] = first;
        this.done[row] = done;
        this.head[row] = head;
        this.near[row] = kind <= KIND.JOINT ? NOT_YET : NO_AREA;
        return row;
    }

    isPacket(row) { return this.kind[row] <= KIND.JOINT; }

    isOmitted(row) { return this.kind[row] === KIND.OMITTED; }

    // The kind of a row in the recording, also if a change leaves it out.
    kindOf(row) { return this.isOmitted(row) ? this.omitted.get(row) : this.kind[row]; }

    // A row's area as its corners, both inside; null where it has none, or where it is not known yet.
    area(row) {
        const near = this.near[row], far = this.far[row];
        if (near >= NOT_YET) return null;
        return { x1: near & 0xFFFF, y1: near >>> 16, x2: far & 0xFFFF, y2: far >>> 16 };
    }

    setArea(row, x1, y1, x2, y2) {
        this.near[row] = (x1 | y1 << 16) >>> 0;
        this.far[row] = (x2 | y2 << 16) >>> 0;
    }

    // The last row that is complete after `steps` steps, or -1.
    at(steps) {
        let low = 0, high = this.length;
        while (low < high) {
            const middle = (low + high) >> 1;
            if (this.done[middle] < steps) low = middle + 1; else high = middle;
        }
        return low - 1;
    }

    // The words of a row, those of a packet that a snapshot begins within among them.
    words(row, track) {
        const out = row === this.earlier.row ? [...this.earlier.words] : [];
        for (let step = this.first[row]; step <= this.done[row]; step++) {
            const kind = track.kind(step);
            if (isWord(kind) || (kind === STEP.GP1 && this.kind[row] === KIND.GP1)) out.push(track.word(step));
        }
        return out;
    }
}
