// The changes of a recording: packets that are left out, and packets with other words. They are made in the recording
// itself, so all that plays it, lists it or saves it reads what is changed. Each can be taken back.

import { packetAt } from './extent.js';
import { KIND, NO_AREA, NOT_YET, Rows } from '../reading/rows.js';
import { Splitter } from '../reading/splitter.js';
import { STEP } from '../reading/track.js';

/** The words of a packet, and whether it is left out.
 * @typedef {{words: Uint32Array, isOmitted: boolean}} Content */

/** A change of one packet, which its first row names.
 * @typedef {{row: number, before: Content, after: Content}} Edit */

const OTHER_LENGTH = 'these words are a packet of another length, so all that follows would be read in another way';

const isSame = (a, b) => a.isOmitted === b.isOmitted && a.words.every((word, k) => word === b.words[k]);

// Cuts the words of a packet into rows; `end` is what is unfinished after them.
function cut({ steps }, words) {
    const rows = new Rows(), splitter = new Splitter(null, rows);
    steps.forEach((step, k) => { if (splitter.data > 0) splitter.data--; else splitter.word(words[k], step); });
    return { rows, end: [splitter.need, splitter.data, splitter.polyline !== 0] };
}

// Whether two cuts have their rows at the same places and end alike.
const isAlike = (a, b) => a.rows.length === b.rows.length && a.end.every((part, k) => part === b.end[k])
    && ['first', 'done'].every(name => [...a.rows[name].subarray(0, a.rows.length).keys()]
        .every(row => a.rows[name][row] === b.rows[name][row]));

export class Edits {
    /** @param {Recording} recording */
    constructor(recording) {
        Object.assign(this, { recording, done: [], undone: [] });
        /** What the changed packets were, by their first rows.
         * @type {Map<number, Content>} */
        this.originals = new Map();
        /** All rows of the changed packets. */
        this.rows = new Set();
    }

    /** Returns the packet that a row is a part of. */
    packetAt(row) { return packetAt(this.recording, row); }

    /** Returns the words of a packet as they are now, and whether it is left out.
     * @returns {Content} */
    contentOf({ rows, steps }) {
        const { recording: { track } } = this, isOmitted = this.recording.rows.isOmitted(rows[0]);
        return { words: Uint32Array.from(steps, step => track.word(step)), isOmitted };
    }

    /**
     * Changes the packet of a row.
     * @param {number} row
     * @param {{words?: Uint32Array, isOmitted?: boolean}} to `words`: all of the packet, of a load its data too
     * @returns {number} the first step that is changed; -1 if nothing is
     * @throws {RangeError} why this is not possible
     */
    change(row, to) {
        const packet = packetAt(this.recording, row), before = this.contentOf(packet), after = { ...before, ...to };
        if (after.words.length !== before.words.length || !isAlike(cut(packet, before.words), cut(packet, after.words))) {
            throw new RangeError(OTHER_LENGTH);
        }
        if (isSame(before, after)) return -1;
        this.done.push({ row: packet.rows[0], before, after });
        this.undone = [];
        return this.put(packet, after);
    }

    /** Gives one row of a packet other words: a joint of a polyline, or a load without its data. */
    changeRow(row, words) {
        const packet = packetAt(this.recording, row), all = this.contentOf(packet).words;
        const { rows } = this.recording, at = packet.steps.indexOf(rows.first[row]);
        if (words.length !== rows.words(row, this.recording.track).length) throw new RangeError(OTHER_LENGTH);
        all.set(words, at);
        return this.change(row, { words: all });
    }

    /** Takes the last change back. Returns its first step, or -1. */
    undo() { return this.move(this.done, this.undone, 'before'); }

    /** Makes the change again that was taken back last. Returns its first step, or -1. */
    redo() { return this.move(this.undone, this.done, 'after'); }

    move(from, to, side) {
        const edit = from.pop();
        if (!edit) return -1;
        to.push(edit);
        return this.put(packetAt(this.recording, edit.row), edit[side]);
    }

    /** Makes a packet what it was in the file. Returns its first step, or -1. */
    restore(row) {
        const original = this.originals.get(packetAt(this.recording, row).rows[0]);
        return original ? this.change(row, original) : -1;
    }

    // Puts a packet into the recording.
    put(packet, content) {
        const { recording, originals } = this, { track } = recording, first = packet.rows[0];
        if (!originals.has(first)) originals.set(first, this.contentOf(packet));
        packet.steps.forEach((step, k) => {
            track.setWord(step, content.words[k]);
            track.setKind(step, content.isOmitted ? STEP.OMITTED : STEP.GP0);
        });
        this.putRows(packet, content);
        if (isSame(originals.get(first), content)) originals.delete(first);
        for (const row of packet.rows) if (originals.has(first)) this.rows.add(row); else this.rows.delete(row);
        recording.edition++;
        return packet.steps[0];
    }

    putRows(packet, { words, isOmitted }) {
        const { rows } = this.recording, made = cut(packet, words).rows;
        packet.rows.forEach((row, k) => {
            rows.head[row] = made.head[k];
            rows.kind[row] = isOmitted ? KIND.OMITTED : made.kind[k];
            rows.near[row] = isOmitted ? NO_AREA : NOT_YET;
            if (isOmitted) rows.omitted.set(row, made.kind[k]); else rows.omitted.delete(row);
        });
    }
}
