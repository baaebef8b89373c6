// What belongs to a packet: its rows and its words. A polyline is one packet with its joints and its end, a load one with
// its data.

import { dataWords } from '../reading/grammar.js';
import { KIND } from '../reading/rows.js';
import { STEP, isWord } from '../reading/track.js';

const POLYLINE = 0x8000000;

// Whether a step ends whatever packet is unfinished: GP1(00h) or GP1(01h).
const isClear = (track, step) => track.kind(step) === STEP.GP1 && (track.word(step) >>> 24 & 63) <= 1;

/** A polyline that begins in the state of a snapshot has no row. */
function polylineStart({ rows }, row) {
    for (let at = row; at >= 0; at--) {
        const kind = rows.kindOf(at);
        if (kind === KIND.LINE) return at;
        if (kind < KIND.GP1 && kind !== KIND.JOINT && kind !== KIND.FINISH) break;
    }
    throw new RangeError('this polyline begins before the recording, so it cannot be changed');
}

// The rows of a polyline, and the step after its last word. Words of an unfinished joint belong to it too.
function polylineOf({ rows, track }, first) {
    const out = [first];
    let row = first + 1;
    for (; row < rows.length && rows.kindOf(row) !== KIND.FINISH; row++) {
        const kind = rows.kindOf(row);
        if (kind === KIND.JOINT) out.push(row);
        else if (kind === KIND.GP1 && isClear(track, rows.done[row])) return { rows: out, to: rows.done[row] };
    }
    if (row === rows.length) return { rows: out, to: track.length };
    return { rows: [...out, row], to: rows.done[row] + 1 };
}

// The step after the last data word of a load, which GP1 may end early.
function dataEnd({ rows, track }, row) {
    let at = rows.done[row] + 1;
    for (let left = dataWords(track.word(at - 1)); left > 0 && at < track.length && !isClear(track, at); at++) {
        if (isWord(track.kind(at))) left--;
    }
    return at;
}

/**
 * Returns the packet that a row is, or is a part of.
 * @param {Recording} recording
 * @param {number} row
 * @returns {{rows: number[], steps: number[]}} its rows, and the steps of its words
 * @throws {RangeError} if it is not a packet, or if a part of it is before the recording
 */
export function packetAt(recording, row) {
    const { rows, track } = recording, kind = rows.kindOf(row);
    if (!(kind < KIND.GP1)) throw new RangeError('only packets can be changed, not words for GP1 or reads');
    if (row === rows.earlier.row && rows.earlier.words.length > 0) {
        throw new RangeError('this packet begins before the recording, so it cannot be changed');
    }
    let found = { rows: [row], to: rows.done[row] + 1 };
    if (kind === KIND.JOINT || kind === KIND.FINISH) found = polylineOf(recording, polylineStart(recording, row));
    else if (kind === KIND.LINE && rows.head[row] & POLYLINE) found = polylineOf(recording, row);
    else if (kind === KIND.LOAD) found.to = dataEnd(recording, row);
    const steps = [];
    for (let step = rows.first[found.rows[0]]; step < found.to; step++) if (isWord(track.kind(step))) steps.push(step);
    return { rows: found.rows, steps };
}
