// The steps that may change a cell: those of the packets, segments and data words whose area holds it.

import { KIND } from '../reading/rows.js';
import { STEP } from '../reading/track.js';

// Whether an area with corners that are not wrapped holds a cell.
function holds(near, far, x, y, height) {
    const x1 = near & 0xFFFF, y1 = near >>> 16, x2 = far & 0xFFFF, y2 = far >>> 16;
    return ((x1 <= x && x <= x2) || x + 1024 <= x2) && ((y1 <= y && y <= y2) || y + height <= y2);
}

/**
 * Returns the rows whose area holds a cell.
 * @param {Recording} recording
 * @param {{x: number, y: number}} cell
 * @returns {number[]}
 */
export function rowsAt({ rows, height }, { x, y }) {
    const out = [];
    for (let row = 0; row < rows.length; row++) {
        if (rows.near[row] < 0xFFFFFFFE && holds(rows.near[row], rows.far[row], x, y, height)) out.push(row);
    }
    return out;
}

// The step of a load that writes a cell of its rectangle; -1 where the load ends before.
function dataStep(recording, row, { x, y }) {
    const { rows, track, height } = recording, { x1, y1, x2 } = rows.area(row);
    const place = ((y - y1) & (height - 1)) * (x2 - x1 + 1) + ((x - x1) & 1023);
    return nthWord(track, rows.done[row] + 1, recording.endOf(row), place >> 1);
}

function nthWord(track, from, to, count) {
    let left = count;
    for (let step = from; step < to; step++) if (track.kind(step) === STEP.GP0 && left-- === 0) return step;
    return -1;
}

/**
 * Returns the steps that may change a cell, in order, each with its row; -1 for a load that a snapshot begins within.
 * @param {Recording} recording
 * @param {{x: number, y: number}} cell
 * @returns {{step: number, row: number}[]}
 */
export function candidates(recording, cell) {
    const { rows } = recording, out = [];
    for (const row of rowsAt(recording, cell)) {
        const kind = rows.kind[row];
        if (kind === KIND.STORE) continue;
        const step = kind === KIND.LOAD ? dataStep(recording, row, cell) : rows.done[row];
        if (step >= 0) out.push({ step, row });
    }
    out.push(...begunLoad(recording, cell));
    return out.sort((a, b) => a.step - b.step);
}

// A load that a snapshot begins within has no row: its data words are the first steps.
function begunLoad({ pending, track, height, length }, { x, y }) {
    if (pending?.kind !== 'load') return [];
    const across = (x - pending.x) & 1023, down = (y - pending.y) & (height - 1);
    if (across >= pending.w || down >= pending.h) return [];
    const place = down * pending.w + across - pending.next;
    const step = place < 0 ? -1 : nthWord(track, 0, length, place >> 1);
    return step < 0 ? [] : [{ step, row: -1 }];
}
