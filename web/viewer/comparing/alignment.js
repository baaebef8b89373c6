// Which rows of two recordings correspond, by their words: what one of them alone has is passed over. Reads change no
// cell, and dumps lack the status reads, so they are passed over too, and so are the rows that a change leaves out.

import { KIND } from '../reading/rows.js';
import { STEP } from '../reading/track.js';

// How many rows are looked ahead, and how many of the same words in a row show that both go on together.
const MOST_AHEAD = 128, TOGETHER = 3;

const PASSED = [KIND.READS, KIND.STATUS, KIND.OMITTED];
const isPassed = ({ rows }, row) => PASSED.includes(rows.kind[row]);

// Words for GP0 and GP1 of a row with its data; steps of other kinds are passed over.
function* wordsOf({ rows, track }, row, end) {
    for (let step = rows.first[row]; step < end; step++) {
        const kind = track.kind(step);
        if (kind === STEP.GP0 || kind === STEP.GP1) yield track.word(step);
    }
}

/**
 * Returns whether two rows have the same words.
 * @param {Recording} a
 * @param {Recording} b
 * @param {number} rowA
 * @param {number} rowB
 */
export function sameRow(a, b, rowA, rowB) {
    if (a.rows.kind[rowA] !== b.rows.kind[rowB] || a.rows.head[rowA] !== b.rows.head[rowB]) return false;
    const others = wordsOf(b, rowB, b.endOf(rowB));
    for (const word of wordsOf(a, rowA, a.endOf(rowA))) if (others.next().value !== word) return false;
    return others.next().done === true;
}

/**
 * Returns the first row of each recording, reads left out, at which their words differ; null if all are the same. One past
 * the last row is the end of a recording.
 * @param {Recording} a
 * @param {Recording} b
 * @returns {{rowA: number, rowB: number} | null}
 */
export function firstRowsApart(a, b) {
    for (let rowA = 0, rowB = 0; ; rowA++, rowB++) {
        while (rowA < a.rows.length && isPassed(a, rowA)) rowA++;
        while (rowB < b.rows.length && isPassed(b, rowB)) rowB++;
        const isEnd = [rowA === a.rows.length, rowB === b.rows.length];
        if (isEnd[0] && isEnd[1]) return null;
        if (isEnd[0] || isEnd[1] || !sameRow(a, b, rowA, rowB)) return { rowA, rowB };
    }
}

// The rows of a range that are no reads, each with a number that its words give.
function keyed(recording, { first, end }) {
    const out = { rows: [], keys: [] };
    for (let row = first; row < end; row++) {
        if (isPassed(recording, row)) continue;
        let key = recording.rows.kind[row] + 0x811C9DC5;
        for (const word of wordsOf(recording, row, recording.endOf(row))) key = Math.imul(key ^ word, 16777619);
        out.rows.push(row);
        out.keys.push(key);
    }
    return out;
}

// Whether two lists go on with the same numbers, or both end.
function isTogether(a, b, x, y) {
    for (let k = 0; k < TOGETHER; k++) {
        if (x + k === a.length && y + k === b.length) return true;
        if (x + k >= a.length || y + k >= b.length || a[x + k] !== b[y + k]) return false;
    }
    return true;
}

// The next place from (i, j) on where both have the same words again: how many rows of each are passed over.
function nextTogether(a, b, i, j) {
    const most = Math.min(MOST_AHEAD, a.length - i + b.length - j);
    for (let sum = 1; sum <= most; sum++) {
        for (let by = sum % 2; by <= sum; by += 2) {
            const [more, less] = [(sum + by) / 2, (sum - by) / 2];
            if (isTogether(a, b, i + more, j + less)) return [more, less];
            if (by > 0 && isTogether(a, b, i + less, j + more)) return [less, more];
        }
    }
    return [1, 1];
}

/**
 * Returns the rows of two ranges side by side, in order: [row of a, row of b, whether their words are the same]. A row that
 * only one has stands with -1.
 * @param {Recording} a
 * @param {{first: number, end: number}} rangeA
 * @param {Recording} b
 * @param {{first: number, end: number}} rangeB
 * @returns {[number, number, boolean][]}
 */
export function aligned(a, rangeA, b, rangeB) {
    const [one, other] = [keyed(a, rangeA), keyed(b, rangeB)], out = [];
    let i = 0, j = 0;
    while (i < one.rows.length || j < other.rows.length) {
        if (i < one.rows.length && j < other.rows.length && one.keys[i] === other.keys[j]) {
            out.push([one.rows[i++], other.rows[j++], true]);
            continue;
        }
        const [x, y] = nextTogether(one.keys, other.keys, i, j);
        for (let k = 0; k < Math.max(x, y); k++) {
            out.push([k < x ? one.rows[i + k] ?? -1 : -1, k < y ? other.rows[j + k] ?? -1 : -1, false]);
        }
        i += x;
        j += y;
    }
    return out;
}
