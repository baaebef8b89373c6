// Finds rows: by name and kind ("polygon textured"), by a word in eight hexadecimal digits, by a cell ("@ 120,40").

import { KIND } from '../reading/rows.js';
import { STEP } from '../reading/track.js';
import { nameOf } from '../reading/names.js';
import { rowsAt } from '../playing/candidates.js';
import { tagsOf } from '../reading/words.js';

/** The cell that a text names, or null. */
export function cellIn(text) {
    const found = /^@?\s*\(?(\d{1,4})\s*[, ]\s*(\d{1,4})\)?$/.exec(text.trim());
    return found && { x: Number(found[1]), y: Number(found[2]) };
}

/**
 * Returns why a text names no cell of video memory, or null if it names one or none.
 * @param {string} text
 * @param {number} height of video memory
 */
export function cellProblem(text, height) {
    const cell = cellIn(text.toLowerCase());
    return !cell || (cell.x < 1024 && cell.y < height) ? null : `no such cell: write @ x,y up to 1023,${height - 1}`;
}

/** The rows that a text asks for, in order, or null where it asks for nothing. */
export function find(recording, text) {
    const asked = text.trim().toLowerCase();
    if (asked === '') return null;
    const cell = cellIn(asked);
    if (cell) return rowsAt(recording, cell);
    if (/^(0x)?[0-9a-f]{8}$/.test(asked)) return rowsWithWord(recording, parseInt(asked.replace(/^0x/, ''), 16));
    return rowsNamed(recording, asked.split(/\s+/));
}

// A row is judged by its kind and the opcode of its head, so few answers are worked out.
function rowsNamed({ rows }, parts) {
    const answers = new Map(), out = [];
    for (let row = 0; row < rows.length; row++) {
        const kind = rows.kindOf(row), head = rows.head[row], key = kind * 256 + (head >>> 24);
        let answer = answers.get(key);
        if (answer === undefined) {
            const all = [nameOf(kind, head), ...tagsOf(kind, head), ...(kind === KIND.GP1 ? ['gp1'] : [])];
            const text = all.join(' ').toLowerCase();
            answers.set(key, answer = parts.every(part => text.includes(part)));
        }
        if (answer) out.push(row);
    }
    return out;
}

function rowsWithWord(recording, word) {
    const { rows, track } = recording, out = [];
    for (let piece = 0, base = 0; base < track.length; piece++, base += track.words[piece - 1].length) {
        const words = track.words[piece], kinds = track.kinds[piece];
        for (let at = words.indexOf(word); at >= 0 && base + at < track.length;) {
            const row = kinds[at] > 1 && kinds[at] !== STEP.OMITTED ? -1 : rowOf(rows, base + at);
            if (row >= 0 && out.at(-1) !== row) out.push(row);
            const next = row < 0 ? at + 1 : Math.max(at + 1, recording.endOf(row) - base);
            at = words.indexOf(word, next);
        }
    }
    return out;
}

// The row that a step belongs to: the one that it helps to complete, or the load whose data it is.
function rowOf(rows, step) {
    const next = rows.at(step) + 1;
    if (next < rows.length && rows.first[next] <= step) return next;
    for (let row = next - 1; row >= 0; row--) if (rows.kindOf(row) === KIND.LOAD) return row;
    return -1;
}
