// The drawing settings that hold before a row, read off the list without playing.

import { KIND } from '../reading/rows.js';

/** The words of E3h, E4h and E5h: drawing area and offset. */
export const PLACING = [0xE3, 0xE4, 0xE5];

/**
 * Returns the last words of some settings before a row. A reset, or the start of a capture, leaves each at 0; a snapshot
 * begins with its own.
 * @param {Recording} recording
 * @param {number} before
 * @param {number[]} opcodes of E1h to E6h
 * @returns {number[]}
 */
export function settingsBefore({ rows, outline }, before, opcodes) {
    const found = new Map();
    let isReset = false;
    for (let row = before - 1; row >= 0 && found.size < opcodes.length && !isReset; row--) {
        const kind = rows.kind[row], opcode = rows.head[row] >>> 24;
        isReset = kind === KIND.GP1 && (opcode & 63) === 0;
        if (kind === KIND.SETTING && opcodes.includes(opcode) && !found.has(opcode)) found.set(opcode, rows.head[row]);
    }
    const first = opcode => ((opcode << 24) | (isReset ? 0 : outline?.registers[opcode - 0xE1] ?? 0)) >>> 0;
    return opcodes.map(opcode => found.get(opcode) ?? first(opcode));
}
