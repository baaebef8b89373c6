// Which rows the arrow keys go to: the packets that draw, or the rows that the list shows; every row with Shift.

import { KIND } from '../reading/rows.js';
import { lastUpTo } from '../numbers.js';

/**
 * Returns whether a row is a packet that draws: a fill, polygon, line, rectangle, copy or load.
 * @param {Rows} rows
 * @param {number} row
 * @returns {boolean}
 */
export function isDrawing(rows, row) {
    const kind = rows.kind[row];
    if (kind === KIND.OTHER) return rows.head[row] >>> 24 === 2;
    return (kind >= KIND.POLYGON && kind <= KIND.LOAD) || kind === KIND.JOINT;
}

/** Returns whether the arrow keys go to a row: a packet that draws, or one that a change leaves out. */
export const isStop = (rows, row) => isDrawing(rows, row) || rows.isOmitted(row);

/**
 * Returns the next row in a direction that ends at another place than this one.
 * @param {{recording: Recording, row: number, at: number}} app
 * @param {number} by 1 or -1
 * @param {number[] | null} list the rows to go by, in order; null for all of them
 * @param {(row: number) => boolean} keeps whether a row of these is gone to
 * @returns {number} a row, -1 or the number of rows
 */
export function nextRow({ recording, row, at }, by, list, keeps) {
    const { rows } = recording, count = list?.length ?? rows.length;
    const rowAt = index => list ? list[index] : index;
    const isPassed = index => {
        const end = recording.endOf(rowAt(index));
        return by > 0 ? end <= at : end >= at;
    };
    let index = list ? lastUpTo(list, row) : row;
    if (by > 0) index = Math.max(0, index);
    while (index >= 0 && index < count && (!keeps(rowAt(index)) || isPassed(index))) index += by;
    return index < 0 ? -1 : index >= count ? rows.length : rowAt(index);
}
