// Frames: each ends with a display start, or with a mark; what follows the last one is a frame too if it has a packet.
// docs/CAPTURE.md#frames has the rule. They are shown numbered from 1; the code counts them from 0.

import { lastUpTo } from '../numbers.js';

/**
 * Returns the number of frames.
 * @param {Recording} recording
 * @param {number[]} ends the steps that end frames: flips or marks
 * @returns {number}
 */
export function frameCount({ rows }, ends) {
    const last = ends.length > 0 ? ends[ends.length - 1] : -1;
    for (let row = rows.length - 1; row >= 0 && rows.done[row] > last; row--) {
        if (rows.isPacket(row)) return ends.length + 1;
    }
    return ends.length;
}

/**
 * Returns the frame that is drawn at a place. Exactly at its end a frame is still the one that is seen.
 * @param {number[]} ends the steps that end frames
 * @param {number} at the place, in steps
 * @param {number} count of frames: what follows the last one without a packet is counted to it
 * @returns {number} from 0
 */
export function frameSeen(ends, at, count = Infinity) {
    const frame = lastUpTo(ends, at - 1) + 1;
    const seen = frame > 0 && ends[frame - 1] === at - 1 ? frame - 1 : frame;
    return Math.max(0, Math.min(seen, count - 1));
}

/**
 * Returns the rows of a frame: those that are complete after its start, up to its end.
 * @param {Recording} recording
 * @param {number[]} starts
 * @param {number} frame
 * @returns {{first: number, end: number}} the first row and the one after the last
 */
export function rowsOfFrame({ rows }, starts, frame) {
    return {
        first: frame === 0 ? 0 : rows.at(starts[frame - 1] + 1) + 1,
        end: frame < starts.length ? rows.at(starts[frame] + 1) + 1 : rows.length,
    };
}
