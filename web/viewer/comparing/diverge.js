// Where two recordings part: the first row whose words differ, the first frame after which video memory differs, and in
// that frame the first packet that draws otherwise.

import { aligned, firstRowsApart } from './alignment.js';
import { breath } from '../playing/yield_to_page.js';
import { rowsOfFrame } from '../playing/frames.js';
import { lastUpTo } from '../numbers.js';

const differ = (a, b) => {
    if (a.length !== b.length) return true;
    const [one, other] = [a, b].map(cells => new Uint32Array(cells.buffer, cells.byteOffset, cells.length >> 1));
    for (let k = 0; k < one.length; k++) if (one[k] !== other[k]) return true;
    return false;
};

const placeAfter = (recording, row) => row < 0 ? 0 : recording.endOf(row);

// The end of a frame, in steps.
const frameEnd = ({ recording, starts }, frame) => frame < starts.length ? starts[frame] + 1 : recording.length;

/**
 * Finds the first frame after which video memory differs, and the first pair of rows in it. A side is a recording with
 * the starts of its frames and a player of its own.
 */
export class Diverge {
    /**
     * @param {{recording: Recording, starts: number[], player: Player}} a
     * @param {{recording: Recording, starts: number[], player: Player}} b
     */
    constructor(a, b) { Object.assign(this, { a, b, isStopped: false }); }

    // Whether video memory differs at two places.
    differs(stepsA, stepsB) {
        const { a, b } = this;
        a.player.seek(stepsA);
        const cells = a.player.machine.vramView().slice();
        b.player.seek(stepsB);
        return differ(cells, b.player.machine.vramView());
    }

    // The frame of a row of the first recording; before it the words are the same, and so is what they draw.
    frameOf(row) {
        const { starts, recording: { rows } } = this.a, last = Math.min(Math.max(row, 0), rows.length - 1);
        return lastUpTo(starts, rows.done[last] - 1) + 1;
    }

    /**
     * @param {(text: string, part: number) => void} told
     * @returns {Promise<object | null>} null if it was stopped; `apart` the first rows whose words differ, or null; `frame`
     *     the first frame that differs, from 0, or -1; `rowA` and `rowB` the first packets that draw otherwise, -1 for a
     *     packet that only the other recording has
     */
    async find(told) {
        const { a, b } = this, apart = firstRowsApart(a.recording, b.recording), none = { apart, frame: -1 };
        if (!apart && a.recording.height === b.recording.height) return none;
        const count = Math.min(a.starts.length, b.starts.length) + 1;
        for (let frame = Math.min(this.frameOf(apart?.rowA ?? 0), count - 1); frame < count && !this.isStopped; frame++) {
            told('comparing frames', frame / count);
            await breath();
            if (this.differs(frameEnd(a, frame), frameEnd(b, frame))) return this.inFrame(frame, apart, told);
        }
        return this.isStopped ? null : none;
    }

    async inFrame(frame, apart, told) {
        const { a, b } = this, [here, there] = [a, b].map(side => rowsOfFrame(side.recording, side.starts, frame));
        const pairs = aligned(a.recording, here, b.recording, there), ends = [here, there].map(({ first }) => first - 1);
        const from = this.isFirst(apart, here) ? Math.max(0, pairs.findIndex(([, , isSame]) => !isSame)) : 0;
        for (let k = 0; k < pairs.length && !this.isStopped; k++) {
            const [rowA, rowB] = pairs[k];
            ends[0] = Math.max(ends[0], rowA);
            ends[1] = Math.max(ends[1], rowB);
            if (k < from) continue;
            told('comparing packets', k / pairs.length);
            if (k % 8 === 0) await breath();
            if (this.differs(placeAfter(a.recording, ends[0]), placeAfter(b.recording, ends[1]))) {
                return { apart, frame, rowA, rowB };
            }
        }
        return this.isStopped ? null : { apart, frame };
    }

    // Whether the first rows whose words differ are in a frame: before them both draw the same.
    isFirst(apart, { first, end }) { return apart !== null && first <= apart.rowA && apart.rowA <= end; }
}
