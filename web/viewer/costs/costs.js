// What each frame costs: the packets that draw, the cells that they cover as the machine draws them, and apart from these
// the cells that are loaded.

import { breath } from '../playing/yield_to_page.js';
import { Coverage, cellsOf } from './coverage.js';
import { rowsOfFrame } from '../playing/frames.js';
import { isDrawing } from '../panels/stepping.js';
import { KIND } from '../reading/rows.js';

// Milliseconds: of work between two breaths, between two reports, and of the wait while the reader steps.
const PART = 12, TOLD = 200, WAIT = 30;
const NOT_COUNTED = -1;

// A frame of more packets is counted only beside other work.
const MOST_AT_ONCE = 10000;

export class Costs {
    /**
     * @param {Recording} recording
     * @param {number[]} ends the steps that end frames
     * @param {object} library
     * @param {Costs | null} before what was counted before the recording has grown
     */
    constructor(recording, ends, library, before = null) {
        const count = ends.length + 1;
        Object.assign(this, { recording, ends, library, count, isStopped: false });
        this.packets = new Uint32Array(count);
        /** The cells that packets cover, of fills and copies too; -1 if they are not counted yet. */
        this.drawn = new Float64Array(count).fill(NOT_COUNTED);
        /** The cells that loads write. */
        this.loaded = new Float64Array(count);
        /** The cells that textured packets cover, so the texels that they read, and those of semi-transparent packets; -1 if
         * they are not counted yet. */
        this.texels = new Float64Array(count).fill(NOT_COUNTED);
        this.blended = new Float64Array(count).fill(NOT_COUNTED);
        const known = before?.recording === recording && before.ends === ends ? this.takeOver(before) : 0;
        for (let frame = known; frame < count; frame++) this.countPackets(frame);
    }

    // Takes what was counted of the frames that were whole. Returns how many these are.
    takeOver(before) {
        const known = Math.min(before.count - 1, this.count);
        for (const name of ['packets', 'drawn', 'loaded', 'texels', 'blended']) {
            this[name].set(before[name].subarray(0, known));
        }
        return known;
    }

    rowsOf(frame) { return rowsOfFrame(this.recording, this.ends, frame); }

    countPackets(frame) {
        const { rows } = this.recording, { first, end } = this.rowsOf(frame);
        for (let row = first; row < end; row++) if (isDrawing(rows, row)) this.packets[frame]++;
    }

    isCounted(frame) { return this.drawn[frame] !== NOT_COUNTED; }

    // Counts the cells of a frame. The areas of all its packets are known.
    * counting(frame, coverage) {
        if (this.isCounted(frame)) return;
        const { recording } = this, { rows } = recording, { first, end } = this.rowsOf(frame);
        let drawn = 0, loaded = 0;
        for (let row = first; row < end; row++) {
            const kind = rows.kind[row], area = rows.area(row);
            if (!area || !isDrawing(rows, row)) continue;
            if (kind === KIND.LOAD) loaded += cellsOf(area);
            else if (kind === KIND.OTHER || kind === KIND.COPY) drawn += cellsOf(area);
        }
        this.drawn[frame] = drawn + (yield* coverage.counting(recording, { first, end }));
        this.loaded[frame] = loaded;
    }

    // Counts texels and blended cells of a frame, too.
    * countingKinds(frame, coverage) {
        yield* this.counting(frame, coverage);
        const range = this.rowsOf(frame), { recording } = this;
        const isTextured = head => head >>> 29 !== KIND.LINE && (head >>> 26 & 1) === 1;
        this.texels[frame] = yield* coverage.counting(recording, range, isTextured);
        this.blended[frame] = yield* coverage.counting(recording, range, head => (head >>> 25 & 1) === 1);
    }

    /** Counts a frame at once, unless it has very many packets. */
    countNow(frame) {
        if (this.packets[frame] > MOST_AT_ONCE || this.isCounted(frame)) return;
        const coverage = new Coverage(this.library);
        for (const work = this.counting(frame, coverage); !work.next().done;);
        coverage.close();
    }

    /** Yields the cells of each packet of a frame. */
    * packetsOf(frame) {
        const coverage = new Coverage(this.library);
        try {
            yield* coverage.each(this.recording, this.rowsOf(frame));
        } finally {
            coverage.close();
        }
    }

    /**
     * Counts all frames beside other work.
     * @param {() => boolean} waits whether the reader steps
     * @param {() => void} told called now and then, and at the end
     * @param {boolean} hasKinds whether texels and blended cells are counted too
     */
    async run(waits, told, hasKinds = false) {
        const coverage = new Coverage(this.library);
        let began = performance.now(), toldAt = began;
        for (let frame = 0; frame < this.count && !this.isStopped; frame++) {
            const work = hasKinds ? this.countingKinds(frame, coverage) : this.counting(frame, coverage);
            while (!work.next().done && !this.isStopped) {
                if (performance.now() - began < PART) continue;
                if (performance.now() - toldAt > TOLD) {
                    told();
                    toldAt = performance.now();
                }
                await breath();
                while (waits() && !this.isStopped) await new Promise(go => setTimeout(go, WAIT));
                began = performance.now();
            }
        }
        coverage.close();
        if (!this.isStopped) told();
    }

    /** Ends the counting. */
    stop() { this.isStopped = true; }
}
