// A second recording beside the one that is open: its states, and its place at the same packet of the same frame.

import { aligned } from './alignment.js';
import { breath } from '../playing/yield_to_page.js';
import { rowsOfFrame } from '../playing/frames.js';
import { Machine } from '../playing/machine.js';
import { lastUpTo } from '../numbers.js';
import { Pass } from '../playing/pass.js';
import { Player } from '../playing/player.js';

// A place so few steps ahead is played at once.
const NEAR = 4096;

export class Second {
    /**
     * @param {Recording} recording
     * @param {object} library
     */
    constructor(recording, library) {
        Object.assign(this, { recording, library, isClosed: false, cells: null, played: 0 });
        this.machine = new Machine(library);
        this.player = new Player(recording, this.machine);
    }

    /** Plays all of it once, which keeps its states. `told` receives how much is done. */
    async playAll(told) {
        const pass = new Pass(this.recording, new Machine(this.library));
        while (!pass.isDone() && !this.isClosed) {
            pass.turn();
            this.played = pass.at;
            told(pass.at / this.recording.length);
            await breath();
        }
        pass.machine.close();
    }

    /**
     * Shows a place: `cells`, `picture` and `registers` are those after this number of steps. If it is not played so far,
     * `cells` is null.
     */
    show(steps) {
        const { machine } = this;
        this.at = steps;
        this.cells = null;
        if (steps > this.played + NEAR) return;
        this.player.seek(steps);
        this.cells = machine.vramView().slice();
        this.picture = machine.frame();
        this.registers = machine.registers();
    }

    close() {
        this.isClosed = true;
        this.machine.close();
    }
}

/** Finds places of a second recording: those at the same packet of the same frame, by the words of both. */
export class SamePlace {
    constructor() { Object.assign(this, { key: '', last: new Int32Array(0) }); }

    /**
     * @param {{recording: Recording, starts: number[], at: number}} here
     * @param {{recording: Recording, starts: number[]}} there
     * @returns {number} steps
     */
    find({ recording, starts, at }, there) {
        const frame = lastUpTo(starts, at - 1) + 1, row = recording.rows.at(at);
        if (frame > there.starts.length) return there.recording.length;
        const rows = rowsOfFrame(recording, starts, frame), start = frame === 0 ? 0 : there.starts[frame - 1] + 1;
        if (row < rows.first) return start;
        if (row === rows.end - 1) return this.frameEnd(there, frame);
        this.align({ recording, starts }, there, frame, rows);
        const last = this.last[row - rows.first];
        return last < 0 ? start : there.recording.endOf(last);
    }

    frameEnd({ recording, starts }, frame) {
        return frame < starts.length ? starts[frame] + 1 : recording.length;
    }

    // For each row here, the last row there that is beside it or before it; -1 for none.
    align({ recording, starts }, there, frame, rows) {
        const key = `${recording.edition} ${frame} ${rows.end} ${starts.length} ${there.starts.length}`;
        if (key === this.key && recording === this.recording && there.recording === this.other) return;
        const last = new Int32Array(rows.end - rows.first).fill(-1);
        const pairs = aligned(recording, rows, there.recording, rowsOfFrame(there.recording, there.starts, frame));
        let here = rows.first, reached = -1;
        for (const [rowA, rowB] of pairs) {
            reached = Math.max(reached, rowB);
            if (rowA < 0) continue;
            last.fill(last[here - rows.first - 1] ?? -1, here - rows.first, rowA - rows.first);
            last[rowA - rows.first] = reached;
            here = rowA + 1;
        }
        last.fill(last[here - rows.first - 1] ?? -1, here - rows.first);
        Object.assign(this, { key, recording, other: there.recording, last });
    }
}
