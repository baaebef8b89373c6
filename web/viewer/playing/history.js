// What changed a cell: every packet, segment or data word that leaves another value in it than it found, exactly as
// `psxgpu_tool pixel` lists them. The machine's notes tell which items may have changed it. Each of these is played,
// and the cell is looked at before and after it.

import { candidates } from './candidates.js';
import { playNarrow } from './narrow.js';
import { planOf } from './narrow_plan.js';
import { playSteps, toStart } from './player.js';

// How many steps are played as one part: few enough for the page to breathe, many enough to load few states.
const PART = 1 << 21;

export class History {
    /**
     * @param {Recording} recording all of it was played
     * @param {Machine} machine
     * @param {{x: number, y: number}} cell
     */
    constructor(recording, machine, cell) {
        Object.assign(this, { recording, machine, cell, changes: [], isStopped: false });
        this.parts = this.cut(candidates(recording, cell));
    }

    // The candidates by parts, and in a part by the state that is kept before them.
    cut(items) {
        const parts = new Map();
        for (const item of items) {
            const kept = this.recording.keyframes.indexAt(item.step), part = this.partOf(kept);
            if (!parts.has(part)) parts.set(part, new Map());
            const states = parts.get(part);
            if (!states.has(kept)) states.set(kept, []);
            states.get(kept).push(item);
        }
        return parts;
    }

    // The part that a kept state is in.
    partOf(kept) { return kept < 0 ? -1 : Math.floor(this.recording.keyframes.stepOf(kept) / PART); }

    /**
     * Looks at every part: first from a place back, then from it on.
     * @param {number} at the place, in steps
     * @param {(part: number) => void} told called after each part, with how much of all is done
     * @param {() => Promise<void>} breath lets others run
     */
    async run(at, told, breath) {
        const here = this.partOf(this.recording.keyframes.indexAt(at));
        const all = [...this.parts.keys()];
        const order = [...all.filter(part => part <= here).reverse(), ...all.filter(part => part > here)];
        let done = 0;
        for (const part of order) {
            if (this.isStopped) return;
            this.lookAt(this.parts.get(part));
            told(++done / order.length);
            await breath();
        }
    }

    // The states of a part together, or one by one, or those that cannot be played for this cell alone as they are.
    lookAt(states) {
        const [[first]] = states, found = [];
        if (!this.narrow(first, [...states.values()].flat(), found)) {
            for (const [kept, items] of states) if (!this.narrow(kept, items, found)) this.whole(kept, items, found);
        }
        this.changes.push(...found);
        this.changes.sort((a, b) => a.step - b.step);
    }

    // Plays the items for the cell alone. Returns whether that is right for them.
    narrow(kept, items, found) {
        const stops = kept < 0 ? null : planOf(this.recording, kept, items);
        if (!stops) return false;
        playNarrow(this, kept, stops, (item, play) => this.look(item, play, found));
        return true;
    }

    whole(kept, items, found) {
        const { recording, machine } = this, { keyframes, track } = recording;
        let at = kept < 0 ? 0 : keyframes.stepOf(kept);
        if (kept < 0) toStart(machine, recording); else machine.load(keyframes.bytes(kept));
        for (const item of items) {
            playSteps(machine, track, at, item.step);
            at = item.step + 1;
            this.look(item, () => playSteps(machine, track, item.step, at), found);
        }
    }

    look({ step, row }, play, found) {
        const { machine, cell: { x, y } } = this, before = machine.cell(x, y);
        play();
        const after = machine.cell(x, y);
        if (before !== after) found.push({ step, row, before, after });
    }
}
