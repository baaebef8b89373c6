// A machine at a place of a recording: after a number of its steps.

import { STEP } from '../reading/track.js';

/** Plays one step that is not a word for GP0. Returns the word that it reads, as `play` writes it; else undefined. */
export function playOther(machine, kind, word) {
    if (kind === STEP.READ) return machine.read();
    if (kind === STEP.STAT) return machine.status();
    if (kind === STEP.GP1) machine.gp1(word); else if (kind === STEP.SKIP) machine.skip();
    return undefined;
}

/** Plays the steps from one place to another. */
export function playSteps(machine, track, from, to) {
    for (let at = from; at < to;) {
        const run = track.run(at, to);
        if (run.length > 0) machine.gp0(run);
        else playOther(machine, track.kind(at), track.word(at));
        at += run.length || 1;
    }
}

/** The state before the first step. */
export function toStart(machine, recording) {
    if (recording.start) {
        machine.load(recording.start);
        return;
    }
    machine.clear();
    if (recording.version === 3) machine.setTall();
}

export class Player {
    constructor(recording, machine) {
        Object.assign(this, { recording, machine, at: -1 });
    }

    // Goes to the state after `step` steps, from the nearest one before that is kept.
    seek(step) {
        const { keyframes, track } = this.recording;
        const kept = keyframes.indexAt(step);
        const from = kept < 0 ? 0 : keyframes.stepOf(kept);
        if (this.at < from || this.at > step) {
            if (kept < 0) toStart(this.machine, this.recording);
            else this.machine.load(keyframes.bytes(kept));
            this.at = from;
        }
        playSteps(this.machine, track, this.at, step);
        this.at = step;
    }

    /** A step was changed: a state after it is no longer that of the recording. */
    rewind(step) { if (this.at > step) this.at = -1; }
}
