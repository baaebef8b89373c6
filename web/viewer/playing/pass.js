// Plays a recording once from its start, slice by slice: keeps the state before a slice, and plays it with the machine's
// notes, which give the areas of its packets. The words that are read are kept in the track. It can be stopped and gone on
// with.

import { KIND, NOT_YET, NO_AREA } from '../reading/rows.js';
import { playOther, toStart } from './player.js';

// Milliseconds that a slice is to be played in, and how many steps it has at least and at most.
const WANTED = 16, LEAST = 16384, MOST = 65536;
// The first slice. States that are kept are not nearer to each other, and at most so many.
const FIRST = 4096, STATES = 512;

export class Pass {
    constructor(recording, machine) {
        const apart = Math.max(FIRST, recording.length / STATES);
        Object.assign(this, { recording, machine, at: 0, row: 0, slice: FIRST, apart, count: 0, every: 1, keptAt: -apart });
        toStart(machine, recording);
    }

    isDone() { return this.at >= this.recording.track.length; }

    // Plays the next slice.
    turn() {
        const { machine, recording } = this;
        this.keep(machine);
        const started = performance.now();
        this.play(Math.min(this.at + this.slice, recording.length));
        this.fit(performance.now() - started);
    }

    // Longer slices where they are played in a short time, and shorter ones where not.
    fit(played) {
        if (played < WANTED / 2) this.slice = Math.min(2 * this.slice, MOST);
        else if (played > 2 * WANTED) this.slice = Math.max(this.slice >> 1, LEAST);
    }

    // Keeps a state, or every second, fourth .. where they would be too many.
    keep(machine) {
        const { keyframes } = this.recording;
        if (this.at - this.keptAt < this.apart || this.count++ % this.every !== 0 || keyframes.isKept(this.at)) return;
        this.keptAt = this.at;
        keyframes.add(this.at, machine.stateView());
        if (!keyframes.isFull) return;
        keyframes.thin();
        this.every *= 2;
    }

    /** Goes back to the last state that is kept up to a step: the steps from there on are played anew. */
    rewind(step) {
        const { recording: { keyframes, rows }, machine } = this, last = keyframes.indexAt(step), end = this.row;
        if (this.at <= step) return;
        if (last < 0) toStart(machine, this.recording); else machine.load(keyframes.bytes(last));
        this.at = last < 0 ? 0 : keyframes.stepOf(last);
        Object.assign(this, last < 0 ? { count: 0, keptAt: -this.apart } : { count: last * this.every + 1, keptAt: this.at });
        this.row = rows.at(this.at) + 1;
        for (let row = this.row; row < end; row++) if (rows.isPacket(row)) rows.near[row] = NOT_YET;
    }

    // Plays up to a step, and puts the areas of its packets into their rows.
    play(to) {
        const { machine, recording: { track } } = this;
        while (this.at < to) {
            const run = track.run(this.at, to);
            if (run.length > 0) this.write(machine.gp0NotesView(run), this.at);
            else this.playOther(machine, track);
            this.at += run.length || 1;
        }
    }

    playOther(machine, track) {
        const read = playOther(machine, track.kind(this.at), track.word(this.at));
        if (read !== undefined) track.setWord(this.at, read);
    }

    // Puts areas into the rows of the items that are told of; places count from this step.
    write(notes, first) {
        const { rows } = this.recording;
        for (let k = 0; k < notes.length; k++) {
            while (this.row < rows.length && !rows.isPacket(this.row)) this.row++;
            this.writeArea(this.row++, notes, k, first);
        }
    }

    writeArea(row, notes, k, first) {
        const { rows } = this.recording, kind = rows.kind[row] === KIND.JOINT ? KIND.LINE : rows.kind[row];
        if (first + notes.word(k) !== rows.done[row] || notes.head(k) !== rows.head[row] || notes.classNumber(k) !== kind) {
            throw new Error(`row ${row}: the machine tells of another packet`);
        }
        const area = notes.area(k);
        if (area) rows.setArea(row, ...area);
        else rows.near[row] = NO_AREA;
    }
}
