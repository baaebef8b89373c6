// A recording that is open: its steps and rows, and the states that are kept of it.

import { Keyframes } from '../playing/keyframes.js';
import { dataWords } from './grammar.js';
import { KIND, Rows } from './rows.js';
import { Splitter } from './splitter.js';
import { STEP, Track, isWord } from './track.js';

export class Recording {
    // `head`: its first eight bytes as text; `start`: the bytes of the state that a snapshot begins with, or null, and
    // `outline` what they say.
    constructor(name, head, start = null, outline = null) {
        Object.assign(this, { name, head, start, outline });
        this.version = head === 'PSXGPUS1' ? (outline.height === 1024 ? 3 : 2) : Number(head[7]);
        this.height = this.version === 3 ? 1024 : 512;
        this.track = new Track(outline?.played ?? 0);
        this.rows = new Rows();
        this.splitter = new Splitter(this.track, this.rows);
        this.pending = outline?.pending ?? null;
        if (this.pending) this.splitter.resume(this.pending);
        this.keyframes = new Keyframes();
        this.needsMemory = false;
        /** Rises with each change: what was computed of another edition is computed anew. */
        this.edition = 0;
    }

    get length() { return this.track.length; }

    /** What the file is. */
    get what() {
        if (this.isDump) return 'GPU dump';
        return this.start ? 'snapshot' : `capture, version ${this.version}`;
    }

    get flips() { return this.splitter.flips; }

    get marks() { return this.splitter.marks; }

    // The number of the event of the last of `steps` steps.
    eventAt(steps) { return steps === 0 ? this.track.before : this.track.event(steps - 1); }

    // After how many steps a row has done all that it does: of a load, when its data are there.
    endOf(row) {
        const end = this.rows.done[row] + 1;
        return this.rows.kindOf(row) === KIND.LOAD ? this.dataEnd(row, end) : end;
    }

    // The words of a row; of a load, its data, too.
    wordsOf(row) {
        const out = this.rows.words(row, this.track);
        for (let step = this.rows.done[row] + 1; step < this.endOf(row); step++) {
            if (isWord(this.track.kind(step))) out.push(this.track.word(step));
        }
        return out;
    }

    dataEnd(row, end) {
        const { track } = this;
        let left = dataWords(track.word(end - 1)), at = end;
        for (; left > 0 && at < track.length; at++) {
            const kind = track.kind(at);
            if (isWord(kind)) left--;
            else if (kind === STEP.GP1 && (track.word(at) & 0x3E000000) === 0) return end;
        }
        return at;
    }
}
