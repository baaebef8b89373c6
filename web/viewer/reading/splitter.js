// Cuts the steps of a recording into rows: the words of GP0 into packets.

import { dataWords, isPolylineEnd, lengthOf, wordsOfCells } from './grammar.js';
import { KIND } from './rows.js';
import { PIECE, STEP } from './track.js';

const MASK = PIECE - 1;

export class Splitter {
    constructor(track, rows) {
        Object.assign(this, { track, rows, at: 0, flips: [], marks: [] });
        this.drop();
    }

    // Nothing is unfinished.
    drop() {
        this.need = 0;
        this.data = 0;
        this.polyline = 0;
    }

    // Goes on with what a snapshot holds of an unfinished packet.
    resume(pending) {
        this.rows.earlier.row = 0;
        const words = pending.words ?? [];
        if (pending.kind === 'packet') {
            this.begin(words[0] >>> 29, 0, words[0], lengthOf(words[0]) - words.length);
        } else if (pending.kind === 'load') {
            this.data = wordsOfCells(pending.w * pending.h - pending.next);
        } else if (pending.kind === 'polyline') {
            this.polyline = pending.command;
            if (words.length > 0) this.begin(KIND.JOINT, 0, pending.command, 1);
        }
        this.rows.earlier.words = words;
    }

    // Cuts the steps that have come since.
    feed() {
        const { track } = this;
        while (this.at < track.length) {
            const piece = this.at >> 20, kinds = track.kinds[piece], words = track.words[piece];
            const from = this.at & MASK, base = this.at - from;
            const end = Math.min(PIECE, track.length - base);
            for (let k = from; k < end; k++) {
                if (kinds[k] !== STEP.GP0) this.other(kinds[k], words[k], base + k);
                else if (this.data > 0) this.data--;
                else this.word(words[k], base + k);
            }
            this.at = base + end;
        }
    }

    begin(kind, first, head, need) { Object.assign(this, { kind, first, head, need }); }

    word(word, step) {
        if (this.need === 0) {
            if (this.polyline === 0) {
                this.kind = word >>> 29;
                this.first = step;
                this.head = word;
                this.need = lengthOf(word);
            } else if (isPolylineEnd(word)) {
                this.rows.add(KIND.FINISH, step, step, word);
                this.polyline = 0;
                return;
            } else {
                this.begin(KIND.JOINT, step, this.polyline, this.polyline & 0x10000000 ? 2 : 1);
            }
        }
        if (--this.need === 0) this.complete(word, step);
    }

    complete(word, step) {
        this.rows.add(this.kind, this.first, step, this.head);
        if (this.kind === KIND.LOAD) this.data = dataWords(word);
        else if (this.kind === KIND.LINE && this.head & 0x8000000) this.polyline = this.head;
    }

    other(kind, word, step) {
        const { rows } = this;
        if (kind === STEP.GP1) {
            rows.add(KIND.GP1, step, step, word);
            const opcode = (word >>> 24) & 0x3F;
            if (opcode <= 1) this.drop();
            if (opcode === 0x05) this.flips.push(step);
            if (opcode === 0x3F) this.marks.push(step);
            return;
        }
        const group = kind === STEP.STAT ? KIND.STATUS : KIND.READS, last = rows.length - 1;
        if (last >= 0 && rows.kind[last] === group && rows.done[last] === step - 1) rows.done[last] = step;
        else rows.add(group, step, step, 0);
    }
}
