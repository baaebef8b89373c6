// Takes a capture apart as its bytes come. The content of its records goes to a sink, record by record.

import { KIND, isAllowed } from './allowed.js';
import { Refusal } from './refusal.js';

const HEADS = ['PSXGPUC1', 'PSXGPUC2', 'PSXGPUC3', 'PSXGPUS1'];
const LIMIT = 2 ** 30;
const RAM_BYTES = 0x200000;

/** The beginning of a file: which of the heads it has. */
export function headOf(bytes) {
    if (bytes.length < 8) throw new Refusal('truncated', 1, { byte: bytes.length });
    const text = String.fromCharCode(...bytes.subarray(0, 8));
    if (HEADS.includes(text)) return text;
    let byte = 0;
    while (HEADS.some(head => head.startsWith(text.slice(0, byte + 1)))) byte++;
    throw new Refusal('not-capture', 1, { byte });
}

export class RecordReader {
    // `place`: the offset of the next byte; `version`: 1 to 3.
    constructor(sink, version, place) {
        Object.assign(this, { sink, version, place, done: false });
        this.rest = new Uint8Array(0);
        this.kind = KIND.END;
        this.left = 0;
        this.operands = [];
        this.wanted = 0;
    }

    refuse(cause, more) { throw new Refusal(cause, this.sink.played + 1, more); }

    push(bytes) {
        const whole = (this.rest.length + bytes.length) & ~3;
        const both = new Uint8Array(this.rest.length + bytes.length);
        both.set(this.rest);
        both.set(bytes, this.rest.length);
        this.rest = both.slice(whole);
        this.take(new Uint32Array(both.buffer, 0, whole >> 2));
    }

    // No more bytes come.
    end() {
        if (this.done) return;
        if (this.place >= LIMIT) this.refuse('too-long', { byte: LIMIT });
        this.refuse('truncated', { byte: this.place + this.rest.length });
    }

    take(words) {
        for (let at = 0; at < words.length && !this.done;) {
            if (this.place >= LIMIT) this.refuse('too-long', { byte: LIMIT });
            const count = this.left > 0 ? this.takeRun(words, at) : this.takeOne(words[at]);
            at += count;
            this.place += 4 * count;
        }
    }

    // Words of a Gp0 or Ram record.
    takeRun(words, at) {
        const count = Math.min(this.left, words.length - at, (LIMIT - this.place) / 4);
        const part = words.subarray(at, at + count);
        if (this.kind === KIND.GP0) this.sink.gp0(part);
        else {
            this.sink.ram(this.address, part);
            this.address += 4 * count;
        }
        this.left -= count;
        return count;
    }

    takeOne(word) {
        if (this.wanted > 0) this.takeOperand(word); else this.takeTag(word);
        return 1;
    }

    takeTag(word) {
        const kind = word >>> 24, count = word & 0xFFFFFF;
        if (!isAllowed(kind, count, this.version)) this.refuse('bad-record', { byte: this.place, word });
        this.kind = kind;
        this.count = count;
        switch (kind) {
        case KIND.END: this.done = true; break;
        case KIND.GP0: this.left = count; break;
        case KIND.RAM: case KIND.GP1: this.wanted = 1; break;
        case KIND.DMA: case KIND.BEGIN: this.wanted = 3; break;
        case KIND.READ: this.sink.read(count); break;
        case KIND.STAT: this.sink.stat(); break;
        case KIND.TURN: this.sink.turn(count); break;
        case KIND.SKIP: this.sink.skip(count); break;
        }
    }

    takeOperand(word) {
        this.operands.push(word);
        if (--this.wanted > 0) return;
        const [first, bcr, chcr] = this.operands;
        this.operands = [];
        if (this.kind === KIND.GP1) this.sink.gp1(first);
        else if (this.kind === KIND.DMA) this.sink.dma(this.count, first, bcr, chcr);
        else if (this.kind === KIND.BEGIN) this.sink.begin(first, bcr, chcr);
        else {
            if (first % 4 !== 0 || first + 4 * this.count > RAM_BYTES) {
                this.refuse('bad-record', { byte: this.place, word: first });
            }
            this.address = first;
            this.left = this.count;
        }
    }
}
