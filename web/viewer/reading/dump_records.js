// The records of a capture, as they are made of the packets of a GPU dump. docs/DUMPS.md says what becomes of each.

/** The types of packets that are known. */
export const TYPE = { PORT0: 0, PORT1: 1, VSYNC: 2, DISCARD: 3, READBACK: 4, TRACE_BEGIN: 5, GPU_VERSION: 6 };

/** The greatest count of a packet, of a record, and of a frame's mark. */
export const MOST_WORDS = 0xFFFFFF;

const [GP0, GP1, READ] = [2, 3, 4];
const NEW_2MB = 2, MARK = 0x3F000000, MOST_READS = 262144;

/** A dump that ends inside a packet, or says what cannot be. */
export class DumpFault extends Error {
    /**
     * @param {number} place the byte of the dump
     * @param {string} reason
     */
    constructor(place, reason) { super(`byte ${place} of the dump: ${reason}`); }
}

/** Words that grow. */
export class Words {
    constructor() { Object.assign(this, { room: new Uint32Array(1 << 16), used: 0 }); }

    /**
     * Adds words.
     * @param {ArrayLike<number>} words
     */
    put(words) {
        if (this.used + words.length > this.room.length) {
            const room = new Uint32Array(2 * (this.used + words.length));
            room.set(this.room.subarray(0, this.used));
            this.room = room;
        }
        this.room.set(words, this.used);
        this.used += words.length;
    }

    /**
     * Returns the words so far, and begins anew.
     * @returns {Uint32Array}
     */
    take() {
        const out = this.room.slice(0, this.used);
        this.used = 0;
        return out;
    }
}

/** Takes packets; `take` returns the bytes of the capture. */
export class Records {
    constructor() {
        Object.assign(this, { out: new Words(), gathered: new Words(), version: 1, events: 0, frames: 0, begun: false });
    }

    /** Ends the record of words for GP0. */
    close() {
        const words = this.gathered.take();
        if (words.length === 0) return;
        this.out.put([(GP0 << 24) | words.length]);
        this.out.put(words);
        this.events += words.length;
    }

    gp0(words) {
        if (this.gathered.used + words.length > MOST_WORDS) this.close();
        this.gathered.put(words);
    }

    gp1(word) {
        this.out.put([(GP1 << 24) | 1, word]);
        this.events++;
    }

    reads(count) {
        for (let left = count; left > 0; left -= MOST_READS) this.out.put([(READ << 24) | Math.min(left, MOST_READS)]);
        this.events += count;
    }

    discard(words, place) {
        for (const count of words) {
            if (count > MOST_READS) throw new DumpFault(place, `a discard of ${count} words`);
            this.reads(count);
        }
    }

    gpuVersion(number, place) {
        if (number !== NEW_2MB || this.version === 3) return;
        if (this.events > 0) throw new DumpFault(place, `the GPU of 2 MB is named after ${this.events} events`);
        this.version = 3;
    }

    /**
     * Takes a packet, or a part of one.
     * @param {number} type the packet's type
     * @param {Uint32Array} words its words
     * @param {number} place the byte of the dump at which it begins
     */
    packet(type, words, place) {
        if (type !== TYPE.PORT0) this.close();
        switch (type) {
        case TYPE.PORT0: this.gp0(words); break;
        case TYPE.PORT1: for (const word of words) this.gp1(word); break;
        case TYPE.VSYNC: this.gp1(MARK | (++this.frames & MOST_WORDS)); break;
        case TYPE.DISCARD: this.discard(words, place); break;
        case TYPE.READBACK: this.reads(words.length); break;
        case TYPE.GPU_VERSION: this.gpuVersion(words[0], place); break;
        }
    }

    /** Adds the record that ends the capture. */
    end() {
        this.close();
        this.out.put([0]);
    }

    /**
     * Returns the bytes so far. The capture's header comes before the first of them.
     * @returns {Uint8Array}
     */
    take() {
        this.close();
        const words = this.out.take();
        const header = this.begun || words.length === 0 ? '' : `PSXGPUC${this.version}`;
        this.begun ||= words.length > 0;
        const bytes = new Uint8Array(header.length + 4 * words.length);
        bytes.set(Uint8Array.from(header, letter => letter.charCodeAt(0)));
        bytes.set(new Uint8Array(words.buffer), header.length);
        return bytes;
    }
}
