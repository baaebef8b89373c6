// The steps of a recording: a word for GP0 or GP1, or a read of a port, whatever brought it there. A step has a kind, a
// word, and the number of the event that made it. They lie in pieces, so that nothing is moved as a recording grows.

/** OMITTED is a word for GP0 that a change leaves out: it is not played. */
export const STEP = { GP0: 0, GP1: 1, READ: 2, STAT: 3, SKIP: 4, OMITTED: 5 };

/** Returns whether a step of a kind is a word for GP0, played or left out. */
export const isWord = kind => kind === STEP.GP0 || kind === STEP.OMITTED;

export const PIECE = 1 << 20;
const MASK = PIECE - 1;
const MOST = 1 << 28;

export class Track {
    // `before`: how many events were played before the first step.
    constructor(before = 0) {
        this.before = before;
        this.length = 0;
        this.words = [];
        this.kinds = [];
        this.numbers = null;
    }

    // From here on steps and events are counted apart, as main memory and DMA ask for.
    numberApart() {
        if (this.numbers) return;
        this.numbers = [];
        this.apart = this.length;
        for (let k = 0; k < this.words.length; k++) this.numbers.push(new Float64Array(PIECE));
    }

    grow() {
        if (this.length >= MOST) throw new Error(`more than ${MOST} steps`);
        if ((this.length & MASK) !== 0) return;
        this.words.push(new Uint32Array(PIECE));
        this.kinds.push(new Uint8Array(PIECE));
        if (this.numbers) this.numbers.push(new Float64Array(PIECE));
    }

    add(kind, word, event) {
        this.grow();
        const piece = this.length >> 20, at = this.length & MASK;
        this.words[piece][at] = word;
        this.kinds[piece][at] = kind;
        if (this.numbers) this.numbers[piece][at] = event;
        this.length++;
    }

    // Words for GP0. The first is of the event with this number; each has its own, or all have the same.
    addWords(words, event, ownNumbers) {
        for (let from = 0; from < words.length;) {
            this.grow();
            const piece = this.length >> 20, at = this.length & MASK;
            const count = Math.min(words.length - from, PIECE - at);
            this.words[piece].set(words.subarray(from, from + count), at);
            if (this.numbers) {
                const numbers = this.numbers[piece];
                for (let k = 0; k < count; k++) numbers[at + k] = ownNumbers ? event + from + k : event;
            }
            this.length += count;
            from += count;
        }
    }

    kind(step) { return this.kinds[step >> 20][step & MASK]; }

    word(step) { return this.words[step >> 20][step & MASK]; }

    setWord(step, word) { this.words[step >> 20][step & MASK] = word; }

    setKind(step, kind) { this.kinds[step >> 20][step & MASK] = kind; }

    // The number of the event that made a step.
    event(step) {
        if (!this.numbers || step < this.apart) return this.before + step + 1;
        return this.numbers[step >> 20][step & MASK];
    }

    // How many steps there are up to an event, its own among them.
    stepsUpTo(event) {
        if (!this.numbers) return Math.max(0, Math.min(this.length, event - this.before));
        let low = 0, high = this.length;
        while (low < high) {
            const middle = (low + high) >> 1;
            if (this.event(middle) <= event) low = middle + 1; else high = middle;
        }
        return low;
    }

    // The words for GP0 from a step on, in a row, at most up to another and to the end of a piece; maybe none.
    run(from, to) {
        const piece = from >> 20, at = from & MASK;
        const end = Math.min(PIECE, at + to - from), kinds = this.kinds[piece];
        let k = at;
        while (k < end && kinds[k] === STEP.GP0) k++;
        return this.words[piece].subarray(at, k);
    }
}
