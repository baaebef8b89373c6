// What the words of a call completed, as the module's memory has it: 40 bytes for each item.

// Offsets in words: number of the event, index of the word (both with the low half first), head, class with the flag of
// an area, the area.
const WORDS = 10, [EVENT, WORD, HEAD, CLASS, AREA] = [0, 2, 4, 5, 6];
const HAS_AREA = 0x10000;

/**
 * A completed item: a packet, a vertex of a polyline after its second, or the end of a polyline. `event`: the number of
 * the event that completed it. `word`: the index of its last word among those of the call. `head`: its first word.
 * `classNumber`: bits 29-31 of the head, or 8 for the end of a polyline. `area`: first column and row and last column
 * and row of the cells that it may change.
 * @typedef {{ event: number, word: number, classNumber: number, head: number, area: Area | null }} Note
 * @typedef {[number, number, number, number]} Area
 */

/** The notes of one call. They are valid until the next call of any machine of the library. */
export class Notes {
    /** @param {Int32Array} words */
    constructor(words) {
        this.words = words;
        this.length = words.length / WORDS;
    }

    /** @param {number} k */
    event(k) {
        const at = WORDS * k + EVENT;
        return (this.words[at] >>> 0) + 2 ** 32 * this.words[at + 1];
    }

    /** @param {number} k */
    word(k) { return this.words[WORDS * k + WORD] >>> 0; }

    /** @param {number} k */
    head(k) { return this.words[WORDS * k + HEAD] >>> 0; }

    /** @param {number} k */
    classNumber(k) { return this.words[WORDS * k + CLASS] & 0xFFFF; }

    /** @param {number} k
     * @returns {Area | null} */
    area(k) {
        const { words } = this, at = WORDS * k + AREA;
        return words[WORDS * k + CLASS] & HAS_AREA ? [words[at], words[at + 1], words[at + 2], words[at + 3]] : null;
    }

    /** Returns a note that stays valid.
     * @param {number} k
     * @returns {Note} */
    note(k) {
        return { event: this.event(k), word: this.word(k), classNumber: this.classNumber(k), head: this.head(k),
            area: this.area(k) };
    }
}

export const NOTE_BYTES = 4 * WORDS;
