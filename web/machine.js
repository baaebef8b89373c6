// A machine: the calls of c/psxgpu.h that have one, over typed arrays.
//
// A method whose name ends in View returns a view of the module's memory. It is valid until the next call of any machine
// of the library. All other methods return copies.

import { bytesOf, wordsOf } from './bytes.js';
import { Handle } from './handle.js';
import { NOTE_BYTES, Notes } from './notes.js';
import { NO_PICTURE, Refused } from './refused.js';

/** @typedef {import('./bytes.js').Words} Words */
/** @typedef {import('./library.js').Library} Library */
/** @typedef {import('./notes.js').Note} Note */
/** A picture: four bytes a pixel, red, green, blue and 255, row by row.
 * @typedef {{ width: number, height: number, bytes: Uint8ClampedArray }} Frame */

const [REGISTER_WORDS, END_BYTES] = [13, 4];
// Bytes that always suffice: for video memory, for a snapshot without records, for the header of a PPM.
const [VRAM_BYTES, SAVE_BYTES, PPM_HEADER_BYTES] = [2097152, 4194564, 32];

export class Machine extends Handle {
    /** A machine in its first state. `tall`: 1024 rows of video memory.
     * @param {Library} library */
    constructor(library, { tall = false } = {}) {
        super(library);
        if (tall) this.setTall();
    }

    /** Returns to the first state. */
    clear() { this.do('clear'); }

    /** Extends video memory to 1024 rows. */
    setTall() { this.do('set_tall'); }

    /** Feeds words to GP0. Each is an event.
     * @param {Words} words */
    gp0(words) { this.inParts(words, (at, count) => this.do('gp0_words', at, BigInt(count))); }

    /** Feeds words to GP0, and returns a note for each item that they complete, except for the data words of a load.
     * @param {Words} words
     * @returns {Note[]} */
    gp0Notes(words) {
        /** @type {Note[]} */
        const all = [];
        this.inParts(words, (_, count, part, from) => {
            const notes = this.gp0NotesView(part);
            for (let k = 0; k < notes.length; k++) all.push({ ...notes.note(k), word: from + notes.word(k) });
        });
        return all;
    }

    /** The same, as a view. Memory for one note a word is reserved. The notes come first there: they begin at a multiple
     * of 8.
     * @param {Words} words */
    gp0NotesView(words) {
        const list = wordsOf(words), count = Math.max(1, list.length), { library } = this;
        const notes = library.reserve((NOTE_BYTES + 4) * count), at = notes + BigInt(NOTE_BYTES * count);
        library.words(at, list.length).set(list);
        this.do('gp0_notes', at, BigInt(list.length), notes, BigInt(count), library.small);
        const found = library.size(library.small);
        return new Notes(new Int32Array(library.exports.memory.buffer, Number(notes), found * NOTE_BYTES / 4));
    }

    /** Feeds a word to GP1.
     * @param {number} word */
    gp1(word) { this.do('gp1', word); }

    /** Returns the next word of the data port. */
    read() { return this.wordOf('read'); }

    /** Returns the status word. */
    status() { return this.wordOf('status'); }

    /** Reads the next word of the data port and drops it. */
    skip() { this.do('skip'); }

    /** Writes words to main memory.
     * @param {number} address in bytes, a multiple of 4
     * @param {Words} words */
    ram(address, words) {
        const list = wordsOf(words), at = this.library.reserve(4 * list.length);
        this.library.words(at, list.length).set(list);
        this.do('ram', address, at, BigInt(list.length));
    }

    /** Starts DMA channel 2 or 6 and transfers everything.
     * @param {number} channel
     * @param {number} madr
     * @param {number} bcr
     * @param {number} chcr */
    dma(channel, madr, bcr, chcr) { this.doEnded('dma', channel, madr, bcr, chcr); }

    /** Starts DMA channel 2. `turn` transfers.
     * @param {number} madr
     * @param {number} bcr
     * @param {number} chcr */
    begin(madr, bcr, chcr) { this.doEnded('begin', madr, bcr, chcr); }

    /** Transfers the next block, or the words of the next node. */
    turn() { this.do('turn'); }

    /** Returns video memory: cells row by row, the low byte of each first. */
    vram() { return this.bytesOf('vram', VRAM_BYTES).slice(); }

    /** Returns the cells of video memory row by row, as a view. */
    vramView() {
        const bytes = this.bytesOf('vram', VRAM_BYTES);
        return new Uint16Array(bytes.buffer, bytes.byteOffset, bytes.length >> 1);
    }

    /** Returns a cell of video memory.
     * @param {number} x
     * @param {number} y */
    cell(x, y) {
        this.do('cell', x, y, this.library.small);
        return this.library.data(this.library.small, 2).getUint16(0, true);
    }

    /** Returns width and height of the shown picture in pixels. Refused if there is none.
     * @returns {[number, number]} */
    shape() {
        const { small } = this.library;
        this.do('shape', small, small + 2n);
        const data = this.library.data(small, 4);
        return [data.getUint16(0, true), data.getUint16(2, true)];
    }

    /** Returns the shown picture as a PPM file. Refused if there is none. */
    picture() {
        const [width, height] = this.shape();
        return this.bytesOf('picture', 3 * width * height + PPM_HEADER_BYTES).slice();
    }

    /** Returns the pixels of the shown picture as the data of an ImageData. Refused if there is none. */
    pictureRgba() {
        const [width, height] = this.shape();
        return new Uint8ClampedArray(this.bytesOf('picture_rgba', 4 * width * height));
    }

    /** Returns the shown picture, or null if there is none.
     * @returns {Frame | null} */
    frame() {
        try {
            const [width, height] = this.shape();
            return { width, height, bytes: this.pictureRgba() };
        } catch (refused) {
            if (refused instanceof Refused && refused.code === NO_PICTURE) return null;
            throw refused;
        }
    }

    /** Returns the thirteen words that `psxgpu_registers` of c/psxgpu.h lists. */
    registers() {
        this.do('registers', this.library.small, BigInt(REGISTER_WORDS));
        return [...this.library.words(this.library.small, REGISTER_WORDS)];
    }

    /** Returns the machine's state as a snapshot without records. */
    save() { return this.bytesOf('save', SAVE_BYTES).slice(); }

    /** Returns the same without its End record, as a view. */
    stateView() { return this.bytesOf('save', SAVE_BYTES).subarray(0, -END_BYTES); }

    /** Takes the state of a snapshot, or the first state of a capture. If it is refused, the machine keeps its state.
     * @param {BufferSource} snapshot */
    load(snapshot) {
        const data = bytesOf(snapshot), at = this.library.reserve(data.length);
        this.library.bytes(at, data.length).set(data);
        this.doEnded('load', at, BigInt(data.length));
    }
}
