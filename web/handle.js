// A handle of c/psxgpu.h, and how calls are made with it.

import { wordsOf } from './bytes.js';
import { CLOSED } from './refused.js';

/** @typedef {import('./bytes.js').Words} Words */
/** @typedef {import('./library.js').Library} Library */

const [HANDLE_BYTES, PART_WORDS] = [16, 65536];

export class Handle {
    /** A handle with a machine in its first state.
     * @param {Library} library */
    constructor(library) {
        this.library = library;
        /** @type {bigint | null} */
        this.handle = library.take(HANDLE_BYTES);
        library.bytes(this.handle, HANDLE_BYTES).fill(0);
        try {
            this.do('new');
        } catch (refused) {
            this.close();
            throw refused;
        }
    }

    /** Makes a call with this machine. Throws Refused if its code is not 0.
     * @param {string} name
     * @param {...(number | bigint)} values */
    do(name, ...values) {
        const code = this.handle === null ? CLOSED : this.library.call(name, this.handle, ...values);
        if (code) throw this.library.refused(code);
    }

    /** The same for a call whose last argument is a psxgpu_ended.
     * @param {string} name
     * @param {...(number | bigint)} values */
    doEnded(name, ...values) {
        const { library } = this, end = library.small;
        const code = this.handle === null ? CLOSED : library.call(name, this.handle, ...values, end);
        if (code) throw library.refused(code, code === CLOSED ? undefined : end);
    }

    /** Frees the machine. Every later call but this one is refused. */
    close() {
        if (this.handle === null) return;
        this.library.call('free', this.handle);
        this.library.give(this.handle);
        this.handle = null;
    }

    /** Copies words part by part into the module's memory. `use` receives the address and the length of each part, the
     * part, and the index of its first word.
     * @param {Words} words
     * @param {(at: bigint, count: number, part: Uint32Array, from: number) => void} use */
    inParts(words, use) {
        const list = wordsOf(words);
        for (let from = 0; from === 0 || from < list.length; from += PART_WORDS) {
            const part = list.subarray(from, from + PART_WORDS), at = this.library.reserve(4 * part.length);
            this.library.words(at, part.length).set(part);
            use(at, part.length, part, from);
        }
    }

    /** Returns the word that a call writes.
     * @param {string} name */
    wordOf(name) {
        this.do(name, this.library.small);
        return this.library.words(this.library.small, 1)[0];
    }

    /** Returns a view of the bytes that a call writes. `most` bytes suffice for them.
     * @param {string} name
     * @param {number} most */
    bytesOf(name, most) {
        const { library } = this, at = library.reserve(most);
        this.do(name, at, BigInt(most), library.small);
        return library.bytes(at, library.size(library.small));
    }
}
