// The error of a call, and the codes of c/psxgpu.h that the binding looks at.

const [NO_PICTURE, NO_MEMORY, CLOSED] = [10, 13, 14];

/**
 * How a call ended: the number of the event, a byte offset or a count of words, a word or an address, and the number of
 * bytes of output. A field that the code does not name is 0.
 * @typedef {{ event: number, place: number, word: number, written: number }} Ended
 */

/** A call that the library refused. The machine is as it was before the call. */
export class Refused extends Error {
    /**
     * @param {number} code a code of c/psxgpu.h
     * @param {string} text the library's text of the code, or its line
     * @param {Ended} ended
     */
    constructor(code, text, ended = { event: 0, place: 0, word: 0, written: 0 }) {
        super('psxgpu: ' + text);
        this.name = 'Refused';
        this.code = code;
        this.event = ended.event;
        this.place = ended.place;
        this.word = ended.word;
        /** The bytes of output before the refusal, of `play`, `playTo` and `playSize`. */
        this.written = ended.written;
        /** These bytes, of `play` alone. */
        this.output = new Uint8Array();
    }
}

export { CLOSED, NO_MEMORY, NO_PICTURE };
