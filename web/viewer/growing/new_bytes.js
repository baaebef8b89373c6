// The bytes of a file that grows, piece by piece.

/** The file is another one now, or shorter. */
export class Replaced extends Error {}

// How many of the last bytes are read again, to see that the file is the same.
const TAIL = 4096;

/** An iterator that waits for bytes, and never ends. */
export class NewBytes {
    /** @param {Served | Watched | Chosen} source */
    constructor(source) {
        Object.assign(this, { source, at: 0, tail: new Uint8Array(0), file: new Blob([]), parts: [] });
        source.seen = '';       // the first look is at the whole file, though nothing may be new
    }

    [Symbol.asyncIterator]() { return this; }

    /**
     * Waits for the next bytes.
     * @returns {Promise<{done: boolean, value: Uint8Array}>}
     * @throws {Replaced} if the last bytes are others now
     * @throws {SourceEnded}
     */
    async next() {
        for (;;) {
            const { tail } = this, bytes = await this.source.look(this.at - tail.length);
            if (bytes.length < tail.length || tail.some((byte, k) => byte !== bytes[k])) throw new Replaced();
            const value = bytes.subarray(tail.length);
            if (value.length === 0) continue;
            this.at += value.length;
            this.tail = bytes.slice(-TAIL);
            this.parts.push(value);
            return { done: false, value };
        }
    }

    /** Who reads the bytes has enough of them for now. */
    return() { return { done: true }; }

    /** All bytes so far. */
    get whole() {
        if (this.parts.length) this.file = new Blob([this.file, ...this.parts.splice(0)]);
        return this.file;
    }
}
