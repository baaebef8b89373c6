// The calls of c/psxgpu.h in a loaded module, and the module's memory.

import { bytesOf } from './bytes.js';
import { Machine } from './machine.js';
import { NO_MEMORY, Refused } from './refused.js';

/**
 * The exports of the module. An address or a size is a BigInt; a code, a word or a channel is a number.
 * @typedef {{ memory: WebAssembly.Memory, [name: string]: any }} Exports
 */

/** The modes of `Library.play`, each named after the command of psxgpu_tool. */
export const MODES = ['play', 'vram', 'shot', 'list', 'report', 'frames', 'frames marks', 'sums', 'sums marks', 'pixel'];

const [ENDED_BYTES, LINE_BYTES, OUTPUT_BYTES] = [32, 96, 16];
const [FIRST_BUFFER, PIECE_BYTES] = [65536, 65536];

/** A loaded module. A view of its memory is valid until the next call of any machine of this library. */
export class Library {
    /** @param {WebAssembly.Instance} instance */
    constructor(instance) {
        this.exports = /** @type {Exports} */ (instance.exports);
        /** The address of a block for the small results of a call, and after them for a line. */
        this.small = this.take(ENDED_BYTES + LINE_BYTES);
        this.bufferBytes = FIRST_BUFFER;
        this.buffer = this.take(this.bufferBytes);
    }

    /**
     * Calls `psxgpu_NAME` and returns its code.
     * @param {string} name
     * @param {...(number | bigint)} values
     * @returns {number}
     */
    call(name, ...values) { return this.exports['psxgpu_' + name](...values); }

    /** Returns a view of `count` bytes of the module's memory.
     * @param {bigint} at
     * @param {number} count */
    bytes(at, count) { return new Uint8Array(this.exports.memory.buffer, Number(at), count); }

    /** Returns a view of `count` words of 32 bits.
     * @param {bigint} at
     * @param {number} count */
    words(at, count) { return new Uint32Array(this.exports.memory.buffer, Number(at), count); }

    /** Returns a DataView of `count` bytes.
     * @param {bigint} at
     * @param {number} count */
    data(at, count) { return new DataView(this.exports.memory.buffer, Number(at), count); }

    /** Returns the size at an address.
     * @param {bigint} at */
    size(at) { return Number(this.data(at, 8).getBigUint64(0, true)); }

    /** Allocates a block of the module's memory and returns its address. `give` frees it.
     * @param {number} size in bytes
     * @returns {bigint} */
    take(size) {
        const at = this.exports.malloc(BigInt(size));
        if (at === 0n) throw this.refused(NO_MEMORY);
        return at;
    }

    /** @param {bigint} at an address that `take` returned */
    give(at) { this.exports.free(at); }

    /** Returns the address of a buffer of at least `size` bytes. All calls of all machines share this buffer.
     * @param {number} size */
    reserve(size) {
        if (size > this.bufferBytes) {
            const bytes = 2 ** Math.ceil(Math.log2(size)), buffer = this.take(bytes);
            this.give(this.buffer);
            this.buffer = buffer;
            this.bufferBytes = bytes;
        }
        return this.buffer;
    }

    /** Returns the psxgpu_ended at an address, and the number of bytes that the call wrote.
     * @param {bigint} at */
    ended(at) {
        const data = this.data(at, ENDED_BYTES);
        return { event: Number(data.getBigUint64(8, true)), place: Number(data.getBigUint64(16, true)),
            word: data.getUint32(24, true), written: Number(data.getBigUint64(0, true)) };
    }

    /** Returns the text at an address. A byte of 0 ends it.
     * @param {bigint} at */
    text(at) {
        const bytes = new Uint8Array(this.exports.memory.buffer, Number(at));
        return String.fromCharCode(...bytes.subarray(0, bytes.indexOf(0)));
    }

    /**
     * Returns the error of a code, with the library's text of it.
     * @param {number} code
     * @param {bigint} [end] the address of the psxgpu_ended that the call filled, if it has one
     */
    refused(code, end) {
        if (end === undefined) return new Refused(code, this.text(this.exports.psxgpu_text(code)));
        const line = this.small + BigInt(ENDED_BYTES);
        this.exports.psxgpu_line(end, line, BigInt(LINE_BYTES));
        return new Refused(code, this.text(line), this.ended(end));
    }

    /**
     * Returns what `psxgpu_tool MODE` writes of a capture or a snapshot. Throws Refused with the `output` before the refusal.
     * @param {string} mode one of MODES
     * @param {BufferSource} capture
     * @param {[number, number]} cell column and row, for the mode 'pixel'
     */
    play(mode, capture, cell = [0, 0]) {
        return this.played(mode, capture, cell, (pieces, written, refusal) => {
            const output = new Uint8Array(written);
            let offset = 0;
            for (const piece of pieces) {
                output.set(piece, offset);
                offset += piece.length;
            }
            if (refusal === null) return output;
            refusal.output = output;
            throw refusal;
        });
    }

    /**
     * Passes what `play` returns to a function, in order, in pieces of at most 64 KiB. Returns the number of bytes. Throws
     * what `sink` throws, which is not called again; or Refused, after the bytes before the refusal were passed.
     * @param {string} mode one of MODES
     * @param {BufferSource} capture
     * @param {(piece: Uint8Array) => void} sink each piece is its own
     * @param {[number, number]} cell column and row, for the mode 'pixel'
     */
    playTo(mode, capture, sink, cell = [0, 0]) {
        return this.played(mode, capture, cell, (pieces, written, refusal) => {
            for (const piece of pieces) sink(piece);
            if (refusal !== null) throw refusal;
            return written;
        });
    }

    /**
     * Returns the number of bytes that `play` returns, and keeps none of them. Throws Refused with the number of bytes
     * before the refusal as `written`.
     * @param {string} mode one of MODES
     * @param {BufferSource} capture
     * @param {[number, number]} cell column and row, for the mode 'pixel'
     */
    playSize(mode, capture, cell = [0, 0]) {
        const refusal = this.playedBy('play_size', mode, capture, cell);
        if (refusal !== null) throw refusal;
        return this.ended(this.small).written;
    }

    /**
     * Plays once, by a handle of its own for the output, which is freed after `use`. Returns what `use` returns of the pieces
     * of the output, the number of its bytes, and why the capture is refused, or null.
     * @template Result
     * @param {string} mode
     * @param {BufferSource} capture
     * @param {[number, number]} cell
     * @param {(pieces: Iterable<Uint8Array>, written: number, refusal: Refused | null) => Result} use
     * @returns {Result}
     */
    played(mode, capture, cell, use) {
        const held = this.take(OUTPUT_BYTES);
        this.bytes(held, OUTPUT_BYTES).fill(0);
        try {
            const refusal = this.playedBy('play_output', mode, capture, cell, held);
            return use(this.pieces(held), this.ended(this.small).written, refusal);
        } finally {
            this.call('output_free', held);
            this.give(held);
        }
    }

    /** Makes a call that plays, with a psxgpu_ended in `small`. Returns why it is refused, or null.
     * @param {string} name
     * @param {string} mode
     * @param {BufferSource} capture
     * @param {[number, number]} cell
     * @param {...bigint} rest arguments after the capture
     * @returns {Refused | null} */
    playedBy(name, mode, capture, [x, y], ...rest) {
        const number = MODES.indexOf(mode), data = bytesOf(capture);
        if (number < 0) throw new RangeError(`mode ${mode} is none of ${MODES}`);
        const from = this.take(Math.max(1, data.length));
        try {
            this.bytes(from, data.length).set(data);
            const code = this.call(name, number, x | y << 16, from, BigInt(data.length), ...rest, this.small);
            return code ? this.refused(code, this.small) : null;
        } finally {
            this.give(from);
        }
    }

    /** Yields copies of the bytes of an output.
     * @param {bigint} held the address of a psxgpu_output
     * @returns {Generator<Uint8Array>} */
    *pieces(held) {
        for (let offset = 0; ;) {
            const at = this.reserve(PIECE_BYTES);
            const count = Number(this.exports.psxgpu_output_copy(held, BigInt(offset), at, BigInt(PIECE_BYTES)));
            if (count === 0) return;
            yield this.bytes(at, count).slice();
            offset += count;
        }
    }

    /** Returns a machine in its first state. `tall`: 1024 rows of video memory. `close` frees it. */
    machine({ tall = false } = {}) { return new Machine(this, { tall }); }
}
