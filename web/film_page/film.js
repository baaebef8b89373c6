// The film of a recording: a picture at the end of each frame, packed, and video memory at the end.

/** The machine's script, which the page has before this one.
 * @type {typeof import('../psxgpu.js')} */
const machines = /** @type {any} */ (globalThis).psxgpu;

// TypeScript has no type for them before 5.1.
const { CompressionStream, DecompressionStream } = /** @type {any} */ (globalThis);

/** @typedef {import('../library.js').Library} Library */
/** A picture: four bytes a pixel, packed.
 * @typedef {{ width: number, height: number, packed: Blob }} Picture */
/** What ends a frame: a write of the display start, or a mark.
 * @typedef {'flips' | 'marks'} Ends */
/** A film. `ends`: what ended its frames. `fault`: why the rest was not played, or an empty text.
 * @typedef {{ pictures: Picture[], vram: Uint8Array, ends: Ends, fault: string }} Film */
/** Where a recording is cut into frames: the byte offset after each record that ends one.
 * @typedef {{ flips: Set<number>, marks: Set<number> }} Cuts */

// Milliseconds of work until the page is shown anew.
const PATIENCE = 50;

/** Returns bytes as they come out of a stream that packs or unpacks them.
 * @param {Blob} blob @param {any} transform */
const through = (blob, transform) => new Response(blob.stream().pipeThrough(transform));

/** Returns a picture, packed.
 * @param {{ width: number, height: number, bytes: Uint8ClampedArray }} frame
 * @returns {Promise<Picture>} */
async function packed({ width, height, bytes }) {
    return { width, height, packed: await through(new Blob([bytes]), new CompressionStream('deflate-raw')).blob() };
}

/** Returns the pixels of a picture.
 * @param {Picture} picture */
export async function imageOf({ width, height, packed }) {
    const bytes = await through(packed, new DecompressionStream('deflate-raw')).arrayBuffer();
    return new ImageData(new Uint8ClampedArray(bytes), width, height);
}

/** Returns where a recording is cut, up to where its bytes are no more records.
 * @param {Library} library @param {Uint8Array} bytes
 * @returns {Cuts} */
function cutsOf(library, bytes) {
    const { machine, at, version } = machines.begun(library, bytes), cuts = { flips: new Set(), marks: new Set() };
    machine.close();
    try {
        for (const record of machines.records(bytes, at, version)) {
            if (machines.isFlip(record)) cuts.flips.add(record.end);
            if (machines.isMark(record)) cuts.marks.add(record.end);
        }
    } catch (bad) {
        if (!(bad instanceof RangeError)) throw bad;
    }
    return cuts;
}

/** Returns whether a recording has a packet, up to where it is refused.
 * @param {Library} library @param {...Uint8Array} parts the bytes of a capture, or of a snapshot's state and its records */
async function hasPacket(library, ...parts) {
    const bytes = new Uint8Array(await new Blob(parts).arrayBuffer());
    try {
        return library.play('list', bytes).length > 0;
    } catch (/** @type {any} */ bad) {
        if (!(bad instanceof machines.Refused)) throw bad;
        return bad.output !== undefined && bad.output.length > 0;
    }
}

/** Plays a recording. Without `wanted`, frames end at flips, or at marks if there is no flip. What follows the last of
 * them is a frame too if it has a packet.
 * @param {Library} library @param {Uint8Array} bytes a capture or a snapshot
 * @param {Ends | ''} wanted @param {(pictures: number) => void} progress
 * @returns {Promise<Film>} */
export async function filmOf(library, bytes, wanted, progress) {
    const cuts = cutsOf(library, bytes), ends = wanted || (cuts.flips.size || !cuts.marks.size ? 'flips' : 'marks');
    const places = cuts[ends], last = [...places].pop() ?? 0;
    const film = { pictures: /** @type {Picture[]} */ ([]), vram: new Uint8Array(0), ends, fault: '' };
    let hasRest = last === 0 && await hasPacket(library, bytes), shown = performance.now();
    try {
        for (const { machine, record } of machines.played(library, bytes)) {
            const isEnd = record === null;
            if (isEnd) film.vram = machine.vram();
            if (isEnd ? hasRest : places.has(record.end)) {
                const frame = machine.frame();
                if (frame) film.pictures.push(await packed(frame));
            }
            if (!isEnd && record.end === last) hasRest = await hasPacket(library, machine.stateView(), bytes.subarray(last));
            if (performance.now() - shown < PATIENCE) continue;
            progress(film.pictures.length);
            await new Promise(resolve => setTimeout(resolve));
            shown = performance.now();
        }
    } catch (/** @type {any} */ bad) {
        film.fault = bad.message;
    }
    return film;
}
