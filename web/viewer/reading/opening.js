// Opens a file as a recording: unpacks it where it is compressed, and takes it apart as its bytes come.

import { DUMP_HEADER, captureOf, isDump } from './dump.js';
import { DumpFault } from './dump_records.js';
import { Flattener } from './flatten.js';
import { MainMemory } from './dma.js';
import { outlineOf } from './outline.js';
import { Machine } from '../playing/machine.js';
import { MOST_FIRST, packingOf, unpacking } from './packings.js';
import { playSteps, toStart } from '../playing/player.js';
import { Recording } from './recording.js';
import { RecordReader, headOf } from './reader.js';
import { Refusal } from './refusal.js';

// The most bytes of a snapshot's state, and of what is before its memories.
const STATE = 4194564, FRONT = 264;
const HEAD = 8;
// Milliseconds of work between two breaths of the page.
const BREATH = 50;
const [TRUNCATED, BAD_SNAPSHOT] = [3, 12];

export class Stopped extends Error {}

// The bytes of a file as a stream, unpacked; `taken` is told how many bytes of the file were taken.
async function streamOf(blob, taken) {
    const first = new Uint8Array(await blob.slice(0, MOST_FIRST).arrayBuffer());
    const packing = packingOf(first);
    let count = 0;
    const counted = blob.stream().pipeThrough(new TransformStream({
        transform(chunk, out) {
            count += chunk.length;
            taken(count);
            out.enqueue(chunk);
        },
    }));
    return { packing, stream: packing ? counted.pipeThrough(unpacking(packing)) : counted };
}

/**
 * The bytes of a file, piece by piece, as those of a capture or snapshot: unpacked, and translated if it is a GPU dump.
 * `about.isDump` says then whether it is one.
 */
export async function* bytesOf(blob, taken = () => {}, about = {}) {
    yield* captureBytes(unpackedOf(blob, taken), about);
}

/** The same of a file that is not packed, whose bytes are `pieces`. */
export async function* captureBytes(pieces, about) {
    try {
        const first = await gather(pieces, new Uint8Array(0), DUMP_HEADER);
        about.isDump = isDump(first);
        if (about.isDump) yield* captureOf(first, pieces);
        else {
            yield first;
            yield* pieces;
        }
    } finally {
        pieces.return();
    }
}

// The unpacked bytes of a file, piece by piece.
async function* unpackedOf(blob, taken) {
    const { packing, stream } = await streamOf(blob, taken);
    const source = stream.getReader();
    try {
        for (;;) {
            const { done, value } = await source.read().catch(() => {
                throw new Error(packing ? `damaged: no whole ${packing.name} file` : 'it cannot be read');
            });
            if (done) return;
            yield value;
        }
    } finally {
        source.cancel().catch(() => {});
    }
}

// Joins pieces until there are `count` bytes, or no more.
async function gather(pieces, first, count) {
    const all = [first];
    let have = first.length;
    while (have < count) {
        const { done, value } = await pieces.next();
        if (done) break;
        all.push(value);
        have += value.length;
    }
    const out = new Uint8Array(have);
    let at = 0;
    for (const piece of all) {
        out.set(piece, at);
        at += piece.length;
    }
    return out;
}

// The state that a snapshot begins with; refused where the machine refuses it.
function stateOf(bytes, library) {
    const machine = new Machine(library);
    try {
        machine.load(bytes.subarray(0, STATE));
    } catch (refused) {
        if (refused.code === TRUNCATED) throw new Refusal('truncated', 1, { byte: refused.place });
        if (refused.code === BAD_SNAPSHOT) {
            throw new Refusal('bad-snapshot', 1, { byte: refused.place, word: refused.word });
        }
        throw refused;
    } finally {
        machine.close();
    }
    return outlineOf(bytes);
}

// Gives the words that reads return, by a machine that follows the recording where DMA asks for them. The machine lives
// from the first question until `close`.
class Answers {
    constructor(recording, library) { Object.assign(this, { recording, library, machine: null, at: 0 }); }

    values(count) {
        const { recording, library } = this;
        if (this.machine === null) {
            this.machine = new Machine(library);
            toStart(this.machine, recording);
        }
        playSteps(this.machine, recording.track, this.at, recording.length);
        this.at = recording.length + count;
        return Uint32Array.from({ length: count }, () => this.machine.read());
    }

    close() {
        this.machine?.close();
        this.machine = null;
    }
}

function begin(name, bytes, library) {
    const head = headOf(bytes), isSnapshot = head === 'PSXGPUS1';
    const outline = isSnapshot ? stateOf(bytes, library) : null;
    const recording = new Recording(name, head, isSnapshot ? bytes.slice(0, outline.size) : null, outline);
    const answers = new Answers(recording, library);
    const sink = new Flattener(recording.track, count => answers.values(count));
    if (isSnapshot) {
        sink.memory = new MainMemory(new Uint32Array(bytes.slice(outline.memoryAt, outline.size).buffer));
        sink.runs(outline.running);
    }
    const records = new RecordReader(sink, recording.version, isSnapshot ? outline.size : HEAD);
    return { recording, sink, answers, records };
}

/**
 * Opens a file. `progress(part)` is told from 0 to 1; `signal` stops it. A refusal has as `before` the recording up to
 * the fault, where there is one.
 */
export async function openFile(blob, name, library, { progress = () => {}, signal = null } = {}) {
    const about = {}, pieces = bytesOf(blob, count => progress(count / blob.size), about);
    const started = await startReading(name, pieces, library);
    const { recording, answers } = started;
    recording.isDump = about.isDump;
    try {
        await takeAll(started, pieces, signal);
    } catch (fault) {
        if (fault instanceof Refusal || fault instanceof DumpFault) fault.before = recording;
        throw fault;
    } finally {
        answers.close();
        pieces.return();
        settle(started);
    }
    return recording;
}

/** Gives a recording what was read of it: its rows, and what DMA did. */
export function settle({ recording, sink }) {
    recording.splitter.feed();
    Object.assign(recording, { needsMemory: sink.needsMemory, transfers: sink.transfers });
}

/**
 * Begins to read a recording: its first eight bytes, and the state of a snapshot. The records are for `records.push`, first
 * those in `rest`.
 */
export async function startReading(name, pieces, library) {
    let bytes = await gather(pieces, new Uint8Array(0), HEAD);
    if (headOf(bytes) === 'PSXGPUS1') {
        bytes = await gather(pieces, bytes, FRONT);
        bytes = await gather(pieces, bytes, Math.min(STATE, outlineOf(bytes).size));
    }
    const started = begin(name, bytes, library);
    return { ...started, rest: bytes.subarray(started.records.place) };
}

async function takeAll({ recording, records, rest }, pieces, signal) {
    records.push(rest);
    for (let breath = performance.now(); !records.done;) {
        const { done, value } = await pieces.next();
        if (done) break;
        if (signal?.aborted) throw new Stopped('stopped');
        records.push(value);
        recording.splitter.feed();
        if (performance.now() - breath < BREATH) continue;
        await new Promise(go => setTimeout(go));
        breath = performance.now();
    }
    records.end();
}
