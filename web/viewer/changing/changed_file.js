// The file of a changed recording. Its records are those of the source, with the words as they are now. A list or block of
// DMA with a changed packet becomes words for GP0; what DMA moves after it stays DMA.

import { packetAt } from './extent.js';
import { lastUpTo } from '../numbers.js';
import { cutAt, takeAll } from '../playing/cut.js';
import { FileWords } from '../playing/file_words.js';
import { openFile } from '../reading/opening.js';
import { RecordReader } from '../reading/reader.js';
import { STEP } from '../reading/track.js';

const TAG = { RAM: 0x01000000, GP0: 0x02000000, GP1: 0x03000001, READ: 0x04000000, STAT: 0x05000001, DMA: 0x06000000,
    BEGIN: 0x07000002, TURN: 0x08000000, SKIP: 0x09000000 };

// A start of DMA with an empty list: it moves nothing and ends the running transfer.
const END_TRANSFER = [TAG.DMA | 2, 0xFFFFFF, 0, 0x01000401];

// The record that begins the rest of a transfer from main memory.
function beginRecord(run) {
    if (run.list) return [TAG.BEGIN, run.at, 0, 0x01000401];
    const count = run.left / run.block & 0xFFFF;
    return [TAG.BEGIN, run.at, (count << 16 | run.block & 0xFFFF) >>> 0, run.back ? 0x01000203 : 0x01000201];
}

/** Takes the records of a recording's source, and writes those of the changed recording. */
class ChangedRecords {
    /**
     * @param {Recording} recording
     * @param {Set<number>} events those with a changed word
     */
    constructor(recording, events) {
        Object.assign(this, { recording, events, step: 0, played: recording.track.before, transfers: 0 });
        this.words = new FileWords();
        // A recording that was opened up to a fault has nothing after its last event.
        this.last = recording.isPart ? recording.eventAt(recording.length) : Infinity;
    }

    gp0(words) { this.putSteps(words.length, words.length); }

    ram(address, words) {
        if (this.played >= this.last) return;
        this.put(0, words.length, TAG.RAM | words.length, address);
        this.words.putAll(words);
    }

    gp1(word) { this.put(1, 1, TAG.GP1, word); }

    read(count) { this.put(count, count, TAG.READ | count); }

    skip(count) { this.put(count, count, TAG.SKIP | count); }

    stat() { this.put(1, 1, TAG.STAT); }

    begin(...values) { this.put(0, 1, TAG.BEGIN, ...values); }

    dma(channel, ...values) {
        const { running } = this, count = this.stepsOfNext();
        if (!this.events.has(this.played + 1)) return this.put(count, 1, TAG.DMA | channel, ...values);
        if (running) this.words.put(...END_TRANSFER);
        this.transfers++;
        return this.putSteps(count, 1);
    }

    turn(count) {
        for (let k = 0; k < count; k++) {
            const steps = this.stepsOfNext();
            if (this.events.has(this.played + 1)) this.putTurn(steps);
            else this.put(steps, 1, TAG.TURN | 1);
        }
    }

    // A changed turn as words for GP0. The rest of its transfer begins after it.
    putTurn(count) {
        const { steps, runs } = this.recording.transfers;
        this.transfers++;
        this.putSteps(count, 1);
        const rest = runs[steps.indexOf(this.step)];
        this.words.put(...(rest ? beginRecord(rest) : END_TRANSFER));
    }

    // The transfer that runs before the next event.
    get running() {
        const { steps, runs } = this.recording.transfers;
        return runs[lastUpTo(steps, this.step)] ?? null;
    }

    // How many steps the next event makes.
    stepsOfNext() { return this.recording.track.stepsUpTo(this.played + 1) - this.step; }

    // Writes a record of this many steps and events.
    put(steps, events, ...words) {
        if (this.played >= this.last) return;
        this.words.put(...words);
        this.step += steps;
        this.played += events;
    }

    // Writes the words for GP0 of the next steps as they are now.
    putSteps(count, events) {
        const { track } = this.recording, end = this.step + count;
        while (this.step < end) {
            const run = track.run(this.step, end);
            if (run.length > 0) {
                this.words.put(TAG.GP0 | run.length);
                this.words.putAll(run);
            }
            this.step += run.length || 1;
        }
        this.played += events;
    }
}

// The steps of all changed packets.
const changedSteps = recording => [...recording.edits.originals.keys()].flatMap(row => packetAt(recording, row).steps);

/**
 * Returns the file of a changed recording.
 * @param {Recording} recording
 * @returns {Promise<{parts: BlobPart[], transfers: number}>} its parts, and how many events of DMA are words for GP0 in it
 */
export async function changedFile(recording) {
    const { track, head, start, outline, version } = recording, begin = outline?.size ?? 8;
    const records = new ChangedRecords(recording, new Set(changedSteps(recording).map(step => track.event(step))));
    await takeAll(recording, new RecordReader(records, version, begin), begin);
    records.words.put(0);
    records.words.close();
    return { parts: [start ?? head, ...records.words.parts], transfers: records.transfers };
}

/**
 * Returns the changed file cut at a place, as parts for a Blob.
 * @param {Recording} recording
 * @param {number} steps the place
 * @param {{player: Player, machine: Machine}} machines as for `cutAt`
 * @param {object} library
 * @returns {Promise<BlobPart[]>}
 */
export async function cutChanged(recording, steps, machines, library) {
    const { track } = recording, source = new Blob((await changedFile(recording)).parts);
    const omitted = changedSteps(recording).filter(step => step < steps && track.kind(step) === STEP.OMITTED).length;
    const changed = Object.assign(await openFile(source, recording.name, library), { source });
    return cutAt(changed, steps - omitted, machines);
}
