// A snapshot at a place: the state after it, and the records of the events that follow, each of count 1. After an event
// it has the bytes that `psxgpu_tool cut` writes. Inside a DMA start, the rest of its words are records for GP0.

import { renumbered } from '../reading/outline.js';
import { RecordReader } from '../reading/reader.js';
import { STEP } from '../reading/track.js';
import { FileWords } from './file_words.js';
import { toStart } from './player.js';
import { bytesOf } from '../reading/opening.js';

const TAG = { RAM: 0x01000001, GP0: 0x02000001, GP1: 0x03000001, READ: 0x04000001, STAT: 0x05000001, TURN: 0x08000001,
    SKIP: 0x09000001 };

/** Takes records: plays the events up to a number on a machine, and writes the others. */
export class Cutter {
    // `machine` is null where the state after the last event is known, so that nothing has to be played. `inside` has the
    // words of the next event that are before the place, and those after it; null where the event is whole.
    constructor(machine, event, played, inside = null) {
        Object.assign(this, { machine, event, played, inside, words: new FileWords() });
    }

    get isInside() { return this.inside !== null && this.played === this.event; }

    // Takes `count` events: calls `play` with the number of those that are played, and `write` for each of the others.
    each(count, play, write) {
        const plays = Math.max(0, Math.min(count, this.event - this.played));
        if (plays > 0 && this.machine) play(plays);
        for (let k = plays; k < count; k++) write(k);
        this.played += count;
    }

    times(count, call, tag) {
        this.each(count, plays => { for (let k = 0; k < plays; k++) this.machine[call](); }, () => this.words.put(tag));
    }

    gp0(words) {
        this.each(words.length, plays => this.machine.gp0(words.subarray(0, plays)),
            k => this.words.put(TAG.GP0, words[k]));
    }

    ram(address, words) {
        this.each(words.length, plays => this.machine.ram(address, words.subarray(0, plays)),
            k => this.words.put(TAG.RAM, address + 4 * k, words[k]));
    }

    gp1(word) { this.each(1, () => this.machine.gp1(word), () => this.words.put(TAG.GP1, word)); }

    read(count) { this.times(count, 'read', TAG.READ); }

    skip(count) { this.times(count, 'skip', TAG.SKIP); }

    turn(count) {
        if (this.inside && this.event - this.played < count) {
            throw new Error(`event ${this.event + 1} is a turn of DMA: go to its end, or to event ${this.event}`);
        }
        this.times(count, 'turn', TAG.TURN);
    }

    stat() { this.times(1, 'status', TAG.STAT); }

    dma(channel, ...values) {
        if (this.isInside) return this.dmaInside();
        this.each(1, () => this.machine.dma(channel, ...values), () => this.words.put(0x06000000 | channel, ...values));
    }

    dmaInside() {
        const { done, rest } = this.inside;
        this.machine.gp0(done);
        for (const word of rest) this.words.put(TAG.GP0, word);
        this.inside = null;
        this.played++;
    }

    begin(...values) { this.each(1, () => this.machine.begin(...values), () => this.words.put(0x07000002, ...values)); }
}

// The words of an event before a place inside of it, and those after it; null after the whole event.
function insideOf({ track }, steps) {
    const event = steps === 0 ? track.before : track.event(steps - 1), end = track.stepsUpTo(event);
    if (steps === end) return null;
    const words = (from, to) => Uint32Array.from({ length: to - from }, (_, k) => {
        if (track.kind(from + k) === STEP.GP0) return track.word(from + k);
        throw new Error(`event ${event} reads from the port: go to its end, or to event ${event - 1}`);
    });
    return { done: words(track.stepsUpTo(event - 1), steps), rest: words(steps, end) };
}

/**
 * Returns the file that is cut at a place, as parts for a Blob.
 * @param {Recording} recording
 * @param {number} steps the place
 * @param {{player: Player, machine: Machine}} with the player is at the place; the machine is for what DMA needs
 * @returns {Promise<BlobPart[]>}
 */
export async function cutAt(recording, steps, { player, machine }) {
    const knows = !recording.needsMemory, inside = insideOf(recording, steps);
    const event = recording.eventAt(steps) - (inside ? 1 : 0), start = recording.outline?.size ?? 8;
    if (!knows) toStart(machine, recording);
    const cutter = new Cutter(knows ? null : machine, event, recording.track.before, inside);
    const records = new RecordReader(cutter, recording.version, start);
    const state = knows ? renumbered(player.machine.stateView(), event) : null;
    await takeAll(recording, records, start);
    if (!recording.isPart) cutter.words.put(0);
    cutter.words.close();
    return [state ?? machine.stateView().slice(), ...cutter.words.parts];
}

/** Gives the records of the recording's file to a reader. `start`: the offset of the first. */
export async function takeAll(recording, records, start) {
    let skipped = start;
    try {
        for await (const piece of bytesOf(recording.source)) {
            const rest = piece.subarray(Math.min(skipped, piece.length));
            skipped -= piece.length - rest.length;
            if (!records.done) records.push(rest);
        }
    } catch (fault) {
        if (!recording.isPart) throw fault;
    }
}
