// Makes steps of a capture's records. What DMA moves is put where it reaches the port, word by word; main memory is
// followed for that alone. `valuesOf(count)` gives the words that the next reads give, which DMA puts into memory.

import { MainMemory, planOf, tableLength, isEnd, cut } from './dma.js';
import { Refusal } from './refusal.js';
import { STEP } from './track.js';

export class Flattener {
    constructor(track, valuesOf) {
        Object.assign(this, { track, valuesOf, played: track.before, memory: new MainMemory(), running: null });
        this.needsMemory = false;
        this.transfers = { steps: [], runs: [] };
    }

    gp0(words) {
        this.track.addWords(words, this.played + 1, true);
        this.played += words.length;
    }

    gp1(word) { this.track.add(STEP.GP1, word, ++this.played); }

    read(count) { this.reads(STEP.READ, count); }

    skip(count) { this.reads(STEP.SKIP, count); }

    stat() { this.track.add(STEP.STAT, 0, ++this.played); }

    reads(kind, count) {
        for (let k = 0; k < count; k++) this.track.add(kind, 0, ++this.played);
    }

    ram(address, words) {
        this.apart();
        this.memory.put(address, words);
        this.played += words.length;
    }

    // Events of main memory and DMA are not steps.
    apart() {
        this.needsMemory = true;
        this.track.numberApart();
    }

    dma(channel, madr, bcr, chcr) {
        this.apart();
        const event = this.played + 1;
        if (channel === 6) {
            if (chcr & 0x1000000) this.memory.clearTable(madr, tableLength(bcr));
        } else {
            this.start(planOf(madr, bcr, chcr, event), event);
        }
        this.played = event;
    }

    // A start of channel 2 that moves all at once, and leaves nothing running.
    start(plan, event) {
        if (plan === null) return;
        if (plan.list) {
            const { nodes, again } = this.memory.list(plan.at);
            if (again !== undefined) throw new Refusal('list-loop', event, { node: again });
            for (const node of nodes) this.track.addWords(this.memory.node(node).words, event, false);
        } else {
            this.move(plan, plan.left, event);
        }
        this.runs(null);
    }

    // From here on this transfer runs, or none.
    runs(transfer) {
        if (transfer === null && this.running === null) return;
        this.running = transfer;
        this.transfers.steps.push(this.track.length);
        this.transfers.runs.push(transfer);
    }

    begin(madr, bcr, chcr) {
        this.apart();
        const plan = planOf(madr, bcr, chcr, this.played + 1);
        if (plan !== null) this.runs(!plan.list ? plan : isEnd(madr) ? null : { list: true, at: cut(madr) });
        this.played++;
    }

    turn(count) {
        this.apart();
        for (let k = 0; k < count; k++) {
            if (this.running !== null) this.turnOnce(this.running, this.played + 1);
            this.played++;
        }
    }

    turnOnce(run, event) {
        if (run.list) {
            const { words, next } = this.memory.node(run.at);
            this.track.addWords(words, event, false);
            this.runs(isEnd(next) ? null : { list: true, at: cut(next) });
            return;
        }
        const count = Math.min(run.block, run.left);
        this.move(run, count, event);
        const way = run.back ? -4 : 4;
        this.runs(run.left === count ? null : { ...run, at: cut(run.at + way * count), left: run.left - count });
    }

    // Moves `count` words of a block between memory and the port.
    move(plan, count, event) {
        if (!plan.toMemory) {
            this.track.addWords(this.memory.block(plan.at, count, plan.back), event, false);
            return;
        }
        this.memory.putBlock(plan.at, this.valuesOf(count), plan.back);
        for (let k = 0; k < count; k++) this.track.add(STEP.SKIP, 0, event);
    }
}
