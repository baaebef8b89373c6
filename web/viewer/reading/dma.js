// Main memory, and what the two DMA channels move between it and the data port. docs/MACHINE.md has the rules.

import { Refusal } from './refusal.js';

const WORDS = 524288;
const place = address => (address >>> 2) & (WORDS - 1);
const cut = address => place(address) * 4;
const countOf = field => field === 0 ? 0x10000 : field;
const isEnd = address => (address & 0x800000) !== 0;

export class MainMemory {
    constructor(words = new Uint32Array(WORDS)) { this.words = words; }

    put(address, words) { this.words.set(words, place(address)); }

    // Channel 6: an ordering table of `count` entries, the first at address `first` and each later one below.
    clearTable(first, count) {
        let at = place(first);
        for (let k = 0; k < count; k++) {
            const below = (at - 1) & (WORDS - 1);
            this.words[at] = k === count - 1 ? 0xFFFFFF : below * 4;
            at = below;
        }
    }

    // The words from an address on, or downward.
    block(address, count, back) {
        const out = new Uint32Array(count), step = back ? -1 : 1;
        for (let k = 0, at = place(address); k < count; k++, at = (at + step) & (WORDS - 1)) out[k] = this.words[at];
        return out;
    }

    putBlock(address, words, back) {
        const step = back ? -1 : 1;
        let at = place(address);
        for (const word of words) {
            this.words[at] = word;
            at = (at + step) & (WORDS - 1);
        }
    }

    // The words of one node of a list, and the address of the next.
    node(address) {
        const header = this.words[place(address)];
        return { words: this.block(address + 4, header >>> 24, false), next: header & 0xFFFFFF };
    }

    // The nodes of a list, or the first address that comes again.
    list(start) {
        const seen = new Uint8Array(WORDS), nodes = [];
        for (let at = start; !isEnd(at);) {
            const here = cut(at);
            if (seen[place(here)]) return { again: here };
            seen[place(here)] = 1;
            nodes.push(here);
            at = this.words[place(here)] & 0xFFFFFF;
        }
        return { nodes };
    }
}

/** Returns what a start of channel 2 moves: null, a list, or a number of words. `event`: its number, for a refusal. */
export function planOf(madr, bcr, chcr, event) {
    if ((chcr & 0x1000000) === 0) return null;
    const mode = (chcr >>> 9) & 3, toMemory = (chcr & 1) === 0, back = (chcr & 2) !== 0;
    if (mode === 3 || (mode === 2 && toMemory)) throw new Refusal('bad-dma', event);
    if (mode === 2) return { list: true, at: madr };
    const block = countOf(bcr & 0xFFFF), count = mode === 0 ? block : block * countOf(bcr >>> 16);
    if (count > WORDS) throw new Refusal('dma-too-long', event, { words: count });
    return { list: false, at: cut(madr), left: count, block: mode === 0 ? count : block, back, toMemory };
}

export const tableLength = bcr => countOf(bcr & 0xFFFF);

export { isEnd, cut };
