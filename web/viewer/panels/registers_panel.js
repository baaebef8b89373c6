// The registers at this place, the status word, and what is pending: an unfinished packet, an open load or store.

import { element, made, tableOf } from './dom.js';
import { lastUpTo } from '../numbers.js';
import { hex } from '../reading/names.js';
import { outlineOf } from '../reading/outline.js';
import { controlText, modeText, settingText } from '../reading/words.js';

// What is pending is taken from a state, which takes some milliseconds: it waits until the place is the same for a while.
const STILL = 80;

const DIRECTIONS = ['off', 'FIFO', 'processor to GP0', 'data port to processor'];

function transferText({ x, y, w, h, next }) {
    return `at (${x}, ${y}), ${w} × ${h}: ${next} of ${w * h} cells are done`;
}

/** What a state's outline says is pending. */
export function pendingText({ pending, store }) {
    const out = [];
    if (pending.kind === 'packet') out.push(`a packet, so far ${pending.words.map(word => hex(word)).join(' ')}`);
    if (pending.kind === 'load') out.push(`a load ${transferText(pending)}`);
    if (pending.kind === 'polyline') out.push(`a polyline ${hex(pending.command)}`);
    if (store) out.push(`a store ${transferText(store)}`);
    return out.length ? out.join('; ') : 'nothing';
}

export class RegistersPanel {
    constructor(app) {
        this.app = app;
        app.on('opened moved', () => this.draw());
        element('registers-box').addEventListener('toggle', () => this.draw());
    }

    draw() {
        if (!element('registers-box').open || !this.app.recording) return;
        const { registers, recording } = this.app, { height } = recording;
        const settings = [0, 1, 2, 3, 4, 5].map(k => [`E${k + 1}h`, made('span', 'mono', hex(registers[k], 6)), ' ',
            settingText((0xE1 + k << 24 | registers[k]) >>> 0, height)]);
        const says = (opcode, value) => controlText(opcode << 24 | value, height);
        this.pending = made('span', '', '…');
        this.status = made('span', 'mono', '');
        element('registers').replaceChildren(tableOf([
            ...settings,
            ['display', registers[6] & 2 ? 'off' : 'on', ', starts at ', says(0x05, registers[8])],
            ['ranges', `${says(0x06, registers[9])}; ${says(0x07, registers[10])}`],
            ['mode', modeText(registers[11])],
            ['interrupt', String(registers[6] & 1)],
            ['DMA direction', `${registers[7]}, ${DIRECTIONS[registers[7]]}`],
            ['latch', made('span', 'mono', hex(registers[12]))],
            ['status', this.status],
            ['pending', this.pending],
            ...this.transfer(),
        ]));
        clearTimeout(this.timer);
        this.timer = setTimeout(() => this.drawPending(), STILL);
    }

    // The transfer of DMA that runs in turns at this place.
    transfer() {
        const { recording, at } = this.app, { steps, runs } = recording.transfers, run = runs[lastUpTo(steps, at)];
        if (steps.length === 0) return [];
        if (!run) return [['transfer', 'none runs']];
        const from = hex(run.at, 6);
        return [['transfer', run.list ? `a list, next node ${from}` : `${run.left} words from ${from}`]];
    }

    drawPending() {
        const { machine } = this.app;
        this.pending.textContent = pendingText(outlineOf(machine.stateView()));
        this.status.textContent = hex(machine.status());
    }
}
