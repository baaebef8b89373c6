// The cell that is pointed at, the cell that is chosen, and what changed it.

import { addressOf, longestAddress, rowAddress } from '../playing/address.js';
import { Machine } from '../playing/machine.js';
import { History } from '../playing/history.js';
import { List } from './list.js';
import { breath } from '../playing/yield_to_page.js';
import { element, grouped, made, swatch, tableOf } from './dom.js';
import { channelsOf } from '../reading/fields.js';
import { lastUpTo } from '../numbers.js';
import { cssOfCell, deepPixel } from '../views/pixels.js';
import { hex, nameOf } from '../reading/names.js';

// Milliseconds between two reports of what is found.
const TOLD = 250;

/** The item that a change is of: its name and its head. */
export function itemOf(recording, { step, row }) {
    const { rows, track } = recording;
    if (row < 0 || step > rows.done[row]) return { name: 'pixels', head: track.word(step) };
    return { name: nameOf(rows.kind[row], rows.head[row]), head: rows.head[row] };
}

/** The address of a change: that of the row that made it; of a load's data word its own place. */
export function changeAddress(recording, { step, row }) {
    return row >= 0 && recording.rows.done[row] === step ? rowAddress(recording, row) : addressOf(recording, step + 1);
}

const channelsText = cell => {
    const { r, g, b, mask } = channelsOf(cell);
    return `red ${r}, green ${g}, blue ${b}, bit 15: ${mask}`;
};

export const cellText = cell => `${hex(cell, 4)}  ${channelsText(cell)}`;

export class PixelPanel {
    constructor(app) {
        Object.assign(this, { app, history: null, machine: null });
        this.list = new List(element('history'), {
            count: () => this.history?.changes.length ?? 0,
            draw: (line, index) => this.drawChange(line, this.history.changes[index]),
            pick: index => app.seek(this.history.changes[index].step + 1, 'cell'),
            current: () => this.current(),
        });
        app.on('opened', () => {
            this.forget();
            element('history').style.setProperty('--number', `${longestAddress(app.recording)}ch`);
        });
        app.on('moved', () => { this.draw(); this.list.reveal(this.current()); });
        app.on('cell', () => { this.draw(); this.look(); });
        app.on('changed', () => this.look());
        app.on('ahead', () => { if (this.waits && app.pass.isDone()) this.look(); });
        app.on('rested', () => this.look());
        this.draw();
    }

    // The last change up to this place.
    current() { return this.history ? lastUpTo(this.history.changes.map(({ step }) => step), this.app.at - 1) : -1; }

    forget() {
        if (this.history) this.history.isStopped = true;
        this.history = null;
        this.waits = false;
        element('history').hidden = true;
        this.draw();
    }

    draw() {
        const { app } = this, panel = element('pixel');
        if (!app.cell || !app.cells) {
            panel.replaceChildren(made('p', 'quiet', 'Click a pixel: every packet that changed it is listed here.'));
            return;
        }
        const { x, y } = app.cell, cell = app.cells[y * 1024 + x];
        this.note = made('p', 'quiet', this.told ?? '');
        const value = ['value', swatch(cssOfCell(cell)), made('span', 'mono', ` ${hex(cell, 4)}`)];
        panel.replaceChildren(tableOf([...this.pixelRows(), ['cell', `(${x}, ${y})`], value,
            ['channels', channelsText(cell)]]), this.note);
    }

    // The pixel of the screen, if it was chosen in the picture, and its colour if it has 24 bits.
    pixelRows() {
        const { pixel, picture, registers } = this.app, at = pixel && deepPixel(picture, registers, pixel);
        if (!pixel) return [];
        return [['pixel', `(${pixel.x}, ${pixel.y})`], at && ['colour', swatch(`#${at.hex}`), ` ${at.text}`]];
    }

    say(text) {
        this.told = text;
        if (this.note) this.note.textContent = text;
    }

    // Looks for all that changed the cell. The notes of the whole recording are needed, so the pass goes first.
    async look() {
        this.forget();
        const { app } = this;
        if (!app.cell || !app.recording) return;
        if (!app.pass.isDone()) {
            this.waits = true;
            this.say('What changed it is listed when all is played.');
            app.readAhead(app.pass);
            return;
        }
        this.machine ??= new Machine(app.library);
        const history = this.history = new History(app.recording, this.machine, app.cell);
        element('history').hidden = false;
        let told = -TOLD;
        await history.run(app.at, part => {
            if (history !== this.history || performance.now() - told < TOLD) return;
            told = performance.now();
            this.found(part);
        }, breath);
        if (history === this.history) this.found(1);
    }

    found(part) {
        const count = this.history.changes.length;
        const so = part < 1 ? ` (${Math.round(100 * part)} % looked at)` : '';
        const times = `changed ${grouped(count)} ${count === 1 ? 'time' : 'times'}${so}`;
        this.say(count === 0 && part === 1 ? 'nothing changed it' : times);
        element('history').style.height = `${Math.min(Math.max(count, 1), 12) * 22 + 1}px`;
        element('history').hidden = count === 0;
        this.list.changed();
        this.list.reveal(this.current());
        if (part === 1) this.announce(count);
        this.isWhole = part === 1;
    }

    // For those who listen: the cell that was chosen, and what changed it last up to this place.
    announce(count) {
        const { app, history } = this, { x, y } = history.cell, last = history.changes[this.current()];
        const by = last ? `, last by event ${changeAddress(app.recording, last)}, ${itemOf(app.recording, last).name}` : '';
        const times = count === 0 ? 'nothing changed it' : `changed ${grouped(count)} ${count === 1 ? 'time' : 'times'}`;
        element('spoken').textContent = `cell (${x}, ${y}): ${times}${by}`;
    }

    drawChange(line, change) {
        const { recording, at } = this.app, { name } = itemOf(recording, change);
        if (change.step >= at) line.classList.add('later');
        line.title = 'go to what drew this';
        const number = made('span', 'number', changeAddress(recording, change));
        const valueOf = cell => [swatch(cssOfCell(cell)), made('span', '', hex(cell, 4))];
        line.replaceChildren(number, made('span', 'name', name), ...valueOf(change.before), made('span', 'quiet', '→'),
            ...valueOf(change.after));
    }
}
