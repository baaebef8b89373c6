// The panel of video memory over time: each load and copy with its uses, and the regions that nothing touches.

import { rowAddress } from '../playing/address.js';
import { ACROSS, freeBoxes } from './free_boxes.js';
import { Usage } from './usage.js';
import { button, counted, element, grouped, made } from '../panels/dom.js';
import { List } from '../panels/list.js';
import { nameOf } from '../reading/names.js';

const MOST_FREE = 6;
const boxText = ({ x, y, w, h }) => `${w} × ${h} at (${x}, ${y})`;
const isTexture = ({ kinds }) => [...kinds].some(kind => kind.endsWith('bits'));
const CHOICES = { all: () => true, unused: ({ uses }) => uses === 0, textures: isTexture,
    CLUTs: ({ kinds }) => kinds.has('CLUT') };

export class MemoryPanel {
    /**
     * @param {App} app
     * @param {Views} views
     */
    constructor(app, views) {
        Object.assign(this, { app, views, usage: null, uploads: [], chosen: -1 });
        this.list = new List(element('uploads'), {
            count: () => this.uploads.length, draw: (line, k) => this.drawUpload(line, this.uploads[k]),
            pick: index => this.pick(index), current: () => this.chosen,
        });
        element('uploads-of').addEventListener('change', () => this.draw());
        element('memory-box').addEventListener('toggle', () => this.look());
        app.on('opened changed rested', () => { this.forget(); this.look(); });
        app.on('ahead', () => { if (app.pass.isDone()) this.look(); });
    }

    forget() {
        this.usage?.stop();
        Object.assign(this, { usage: null, uploads: [], chosen: -1 });
        for (const id of ['upload-said', 'free-said']) element(id).replaceChildren();
        this.list.changed();
    }

    // Looks at the recording once the panel is open and all areas are known.
    look() {
        const { app } = this;
        if (!element('memory-box').open || !app.recording || this.usage) return;
        if (!app.pass.isDone() || app.recording.isGrowing) {
            element('uploads-said').textContent = 'Shown when all is played.';
            return;
        }
        const usage = this.usage = new Usage(app.recording, app.library);
        usage.run(() => { if (usage === this.usage) this.told(); });
    }

    told() {
        const { usage } = this;
        if (!usage.isDone) element('uploads-said').textContent = `looking: ${Math.round(100 * usage.part)} %`;
        else this.draw();
    }

    draw() {
        const { usage } = this;
        if (!usage?.isDone) return;
        this.uploads = usage.uploads.filter(CHOICES[element('uploads-of').value]);
        this.chosen = -1;
        const unused = usage.uploads.filter(CHOICES.unused).length;
        element('uploads-said').textContent = `loads and copies: ${grouped(usage.uploads.length)}, ${grouped(unused)} unused`;
        element('uploads').style.height = `${Math.min(Math.max(this.uploads.length, 1), 9) * 22 + 1}px`;
        element('upload-said').textContent = '';
        this.list.changed();
        this.drawFree();
    }

    // What it was used for, in a word.
    kindOf({ kinds, uses }) {
        const depths = [4, 8, 15].filter(depth => kinds.has(`${depth} bits`)).join(' and ');
        const others = [...kinds].filter(kind => !kind.endsWith('bits')).sort();
        return uses === 0 ? 'unused' : [...(depths ? [`${depths} bits`] : []), ...others].join(', ');
    }

    addressOf(row) { return rowAddress(this.app.recording, row); }

    drawUpload(line, upload) {
        line.title = this.textOf(upload);
        line.replaceChildren(made('span', 'number', this.addressOf(upload.row)), made('span', 'rest', boxText(upload.box)),
            made('span', upload.uses === 0 ? 'warning' : 'quiet', this.kindOf(upload)));
    }

    /** Returns an upload in words. */
    textOf(upload) {
        const { row, box, uses, first, last, overwritten, gone } = upload, { rows } = this.app.recording;
        const at = it => `event ${this.addressOf(it)}`, name = nameOf(rows.kind[row], rows.head[row]);
        const times = `${this.kindOf(upload)}, ${counted(uses, 'times')}, first at ${at(Math.max(0, first))}, last at `
            + at(Math.max(0, last));
        const used = uses === 0 ? 'Nothing uses it.' : `Use: ${times}.`;
        const over = overwritten < 0 ? 'It stays to the end.' : gone < 0 ? `A part is overwritten at ${at(overwritten)}.`
            : `Overwritten at ${at(gone)}${uses === 0 ? ', unused' : ''}.`;
        return `Event ${this.addressOf(row)}, ${name}: ${boxText(box)}. ${used} ${over}`;
    }

    // Goes to a load and shows where it is.
    pick(index) {
        const { app, uploads } = this, upload = uploads[index];
        this.chosen = index;
        const { row, first, last } = upload, to = at => button(this.addressOf(at), () => app.seekRow(at));
        const uses = first < 0 ? [] : [' first use ', to(first), ' last use ', to(last)];
        element('upload-said').replaceChildren(this.textOf(upload), ...uses);
        app.seekRow(row);
        this.show(upload.box);
    }

    show({ x, y, w, h }) {
        this.views.choose('memory');
        this.views.view.showBox({ x1: x, y1: y, x2: x + w - 1, y2: y + h - 1 });
    }

    drawFree() {
        const { usage } = this, boxes = freeBoxes(usage.touched, MOST_FREE), tiles = usage.touched.filter(is => !is).length;
        const part = Math.round(100 * tiles / (ACROSS * usage.height / 16));
        const text = boxes.length ? `Nothing draws, shows or reads ${part} % of video memory: ` : 'No region is free.';
        element('free-said').replaceChildren(text, ...boxes.map(box => button(boxText(box), () => this.show(box))));
    }
}
