// The panel that takes something to compare with: a dump, a picture, or a second recording.

import { Difference, readDump } from './compare.js';
import { button, counted, element, made, tableOf } from '../panels/dom.js';
import { Changes } from '../playing/changes.js';
import { pictureKind } from '../reading/file_kind.js';
import { hex } from '../reading/names.js';
import { changeAddress, itemOf } from '../panels/pixel_panel.js';
import { lastUpTo } from '../numbers.js';
import { openFile } from '../reading/opening.js';
import { Refusal } from '../reading/refusal.js';
import { SecondPanel } from './second_panel.js';
import { shownBy } from '../views/pixels.js';
import { CompareControls } from './compare_controls.js';

const ABOUT = 'A second recording is shown beside this one, step by step. A dump of video memory or a picture, as vram or '
    + 'shot write them, or a PNG of either, is compared with what is seen here.';

const within = ({ tolerance }) => tolerance ? `, within ${tolerance} ${tolerance === 1 ? 'step' : 'steps'}` : '';

export class ComparePanel {
    constructor(app) {
        this.app = app;
        this.changes = new Changes(app, () => this.draw());
        this.input = Object.assign(made('input'), { type: 'file', id: 'dump' });
        this.input.addEventListener('change', () => this.open(this.input.files[0]));
        this.told = made('div');
        this.told.setAttribute('aria-live', 'polite');
        this.second = new SecondPanel(app, this.told, () => { this.forget(); app.tell('cell'); });
        const label = made('label', 'button', 'Choose a file…', this.input);
        this.controls = new CompareControls(app);
        element('compare').append(made('p', 'quiet', ABOUT), made('p', '', label), this.told, this.controls.box);
        app.on('opened', () => this.forget());
        app.on('moved ahead', event => { if (event.type === 'moved' || app.pass.isDone()) this.draw(); });
    }

    forget() {
        this.second.close();
        this.app.difference = null;
        this.told.replaceChildren();
        this.controls.leave();
    }

    /**
     * Compares with a file.
     * @param {Blob} file
     * @param {string} name
     */
    async open(file, name = file?.name) {
        const { app } = this;
        if (!file) return;
        this.input.value = '';
        element('compare-box').open = true;
        try {
            if (!app.recording) throw new Error('open a recording first');
            const recording = await pictureKind(file) ? null : await this.recordingOf(file, name);
            this.forget();
            if (recording) await this.second.open(recording);
            else {
                app.difference = Object.assign(new Difference(await readDump(file), name), { source: file });
                app.show();
            }
        } catch (fault) {
            this.told.replaceChildren(made('p', 'warning', `${name}: ${fault.message}`));
        }
    }

    // A recording; null for what is none.
    async recordingOf(file, name) {
        try {
            return Object.assign(await openFile(file, name, this.app.library), { source: file });
        } catch (fault) {
            if (fault instanceof Refusal && fault.cause === 'not-capture') return null;
            throw fault;
        }
    }

    draw() {
        const { app } = this, { difference } = app;
        if (this.second.second) return this.second.draw();
        if (!difference || !app.recording) return;
        const { name, first, box, count, problem } = difference;
        const close = button('Leave', () => { this.forget(); app.tell('cell'); });
        if (problem || !first) {
            const same = `${name} and what is seen here are the same${within(app.comparing)}.`;
            this.told.replaceChildren(made('p', '', problem ?? same), close);
            return;
        }
        const valueOf = value => hex(value, difference.cells ? 4 : 8);
        this.told.replaceChildren(tableOf([
            ['with', name],
            ['differ', counted(count, difference.view === 'memory' ? 'cells' : 'pixels')],
            ['by steps', difference.bands],
            ['their box', `${box.x1} ${box.y1} ${box.x2} ${box.y2}`],
            ['the first', `(${first.x}, ${first.y}): ${valueOf(first.own)} here, ${valueOf(first.theirs)} there`],
            ...this.drawers(first),
        ]), button('Go to it', () => app.tell('goto')), close);
    }

    // What changed the first differing cell: the first change of all, and the last one up to this place.
    drawers(first) {
        const { app } = this, { recording } = app;
        const cell = app.difference.view === 'memory' ? { x: first.x, y: first.y }
            : shownBy(app.registers, recording.height).cellOf(first.x, first.y);
        const more = ['', button('What changed it', () => app.choose(cell))];
        if (!app.pass.isDone()) return [['drawn by', 'shown when all is played'], more];
        const changes = this.changes.of(cell);
        if (!changes) return [['drawn by', 'looking for it…'], more];
        if (changes.length === 0) return [['drawn by', 'no packet: nothing changed it'], more];
        const last = lastUpTo(changes.map(({ step }) => step), app.at - 1);
        const link = change => button(this.nameOf(change), () => { app.seek(change.step + 1, 'cell'); app.choose(cell); });
        return [
            ['first drawn by', link(changes[0])],
            ['last drawn by', last < 0 ? 'nothing so far' : link(changes[last])],
            more,
        ];
    }

    nameOf(change) {
        const { recording } = this.app, { name, head } = itemOf(recording, change);
        return `event ${changeAddress(recording, change)}: ${name} ${hex(head)}`;
    }
}
