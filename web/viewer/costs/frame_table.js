// The table of frames: what each costs, and the packets that cost most in the one that is chosen.

import { rowAddress } from '../playing/address.js';
import { breath } from '../playing/yield_to_page.js';
import { frameSeen } from '../playing/frames.js';
import { counted, element, grouped, made } from '../panels/dom.js';
import { List } from '../panels/list.js';
import { nameOf } from '../reading/names.js';
import { tagsOf } from '../reading/words.js';

const COLUMNS = ['frame', 'packets', 'drawn', 'texels', 'blended', 'loaded'];
const TITLES = { frame: 'its number', packets: 'packets that draw', drawn: 'cells that packets cover, without loads',
    texels: 'cells of textured packets: each reads a texel', blended: 'cells of semi-transparent packets',
    loaded: 'cells that loads write' };
// How many packets are listed, and how many milliseconds they are counted in one go.
const MOST = 100, PART = 12;

export class FrameTable {
    /**
     * @param {App} app
     * @param {Marks} marks has the costs of the frames
     */
    constructor(app, marks) {
        Object.assign(this, { app, marks, order: [], by: 'frame', isDown: false, packets: [], chosen: -1 });
        this.heads = COLUMNS.map(name => this.head(name));
        element('frame-heads').append(...this.heads);
        this.list = new List(element('frame-list'), {
            count: () => this.order.length, draw: (line, k) => this.draw(line, this.order[k]),
            pick: index => this.choose(this.order[index]), current: () => this.order.indexOf(this.here),
        });
        this.dearest = new List(element('dearest'), {
            count: () => this.packets.length, draw: (line, k) => this.drawPacket(line, k),
            pick: index => app.seekRow(this.packets[index].row),
            current: () => this.packets.findIndex(({ row }) => row === app.row),
        });
        app.on('opened changed', () => this.forget());
        app.on('costs ahead opened changed', () => this.changed());
        app.on('moved', () => { if (this.isOpen) [this.list, this.dearest].forEach(list => list.draw()); });
        element('frames-box').addEventListener('toggle', () => this.changed());
    }

    get isOpen() { return element('frames-box').open && Boolean(this.app.recording); }

    get here() { return this.app.recording ? frameSeen(this.app.starts, this.app.at, this.app.frames) : -1; }

    // The head of a column, which sorts by it.
    head(name) {
        const head = Object.assign(made('button', 'head', name), { type: 'button', title: TITLES[name] });
        head.addEventListener('click', () => this.sortBy(name));
        return head;
    }

    sortBy(name) {
        this.isDown = this.by === name ? !this.isDown : name !== 'frame';
        this.by = name;
        this.changed();
    }

    forget() {
        Object.assign(this, { packets: [], chosen: -1 });
        element('dearest').hidden = true;
        element('dearest-said').textContent = '';
    }

    // Frames are counted or sorted anew.
    changed() {
        if (!this.isOpen) return;
        const { app, marks, by, isDown } = this, { costs } = marks;
        const value = frame => by === 'frame' ? frame : costs[by][frame];
        marks.countKinds();
        this.order = Array.from({ length: app.frames }, (_, frame) => frame);
        this.order.sort((a, b) => (isDown ? -1 : 1) * (value(a) - value(b)) || a - b);
        this.heads.forEach((head, k) => {
            const isBy = COLUMNS[k] === by;
            head.setAttribute('aria-pressed', isBy);
            head.toggleAttribute('data-way', isBy);
            if (isBy) head.dataset.way = isDown ? '▾' : '▴';
            head.setAttribute('aria-label', `${COLUMNS[k]}${isBy ? isDown ? ', the greatest first' : ', the least first' : ''}`);
        });
        element('frame-list').style.height = `${Math.min(Math.max(this.order.length, 1), 12) * 22 + 1}px`;
        this.list.changed();
    }

    draw(line, frame) {
        const { costs } = this.marks, text = name => name === 'frame' ? grouped(frame + 1)
            : costs[name][frame] < 0 || (name === 'loaded' && !costs.isCounted(frame)) ? '…' : grouped(costs[name][frame]);
        line.replaceChildren(...COLUMNS.map(name => made('span', 'cost', text(name))));
    }

    /** Goes to a frame, and lists the packets that cost most in it. */
    async choose(frame) {
        const { app, marks } = this, { starts, recording } = app, { costs } = marks;
        this.chosen = frame;
        app.seek(frame < starts.length ? starts[frame] + 1 : recording.length, 'frame');
        this.packets = [];
        element('dearest-said').textContent = 'counting its packets…';
        const found = [];
        let began = performance.now();
        for (const packet of costs.packetsOf(frame)) {
            found.push(packet);
            if (performance.now() - began < PART) continue;
            await breath();
            if (costs !== marks.costs || this.chosen !== frame) return;
            began = performance.now();
        }
        this.show(frame, found.sort((a, b) => b.cells - a.cells || a.row - b.row));
    }

    show(frame, found) {
        this.packets = found.slice(0, MOST);
        const some = found.length > MOST ? `the dearest ${MOST} of ` : '';
        const count = `${some}${counted(found.length, 'packets')} with an area`;
        element('dearest-said').textContent = `frame ${grouped(frame + 1)}: ${count}`;
        element('dearest').hidden = found.length === 0;
        element('dearest').style.height = `${Math.min(Math.max(this.packets.length, 1), 10) * 22 + 1}px`;
        this.dearest.changed();
    }

    drawPacket(line, k) {
        const { recording } = this.app, { rows } = recording, { row, cells } = this.packets[k], kind = rows.kind[row];
        line.title = 'go to this packet';
        line.replaceChildren(made('span', 'cost', grouped(cells)), made('span', 'number', rowAddress(recording, row)),
            made('span', 'name', nameOf(kind, rows.head[row])), made('span', 'rest', tagsOf(kind, rows.head[row]).join(' ')));
    }
}
