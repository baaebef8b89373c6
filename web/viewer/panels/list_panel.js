// The list of rows at the left, with search and filter.

import { longestAddress, rowAddress } from '../playing/address.js';
import { KIND } from '../reading/rows.js';
import { List } from './list.js';
import { boxOf, markChange } from '../changing/list_box.js';
import { element, grouped, made, swatch } from './dom.js';
import { lastUpTo } from '../numbers.js';
import { cellProblem, find } from './search.js';
import { isStop } from './stepping.js';
import { readWords } from './packet_panel.js';
import { hex, nameOf } from '../reading/names.js';
import { colorIn, shortOf } from '../reading/words.js';

// How many words of a read are shown in its row.
const FEW_READ = 3;

const FILTERS = { packets: (rows, row) => rows.isPacket(row) || rows.isOmitted(row), drawing: isStop };

// How many characters the names of a recording's packets have at most. Those of words for GP1 may be longer.
function longestName({ rows }) {
    const seen = new Set();
    for (let row = 0; row < rows.length; row++) {
        if (rows.isPacket(row)) seen.add(rows.kind[row] * 256 + (rows.head[row] >>> 24));
    }
    return Math.max(1, ...[...seen].map(key => nameOf(key >>> 8, (key & 255) << 24).length));
}

const areaText = ({ x1, y1, x2, y2 }) => [x1, y1, x2, y2].map(number => String(number).padStart(3)).join(' ');

export class ListPanel {
    constructor(app) {
        Object.assign(this, { app, shown: null, found: null, wrapped: '' });
        this.list = new List(element('list'), {
            count: () => this.shown?.length ?? app.recording?.rows.length ?? 0,
            draw: (row, index) => this.draw(row, this.rowAt(index)),
            pick: index => app.seekRow(this.rowAt(index)),
            current: () => this.indexOf(app.row ?? -1),
        });
        app.on('opened', () => this.opened());
        app.on('grown', () => this.grown());
        app.on('rested', () => { this.measure(); this.search(); });
        app.on('moved', () => this.moved());
        app.on('changed', () => this.changed());
        app.on('ahead', () => this.list.draw());
        for (const kind of ['pointerdown', 'wheel', 'input']) {
            element('left').addEventListener(kind, () => app.ahead.stay(), { passive: true });
        }
        element('filter').addEventListener('change', () => this.filter());
        element('query').addEventListener('input', () => this.search());
        element('search').addEventListener('submit', event => { event.preventDefault(); this.goOn(1); });
        element('find-back').addEventListener('click', () => this.goOn(-1));
        element('query').addEventListener('keydown', event => {
            if (event.key === 'Enter' && event.shiftKey) { event.preventDefault(); this.goOn(-1); }
            if (event.key === 'Escape') element('list').focus({ preventScroll: true });
        });
    }

    // A change leaves the list where it is.
    moved() {
        if (this.app.how === 'change') this.list.draw(); else this.list.reveal(this.list.does.current());
        this.tellFound();
    }

    // What is found or listed may be other rows now.
    changed() {
        const { offset } = this.list;
        if (this.found || this.shown) this.search();
        this.list.moveTo(offset);
    }

    rowAt(index) { return this.shown ? this.shown[index] : index; }

    // The place of a row in what is shown, or of the last one before it.
    indexOf(row) { return this.shown ? lastUpTo(this.shown, row) : row; }

    opened() {
        this.measure();
        this.list.offset = 0;
        this.search();
    }

    // Makes the columns as wide as their texts.
    measure() {
        const { recording } = this.app, { style } = element('list');
        style.setProperty('--number', `${longestAddress(recording)}ch`);
        style.setProperty('--name', `${longestName(recording)}ch`);
        this.measured = recording.rows.length;
    }

    // There are more rows. A search or filter has them when the recording rests.
    grown() {
        if (this.app.recording.rows.length > 2 * this.measured) this.measure();
        if (!this.shown) this.list.changed();
        this.tellFound();
    }

    search() {
        const { recording } = this.app;
        if (!recording) return;
        this.found = find(recording, element('query').value);
        this.tellFound();
        this.filter();
    }

    // How many rows there are; of a search how many were found, and which of them this one is.
    tellFound() {
        const { app, found } = this, { recording, row, pass } = app;
        if (!recording) return;
        const text = element('query').value, problem = cellProblem(text, recording.height), said = element('found');
        const at = found ? lastUpTo(found, row) : -1, isHere = at >= 0 && found[at] === row;
        const count = found && `${isHere ? `${grouped(at + 1)} of ` : ''}${grouped(found.length)} found`;
        said.textContent = problem ?? (found === null ? `${grouped(recording.rows.length)} rows`
            : count + (text.includes(',') && !pass.isDone() ? ' so far' : '') + this.wrapped);
        said.classList.toggle('warning', problem !== null);
    }

    filter() {
        const { rows } = this.app.recording ?? {}, how = element('filter').value;
        if (!rows) return;
        this.shown = null;
        if (how === 'found') this.shown = this.found;
        else if (FILTERS[how]) {
            this.shown = [];
            for (let row = 0; row < rows.length; row++) if (FILTERS[how](rows, row)) this.shown.push(row);
        }
        this.app.listed = this.shown;
        this.list.changed();
        this.list.reveal(this.list.does.current());
    }

    // Goes to the next row that is found, or to the one before.
    goOn(by) {
        if (!this.found) return;
        if (/,/.test(element('query').value)) this.search();
        const { found } = this, here = this.app.row ?? -1, at = lastUpTo(found, here), last = found.length - 1;
        const to = by > 0 ? at + 1 : found[at] === here ? at - 1 : at;
        this.wrapped = to < 0 ? ', on from the end' : to > last ? ', on from the start' : '';
        if (found.length > 0) this.app.seekRow(found[to < 0 ? last : to > last ? 0 : to]);
        this.wrapped = '';
    }

    // How often it reads, and the first words that it read.
    readText(row, count) {
        const words = (readWords(this.app, row, FEW_READ) ?? []).map(word => hex(word));
        const more = words.length > 0 && count > words.length ? ['…'] : [];
        return [...(count > 1 ? [`${grouped(count)} times`] : []), ...words, ...more].join(' ');
    }

    draw(line, row) {
        const { app } = this, { rows, height } = app.recording, kind = rows.kindOf(row), head = rows.head[row];
        if (rows.done[row] >= app.at) line.classList.add('later');
        if (kind === KIND.GP1) line.classList.add('control');
        if (kind > KIND.GP1) line.classList.add('read');
        const count = rows.done[row] - rows.first[row] + 1, color = colorIn(kind, head), area = rows.area(row);
        const short = kind > KIND.GP1 ? this.readText(row, count) : shortOf(kind, head, height);
        line.title = kind > KIND.GP1 ? '' : `${hex(head)} ${short}`;
        const change = markChange(line, app.recording, row);
        line.replaceChildren(boxOf(app.recording, row), made('span', 'number', rowAddress(app.recording, row)),
            made('span', 'name', nameOf(kind, head)),
            color ? swatch(color) : made('span', short && !area ? 'no-swatch none' : 'no-swatch'),
            made('span', 'tail', made('span', 'rest', change + short), made('span', 'area', area ? areaText(area) : '')));
    }
}
