// What the packet at this place says: its fields, its vertices, its words.

import { rowAddress } from '../playing/address.js';
import { KIND } from '../reading/rows.js';
import { STEP } from '../reading/track.js';
import { element, grouped, made, swatch, tableOf } from './dom.js';
import { cssOf, offsetOf } from '../reading/fields.js';
import { hex, nameOf } from '../reading/names.js';
import { packetOf } from '../reading/packet.js';
import { controlText, fieldsOf, settingText } from '../reading/words.js';

/** The row at this place with all that is known of it, or null. */
export function rowHere({ recording, row, registers }) {
    if (!recording || row < 0) return null;
    const { rows, track, height } = recording;
    const kind = rows.kindOf(row), head = rows.head[row], words = kind >= KIND.READS ? [] : rows.words(row, track);
    const packet = kind <= KIND.JOINT ? packetOf(kind, head, words, { registers, height }) : {};
    return { row, kind, head, words, packet, area: rows.area(row), isKnown: rows.near[row] !== 0xFFFFFFFE };
}

// How many words that were read are shown.
const MOST_READ = 256;

/**
 * Returns the words that a row of reads returned, as `play` writes them; null if it is not played yet.
 * @param {App} app
 * @param {number} row
 * @returns {number[] | null}
 */
export function readWords({ recording, pass }, row, most = MOST_READ) {
    const { rows, track } = recording, out = [];
    if (pass.at <= rows.done[row]) return null;
    for (let step = rows.first[row]; step <= rows.done[row] && out.length < most; step++) {
        if (track.kind(step) === STEP.READ || track.kind(step) === STEP.STAT) out.push(track.word(step));
    }
    return out;
}

// The vertices as the words have them, and the cells that they are at with the drawing offset added.
function verticesOf(packet, offset) {
    const textured = packet.vertices[0].u !== undefined, isMoved = offset.x !== 0 || offset.y !== 0;
    const table = made('table');
    const head = table.createTHead().insertRow();
    const titles = ['vertex', ...(isMoved ? ['with offset'] : []), 'colour', ...(textured ? ['u, v'] : [])];
    head.append(...titles.map(text => Object.assign(made('th', '', text), { scope: 'col' })));
    for (const { x, y, color, u, v } of packet.vertices) {
        const line = table.insertRow();
        const shown = color === undefined ? '' : [swatch(cssOf(color)), ` ${cssOf(color)}`];
        line.append(made('td', 'mono', `(${x}, ${y})`));
        if (isMoved) line.append(made('td', 'mono', `(${x + offset.x}, ${y + offset.y})`));
        line.append(made('td', 'mono', ...shown));
        if (textured) line.append(made('td', 'mono', `${u}, ${v}`));
    }
    return table;
}

export class PacketPanel {
    constructor(app) {
        Object.assign(this, { app, told: made('div') });
        element('packet').append(this.told);
        app.on('opened moved changed', () => this.draw());
        app.on('ahead', () => { if (this.waits) this.draw(); });
    }

    draw() {
        const here = rowHere(this.app), panel = this.told;
        this.waits = here !== null && (!here.isKnown || here.kind >= KIND.READS);
        if (!here) {
            panel.replaceChildren(made('p', 'quiet', 'Before the first packet.'));
            return;
        }
        const { recording } = this.app, { rows, track } = recording, { kind, head, words, packet, row } = here;
        const done = recording.endOf(row), event = rowAddress(recording, row);
        const tells = { [KIND.GP1]: controlText, [KIND.SETTING]: settingText }[kind];
        const told = tells?.(head, recording.height);
        const count = rows.done[row] - rows.first[row] + 1;
        panel.replaceChildren(tableOf([
            ['event', done > rows.done[row] + 1 ? `${event}, with its data ${track.event(done - 1)}` : String(event)],
            ['name', made('b', '', nameOf(kind, head)), ...(kind === KIND.GP1 ? [' (GP1)'] : [])],
            told && ['says', told],
            kind >= KIND.READS && ['reads', grouped(count)],
            packet.color !== undefined && ['colour', swatch(cssOf(packet.color)), ` ${cssOf(packet.color)}`],
            ...fieldsOf(kind, head, packet, this.app.registers),
            ['area', this.app.recording.rows.isOmitted(row) ? 'none: it is left out' : this.areaText(here)],
        ]), ...(packet.vertices ? [verticesOf(packet, offsetOf(this.app.registers[4]))] : []),
        ...this.wordsOf(words, done - rows.done[row] - 1), ...(kind >= KIND.READS ? this.readsOf(row, count) : []));
    }

    readsOf(row, count) {
        const read = readWords(this.app, row);
        if (!read) return [made('p', 'quiet', 'The words that were read are shown when they are played.')];
        if (read.length === 0) return [made('p', 'quiet', 'The words went to main memory, or were dropped.')];
        const more = count > read.length ? ` and ${grouped(count - read.length)} more` : '';
        return [made('p', 'words', read.map(word => hex(word)).join(' ') + more)];
    }

    areaText({ area, isKnown }) {
        if (!isKnown) return 'not played yet';
        return area ? `(${area.x1}, ${area.y1}) to (${area.x2}, ${area.y2})` : 'none';
    }

    wordsOf(words, data) {
        if (words.length === 0) return [];
        const more = data > 0 ? ` and ${grouped(data)} steps of data` : '';
        return [made('p', 'words', words.map(word => hex(word)).join(' ') + more)];
    }
}
