// How often the packets of a frame draw each cell, up to 31 times.

import { ADD, MOST, STEPS, WHOLE, covering, vertexWord } from './covering.js';
import { PLACING, settingsBefore } from '../playing/settings.js';
import { KIND } from '../reading/rows.js';
import { shapesOf } from '../views/shapes.js';
import { isDrawing } from '../panels/stepping.js';
import { Machine } from '../playing/machine.js';

// The words for a box that the drawing area does not cut: of a fill, a copy or a load.
function boxWords({ x1, y1, x2, y2 }, area) {
    return [...WHOLE, 0x62000000 | STEPS[0], vertexWord({ x: x1, y: y1 }), (x2 - x1 + 1) | (y2 - y1 + 1) << 16, ...area];
}

/**
 * Returns the words that count the cells of rows.
 * @param {Recording} recording
 * @param {number} first
 * @param {number} end the row after the last
 * @returns {Uint32Array}
 */
function wordsOf(recording, first, end) {
    const { rows } = recording, area = settingsBefore(recording, first, PLACING);
    area[2] = WHOLE[2];
    const out = [...ADD, ...area], shapes = shapesOf(recording, first, end);
    let shape = shapes.next().value;
    for (let row = first; row < end; row++) {
        const kind = rows.kind[row], head = rows.head[row], at = [0xE3, 0xE4].indexOf(head >>> 24);
        if (kind === KIND.SETTING && at >= 0) out.push(area[at] = head);
        else if (shape?.row === row) {
            out.push(...covering(shape, STEPS[0]));
            shape = shapes.next().value;
        } else if (isDrawing(rows, row) && rows.area(row)) out.push(...boxWords(rows.area(row), area));
    }
    return Uint32Array.from(out);
}

export class Overdraw {
    /** @param {object} library */
    constructor(library) { Object.assign(this, { library, machine: null, key: '', counts: null }); }

    /**
     * Returns how often the rows draw each cell, row by row of video memory.
     * @param {Recording} recording
     * @param {{first: number, end: number}} which
     * @returns {Uint8Array}
     */
    of(recording, { first, end }) {
        const key = `${recording.edition} ${first} ${end}`;
        if (recording === this.recording && key === this.key) return this.counts;
        this.machine ??= new Machine(this.library);
        this.machine.clear();
        if (recording.version === 3) this.machine.setTall();
        this.machine.gp0(wordsOf(recording, first, end));
        Object.assign(this, { recording, key, counts: Uint8Array.from(this.machine.vramView(), cell => cell & MOST) });
        return this.counts;
    }

    close() {
        this.machine?.close();
        Object.assign(this, { machine: null, key: '' });
    }
}

// The scale of `psxgpu heat`: by how often a cell is drawn, red, green and blue.
const STOPS = [[0, 0, 0, 0], [1, 24, 40, 120], [2, 32, 110, 150], [3, 50, 160, 90], [4, 170, 190, 50], [6, 230, 150, 40],
    [8, 220, 60, 40], [12, 240, 140, 160], [16, 255, 255, 255]];

/** Returns the colour of a count, as bytes of red, green and blue. */
export function rampColor(count) {
    const next = STOPS.findIndex(([at]) => at >= count);
    if (next < 0) return STOPS[STOPS.length - 1].slice(1);
    const [to, ...high] = STOPS[next], [from, ...low] = STOPS[Math.max(0, next - 1)];
    const part = to === from ? 0 : (count - from) / (to - from);
    return low.map((channel, k) => Math.round(channel + part * (high[k] - channel)));
}

/** The counts that the legend names. */
export const LEGEND = STOPS.map(([count]) => count);

const RAMP = Uint16Array.from({ length: MOST + 1 }, (_, count) => {
    const [r, g, b] = rampColor(count).map(byte => byte >> 3);
    return r | g << 5 | b << 10;
});

/** Returns counts as cells of the ramp's colours. */
export const cellsOfCounts = counts => Uint16Array.from(counts, count => RAMP[count]);

export { MOST };
