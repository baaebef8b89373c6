// How many cells the primitives of some rows cover, each cell as often as it is covered. The machine counts them, in three
// channels of 31 steps. Tiles say when a channel may be full: then the next one is used, and after the third the cells are
// read and cleared.

import { ADD, MOST, STEPS, WHOLE, covering } from './covering.js';
import { KIND } from '../reading/rows.js';
import { Machine } from '../playing/machine.js';
import { PLACING, settingsBefore } from '../playing/settings.js';
import { shapesOf } from '../views/shapes.js';
import { isDrawing } from '../panels/stepping.js';

// Tiles of 32 by 32 cells; words that are gathered before they are fed.
const TILE = 5, ACROSS = 1024 >> TILE, PART = 16384;
// How many rows are counted in one go.
const ROWS = 512;

/** Returns how many cells a box has, whose corners are inside of it. */
export const cellsOf = ({ x1, y1, x2, y2 }) => (x2 - x1 + 1) * (y2 - y1 + 1);

const sumOf = cell => (cell & 31) + (cell >> 5 & 31) + (cell >> 10 & 31);

/** How often the cells of each tile may have been covered at most. */
class Tiles {
    constructor() { this.counts = new Uint8Array(ACROSS * ACROSS); }

    clear() { this.counts.fill(0); }

    /** Adds a shape. Returns the greatest count of its tiles. */
    cover({ x1, y1, x2, y2 }, times) {
        let most = 0;
        for (let y = y1 >> TILE; y <= y2 >> TILE; y++) {
            for (let x = x1 >> TILE; x <= x2 >> TILE; x++) {
                most = Math.max(most, this.counts[y * ACROSS + x] += times);
            }
        }
        return most;
    }
}

export class Coverage {
    /** @param {object} library */
    constructor(library) { Object.assign(this, { library, machine: null, tiles: new Tiles() }); }

    // The rows of a range, each with its shape, if it has one, and its area. Settings are fed on the way.
    * walk(recording, { first, end }) {
        Object.assign(this, { recording, total: 0, area: settingsBefore(recording, first, PLACING) });
        this.area[2] = WHOLE[2];
        this.begin();
        const { rows } = recording, shapes = shapesOf(recording, first, end);
        let next = shapes.next().value;
        for (let row = first; row < end; row++) {
            const kind = rows.kind[row], head = rows.head[row], at = [0xE3, 0xE4].indexOf(head >>> 24);
            if (kind === KIND.SETTING && at >= 0) this.words.push(this.area[at] = head);
            if (kind === KIND.GP1 && (head >>> 24 & 63) === 0) this.reset();
            if (this.words.length > PART) this.feed();
            const shape = next?.row === row ? next : null;
            if (shape) next = shapes.next().value;
            yield { row, head, shape, box: rows.area(row) };
        }
    }

    /**
     * Counts the cells that polygons, lines and rectangles cover. Yields now and then, so that others may work; until it is
     * done, nothing else is asked.
     * @param {Recording} recording its areas are known
     * @param {{first: number, end: number}} range which rows
     * @param {(head: number) => boolean} keeps whether a packet counts, by its first word
     * @yields {undefined}
     * @returns {number}
     */
    * counting(recording, range, keeps = () => true) {
        for (const { row, head, shape, box } of this.walk(recording, range)) {
            if (shape && box && keeps(head)) this.draw(shape, box);
            if (row % ROWS === 0) yield;
        }
        this.count();
        return this.total;
    }

    /**
     * Yields the cells that each packet of some rows covers, also those of fills, copies and loads. Until it is done,
     * nothing else is asked.
     * @param {Recording} recording
     * @param {{first: number, end: number}} range
     * @yields {{row: number, cells: number}}
     */
    * each(recording, range) {
        for (const { row, shape, box } of this.walk(recording, range)) {
            if (shape && box) yield { row, cells: this.alone(shape, box) };
            else if (box && isDrawing(recording.rows, row)) yield { row, cells: cellsOf(box) };
        }
    }

    /** Begins to count from 0. */
    begin() {
        const { recording, library } = this;
        this.machine ??= new Machine(library);
        this.machine.clear();
        if (recording.version === 3) this.machine.setTall();
        this.tiles.clear();
        Object.assign(this, { channel: 0, words: [...ADD, ...this.area] });
    }

    reset() {
        this.area = [0xE3000000, 0xE4000000, WHOLE[2]];
        this.words.push(...this.area);
    }

    /** Adds a shape. Both triangles of a polygon may cover a cell. */
    draw(shape, box) {
        const times = shape.kind === KIND.POLYGON ? 2 : 1;
        if (this.tiles.cover(box, times) > MOST) {
            this.channel++;
            if (this.channel === STEPS.length) this.count();
            this.tiles.clear();
            this.tiles.cover(box, times);
        }
        this.words.push(...covering(shape, STEPS[this.channel]));
    }

    feed() {
        this.machine.gp0(Uint32Array.from(this.words));
        this.words = [];
    }

    /** Adds what is counted so far, and begins again. */
    count() {
        this.feed();
        for (const cell of this.machine.vramView()) if (cell) this.total += sumOf(cell);
        this.begin();
    }

    // The cells of one shape.
    alone(shape, box) {
        let count = 0;
        this.covered(shape, box, (_, times) => { count += times; });
        return count;
    }

    /** Calls `does` with each cell that one shape covers, row by row of video memory, and how often it is covered. */
    covered(shape, { x1, y1, x2, y2 }, does) {
        this.words.push(...covering(shape, STEPS[0]));
        this.feed();
        const cells = this.machine.vramView();
        for (let y = y1; y <= y2; y++) {
            for (let x = x1, at = 1024 * y + x1; x <= x2; x++, at++) if (cells[at] !== 0) does(at, cells[at]);
        }
        this.clear(x1, y1, x2, y2);
    }

    // Clears a box for the next shape.
    clear(x1, y1, x2, y2) {
        const left = x1 & ~15, wide = (x2 | 15) - left + 1;
        for (let y = y1; y <= y2; y += 256) {
            this.words.push(0x02000000, left | y << 16, Math.min(wide, 1023) | Math.min(256, y2 + 1 - y) << 16);
        }
    }

    close() {
        this.machine?.close();
        this.machine = null;
    }
}
