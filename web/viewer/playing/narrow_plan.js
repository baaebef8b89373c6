// What is played of a stretch for one cell alone. Polygons and rectangles that do not draw the cell are left out, and the
// drawing area is cut down to the cell.
//
// The machine draws the cell as it does of the whole stretch, if what it reads for it is right: the texture page, the
// palette or the source of a copy. All other cells that are drawn stay as they were, so their tiles are dirty. A stretch in
// which the cell's packets may read a dirty tile has no plan.

import { Dirty } from './dirty.js';
import { packetOf } from '../reading/packet.js';
import { KIND } from '../reading/rows.js';
import { lengthOf } from '../reading/grammar.js';

const DRAWS = [KIND.POLYGON, KIND.LINE, KIND.JOINT, KIND.RECTANGLE];
const COLUMNS = { 4: 64, 8: 128, 15: 256 };
const isLeavable = kind => kind === KIND.POLYGON || kind === KIND.RECTANGLE;
const isTextured = (kind, head) => isLeavable(kind) && (head >>> 26 & 1) === 1;
const isReset = (kind, head) => kind === KIND.GP1 && (head >>> 24 & 63) === 0;
const isSetting = (kind, head, ...opcodes) => kind === KIND.SETTING && opcodes.includes(head >>> 24);

class Plan {
    constructor(recording, kept) {
        const { keyframes, height } = recording, mode = keyframes.registers(kept)[0];
        // `mode`: the draw mode (E1h) that the recording has; `has`: that of the machine, which is played less.
        Object.assign(this, { recording, from: keyframes.stepOf(kept), mode, has: mode });
        Object.assign(this, { dirty: new Dirty(height), stops: [] });
        // What a polygon's page replaces of the draw mode.
        this.bits = height === 1024 ? 0x9FF : 0x1FF;
    }

    stop(step, what) { this.stops.push({ step, ...what }); }

    // Takes a row; `item` is what is looked at, if the row may change the cell. Returns whether it reads what is right.
    take(row, item) {
        const { rows } = this.recording, kind = rows.kind[row], head = rows.head[row], step = rows.done[row];
        // A packet may read what it has drawn itself: its own area is dirty before it reads.
        if (DRAWS.includes(kind)) this.mark(row);
        if (item && this.readsDirty(row)) return false;
        const isLeft = !item && this.leave(row);
        if (kind === KIND.LINE || (item && isLeavable(kind))) this.setMode(row);
        if (item) this.stop(item.step, { item });
        else if (kind === KIND.COPY && this.readsDirty(row)) this.mark(row);
        else if (isReset(kind, head)) this.stop(step, { isReset: true });
        else if (isSetting(kind, head, 0xE3, 0xE4)) this.stop(step, { word: head });
        this.follow(row, isLeft);
        return true;
    }

    mark(row) {
        const area = this.recording.rows.area(row);
        if (area) this.dirty.mark(area.x1, area.y1, area.x2, area.y2);
    }

    // Whether a row's words are one after another, from here on.
    isWhole(row) {
        const { rows } = this.recording, first = rows.first[row];
        return first >= this.from && rows.done[row] - first + 1 === lengthOf(rows.head[row]);
    }

    // Leaves a polygon or rectangle out. Returns whether it did.
    leave(row) {
        const { rows } = this.recording, kind = rows.kind[row], last = this.stops.at(-1), first = rows.first[row];
        if (!isLeavable(kind) || !this.isWhole(row)) return false;
        if (last?.to === first) last.to = rows.done[row] + 1;
        else this.stop(first, { to: rows.done[row] + 1 });
        return true;
    }

    // Before a row that draws by it, the machine has the recording's draw mode.
    setMode(row) {
        if (this.mode === this.has) return;
        this.stop(this.recording.rows.first[row], { mode: (0xE1000000 | this.mode) >>> 0 });
        this.has = this.mode;
    }

    // The draw mode after a row.
    follow(row, isLeft) {
        const { rows } = this.recording, kind = rows.kind[row], head = rows.head[row];
        if (isSetting(kind, head, 0xE1)) this.mode = this.has = head & 0xFFFFFF;
        else if (isReset(kind, head)) this.mode = this.has = 0;
        else if (kind === KIND.POLYGON && isTextured(kind, head)) {
            const page = this.pageWord(row) & this.bits;
            this.mode = (this.mode & ~this.bits) | page;
            if (!isLeft) this.has = (this.has & ~this.bits) | page;
        }
    }

    // The page attribute of a polygon.
    pageWord(row) {
        const { rows, track } = this.recording, at = rows.head[row] >>> 28 & 1 ? 5 : 4;
        return (this.isWhole(row) ? track.word(rows.first[row] + at) : rows.words(row, track)[at]) >>> 16;
    }

    // Whether a packet reads a dirty tile.
    readsDirty(row) {
        const { rows, track, height } = this.recording, kind = rows.kind[row], head = rows.head[row];
        if (kind !== KIND.COPY && !isTextured(kind, head)) return false;
        const packet = packetOf(kind, head, rows.words(row, track), { registers: [this.mode], height });
        if (kind === KIND.COPY) return this.touches(packet.from, packet.size.w, packet.size.h);
        const { page, palette } = packet, colors = page.depth === 4 ? 16 : 256;
        return this.touches(page, COLUMNS[page.depth], 256) || (page.depth < 15 && this.touches(palette, colors, 1));
    }

    touches({ x, y }, w, h) { return this.dirty.touches(x, y, x + w - 1, y + h - 1); }
}

/**
 * Returns what is done in a stretch, in order; null if an item may read a cell that is not drawn. A stop has its step, and
 * `item`, what is looked at; `to`, the step to go on with; `mode`, a word that is fed before the step; `word`, one of E3h
 * and E4h; or `isReset`.
 * @param {Recording} recording
 * @param {number} kept which of the kept states the stretch begins with
 * @param {{step: number, row: number}[]} items in order
 */
export function planOf(recording, kept, items) {
    const plan = new Plan(recording, kept), { rows } = recording;
    let next = 0;
    for (let row = rows.at(plan.from) + 1; next < items.length; row++) {
        while (next < items.length && items[next].row < row) plan.stop(items[next].step, { item: items[next++] });
        if (next === items.length) break;
        const item = items[next].row === row ? items[next++] : null;
        if (!plan.take(row, item)) return null;
    }
    return plan.stops;
}
