// Video memory over time: what was loaded or copied where, when it was read as texels, as a palette, shown, copied or
// stored, and when it was overwritten; and which regions nothing draws, shows or reads. Which texels a packet reads is
// known by its texture coordinates; which cells a packet covers, the machine tells.

import { breath } from '../playing/yield_to_page.js';
import { Coverage } from './coverage.js';
import { ACROSS, TILE } from './free_boxes.js';
import { packetOf } from '../reading/packet.js';
import { KIND } from '../reading/rows.js';
import { texelBox } from '../reading/texels.js';

// Milliseconds of work between two breaths, and how many rows are looked at before the clock is.
const PART = 12, ROWS = 256;

// A vertical range of 256 lines.
const LINES = 256 << 10;

const boxOf = ({ x1, y1, x2, y2 }) => ({ x: x1, y: y1, w: x2 - x1 + 1, h: y2 - y1 + 1 });

/**
 * What was put into video memory: its row and box, how many packets used it and for what, the rows of the first and the last
 * use, the row that first overwrote a part, and the one after which nothing is left; -1 for none.
 * @typedef {{row: number, box: {x: number, y: number, w: number, h: number}, uses: number, kinds: Set<string>, first: number,
 *     last: number, overwritten: number, gone: number, left: number}} Upload
 */

export class Usage {
    /**
     * @param {Recording} recording its areas are known
     * @param {object} library
     */
    constructor(recording, library) {
        const { height, outline } = recording;
        Object.assign(this, { recording, height, coverage: new Coverage(library), isStopped: false, isDone: false, part: 0 });
        /** @type {Upload[]} */
        this.uploads = [];
        this.owners = new Int32Array(1024 * height);
        this.touched = new Uint8Array(ACROSS * height / TILE);
        this.stamps = [0];
        this.registers = outline ? [...outline.registers] : new Array(13).fill(0);
        if (!outline) this.registers[10] = LINES;
    }

    /** Looks at the whole recording. `told` is called after each part. */
    async run(told) {
        const { recording, coverage } = this, { rows } = recording;
        let began = performance.now();
        for (const it of coverage.walk(recording, { first: 0, end: rows.length })) {
            this.take(it, rows.kind[it.row]);
            if (it.row % ROWS !== 0 || performance.now() - began < PART) continue;
            this.part = it.row / rows.length;
            told();
            await breath();
            if (this.isStopped) break;
            began = performance.now();
        }
        coverage.close();
        if (this.isStopped) return;
        this.shown(rows.length - 1);
        this.isDone = true;
        told();
    }

    stop() { this.isStopped = true; }

    take({ row, head, shape, box }, kind) {
        if (kind === KIND.SETTING) return this.set(head);
        if (kind === KIND.GP1) return this.control(row, head);
        if (kind === KIND.LOAD && box) return this.upload(row, boxOf(box));
        if (kind === KIND.OTHER) return box && this.fill(row, boxOf(box));
        if (kind === KIND.COPY || kind === KIND.STORE) return this.move(row, kind, head, box);
        if (shape) {
            this.read(row, kind, head);
            if (box) this.draw(row, shape, box);
        }
        return undefined;
    }

    set(head) {
        const register = (head >>> 24) - 0xE1;
        if (register >= 0 && register < 6) this.registers[register] = head & 0xFFFFFF;
    }

    control(row, head) {
        const opcode = head >>> 24 & 63, { registers } = this, bits = head & 0xFFFFFF;
        if (opcode === 0) this.reset();
        if (opcode === 5) registers[8] = bits & 0xFFFFF;
        if (opcode === 7) registers[10] = bits;
        if (opcode === 8) registers[11] = bits;
        if (opcode === 5) this.shown(row);
    }

    // A reset; at most 256 lines are shown until a range is set.
    reset() {
        this.registers.fill(0);
        this.registers[10] = LINES;
    }

    // The display area: as many cells as the mode and the vertical range show at most.
    shown(row) {
        const [start, lines, mode] = [this.registers[8], this.registers[10], this.registers[11]];
        const wide = mode & 0x40 ? 368 : [256, 320, 512, 640][mode & 3], high = (lines >>> 10 & 0x3FF) - (lines & 0x3FF);
        const times = (mode & 0x24) === 0x24 ? 2 : 1, h = Math.min(this.height, high * times);
        const w = mode & 0x10 ? Math.ceil(wide * 3 / 2) : wide;
        if (h > 0) this.use({ x: start & 1023, y: start >>> 10 & (this.height - 1), w, h }, 'shown', row);
    }

    packet(row, kind, head) {
        const { recording, registers, height } = this;
        return packetOf(kind, head, recording.rows.words(row, recording.track), { registers, height });
    }

    move(row, kind, head, box) {
        const { from, size } = this.packet(row, kind, head);
        this.use({ ...from, ...size }, kind === KIND.COPY ? 'copied' : 'stored', row);
        if (kind !== KIND.COPY || !box) return;
        this.touch(boxOf(box));
        this.upload(row, boxOf(box));
    }

    fill(row, box) {
        this.touch(box);
        this.write(box, 0, row);
    }

    // Texels and palette of a packet. A polygon sets the page.
    read(row, kind, head) {
        if ((kind !== KIND.POLYGON && kind !== KIND.RECTANGLE) || (head >>> 26 & 1) === 0) return;
        const { registers, recording, height } = this, words = recording.rows.words(row, recording.track);
        const packet = packetOf(kind, head, words, { registers, height }), { page, palette } = packet;
        if (kind === KIND.POLYGON) this.setPage(words[head >>> 28 & 1 ? 5 : 4] >>> 16);
        const texels = recording.rows.area(row) && texelBox(packet, registers);
        if (!texels) return;
        const { u1, v1, u2, v2 } = texels, each = page.depth === 15 ? 1 : 16 / page.depth;
        const boxFrom = (u, v, uu, vv) => {
            const left = Math.floor(u / each);
            return { x: page.x + left, y: page.y + v, w: Math.floor(uu / each) - left + 1, h: vv - v + 1 };
        };
        this.use(boxFrom(u1, v1, u2, v2), `${page.depth} bits`, row);
        this.touch(boxFrom(Math.max(0, u1 - 1), Math.max(0, v1 - 1), Math.min(255, u2 + 1), Math.min(255, v2 + 1)));
        if (page.depth < 15) this.use({ ...palette, w: page.depth === 4 ? 16 : 256, h: 1 }, 'CLUT', row);
    }

    setPage(word) {
        const bits = this.height === 1024 ? 0x9FF : 0x1FF;
        this.registers[0] = (this.registers[0] & ~bits) | (word & bits);
    }

    // Calls `does` with the index of each cell of a box, which may reach over the edges.
    each({ x, y, w, h }, does) {
        for (let row = 0; row < h; row++) {
            const base = 1024 * (y + row & (this.height - 1));
            for (let column = 0; column < w; column++) does(base + (x + column & 1023));
        }
    }

    /** Something is read: the uploads that its cells have are used. */
    use(box, kind, row) {
        const { owners, height } = this, { x, y, w, h } = box;
        let last = 0;
        this.touch(box);
        for (let down = 0; down < h; down++) {
            const base = 1024 * (y + down & (height - 1));
            for (let column = x; column < x + w; column++) {
                const owner = owners[base + (column & 1023)];
                if (owner === last) continue;
                last = owner;
                if (owner !== 0) this.used(owner, kind, row);
            }
        }
    }

    used(owner, kind, row) {
        const { uploads, stamps } = this, upload = uploads[owner - 1];
        upload.kinds.add(kind);
        if (stamps[owner] === row + 1) return;
        stamps[owner] = row + 1;
        upload.uses++;
        if (upload.first < 0) upload.first = row;
        upload.last = row;
    }

    upload(row, box) {
        this.uploads.push({ row, box, uses: 0, kinds: new Set(), first: -1, last: -1, overwritten: -1, gone: -1,
            left: box.w * box.h });
        this.stamps.push(0);
        this.write(box, this.uploads.length, row);
    }

    write(box, owner, row) { this.each(box, at => this.put(at, owner, row)); }

    put(at, owner, row) {
        const old = this.owners[at];
        this.owners[at] = owner;
        if (old === 0 || old === owner) return;
        const upload = this.uploads[old - 1];
        if (upload.overwritten < 0) upload.overwritten = row;
        if (--upload.left === 0) upload.gone = row;
    }

    // A primitive overwrites the cells that it covers. The machine is asked only if its area has something loaded.
    draw(row, shape, box) {
        this.touch(boxOf(box));
        if (this.hasLoaded(box)) this.coverage.covered(shape, box, at => this.put(at, 0, row));
    }

    // Whether a cell of an area has something that was loaded.
    hasLoaded({ x1, y1, x2, y2 }) {
        const { owners } = this;
        for (let y = y1; y <= y2; y++) {
            for (let at = 1024 * y + x1; at <= 1024 * y + x2; at++) if (owners[at] !== 0) return true;
        }
        return false;
    }

    touch({ x, y, w, h }) {
        const down = this.height / TILE, right = x + w - 1 >> 4, low = y + h - 1 >> 4;
        for (let row = y >> 4; row <= low; row++) {
            for (let column = x >> 4; column <= right; column++) this.touched[row % down * ACROSS + column % ACROSS] = 1;
        }
    }
}
