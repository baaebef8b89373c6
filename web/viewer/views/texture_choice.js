// Which texture page is shown: that of the packet, or one that is chosen by depth, page and palette.

import { element } from '../panels/dom.js';
import { packetOf } from '../reading/packet.js';
import { pageOf } from '../reading/fields.js';
import { KIND } from '../reading/rows.js';
import { texelOf } from './pixels.js';

const FIELDS = ['page', 'palette'];

// The place that a field names; null if it is empty. Throws what is wrong with it.
function placeIn(id, height) {
    const text = element(id).value.trim(), found = /^(\d+)\s*[, ]\s*(\d+)$/.exec(text);
    if (text === '') return null;
    if (!found) throw new RangeError(`${id}: write its place as x,y, as in 640,0`);
    const [x, y] = [Number(found[1]), Number(found[2])];
    if (x > 1023 || y >= height) throw new RangeError(`${id}: x is at most 1023, and y at most ${height - 1}`);
    return { x, y };
}

// The palette of the last textured packet up to a row; (0, 0) if there is none.
function paletteBefore({ rows, track, height }, row, registers) {
    for (let at = row; at >= 0; at--) {
        const kind = rows.kind[at], head = rows.head[at];
        if ((kind !== KIND.POLYGON && kind !== KIND.RECTANGLE) || (head >>> 26 & 1) === 0) continue;
        return packetOf(kind, head, rows.words(at, track), { registers, height }).palette;
    }
    return { x: 0, y: 0 };
}

export class TextureChoice {
    /**
     * @param {App} app
     * @param {() => void} changed called when something else is chosen
     */
    constructor(app, changed) {
        Object.assign(this, { app, changed, marked: undefined });
        this.forget();
        for (const id of ['depth', ...FIELDS]) element(id).addEventListener('change', changed);
        element('pick-palette').addEventListener('click', () => this.setPicking(!this.isPicking));
    }

    /** Another recording is open: nothing is marked in its pages. */
    forget() { this.marked = undefined; }

    /** Returns what the reader chose of depth, page and palette with the rest as drawn; null if nothing is chosen. */
    chosen() {
        const isAny = FIELDS.some(id => element(id).value) || element('depth').value !== '0';
        return isAny ? this.shown : null;
    }

    /** Chooses a depth of 4, 8 or 15 bits, a page and a palette. */
    set(depth, pageX, pageY, paletteX, paletteY) {
        element('depth').value = [4, 8, 15].includes(depth) ? depth : 0;
        element('page').value = `${pageX},${pageY}`;
        element('palette').value = `${paletteX},${paletteY}`;
        this.changed();
    }

    setPicking(is) {
        this.isPicking = is;
        element('pick-palette').setAttribute('aria-pressed', is);
        element('pick-palette').textContent = is ? 'Click its first cell in Video memory' : 'Pick palette';
        this.changed();
    }

    /** A click in video memory while a palette is asked for names its first cell. Returns whether it did. */
    takes(view, { x, y }) {
        if (!this.isPicking || view !== 'memory') return false;
        element('palette').value = `${x & ~15},${y}`;
        this.setPicking(false);
        return true;
    }

    /** Marks the texels of an index; undefined marks none. */
    mark(index) {
        this.marked = index;
        this.changed();
    }

    /** Returns how many texels of the page that is shown have an index. */
    countOf(index) {
        let count = 0;
        for (let k = 0; k < 65536; k++) if (texelOf(this.app.cells, this.shown, k & 255, k >> 8).index === index) count++;
        return count;
    }

    // The chosen page and palette. What is wrong in a field is told, and the packet's own is shown.
    read(height) {
        const out = {}, problems = [];
        for (const id of FIELDS) {
            try {
                out[id] = placeIn(id, height);
                element(id).removeAttribute('aria-invalid');
            } catch (fault) {
                problems.push(fault.message);
                element(id).setAttribute('aria-invalid', true);
            }
        }
        element('texture-said').textContent = problems.join('; ');
        return out;
    }

    /**
     * Returns how the page is read. If the packet has none, the page is that of the registers at this place, and the
     * palette that of the last textured packet.
     */
    how(here) {
        const { recording, row, registers } = this.app, { height } = recording, chosen = this.read(height);
        const page = here?.packet.page ?? pageOf(registers[0], height);
        const palette = here?.packet.palette ?? paletteBefore(recording, row, registers);
        const cut = ({ x, y }) => ({ x, y: y & (height - 1) });
        element('page').placeholder = `${page.x},${page.y}`;
        element('palette').placeholder = `${palette.x},${palette.y}`;
        const depth = Number(element('depth').value) || page.depth;
        this.shown = { page: cut(chosen.page ?? page), palette: cut(chosen.palette ?? palette), depth, marked: this.marked };
        return this.shown;
    }
}
