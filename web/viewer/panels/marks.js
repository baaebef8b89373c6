// The small timeline: for each frame the packets that draw in it and the cells that they cover, how far the recording is
// played, and the place that is shown.

import { Costs } from '../costs/costs.js';
import { counted, element, grouped } from './dom.js';
import { lastUpTo } from '../numbers.js';

// Pixels beside the bars; milliseconds after a step of the reader in which the counting waits.
const INSET = 8, CALM = 120;

// A colour of the style sheet, as it is in dark or light.
function inkOf(canvas, name) {
    canvas.style.color = `var(${name})`;
    return getComputedStyle(canvas).color;
}

export class Marks {
    /** @param {App} app */
    constructor(app) {
        Object.assign(this, { app, canvas: element('marks'), costs: null, bars: null });
        new ResizeObserver(() => this.resize()).observe(this.canvas);
        this.resize();
        app.on('opened grown rested', () => this.count());
        // The frames are counted after the change is seen.
        app.on('changed', () => { this.costs?.stop(); setTimeout(() => this.count()); });
        app.on('ahead', () => { if (app.pass.isDone()) this.count(); else this.draw(); });
        app.on('moved', () => this.draw());
        matchMedia('(prefers-color-scheme: dark)').addEventListener('change', () => this.repaint());
        this.canvas.addEventListener('pointermove', event => { this.canvas.title = this.textOf(this.frameAt(event)); });
        this.canvas.addEventListener('click', event => this.goTo(this.frameAt(event)));
    }

    /** Counts the frames anew: another recording, other frames, or all areas are known. */
    count() {
        const { recording, starts, pass, library, ahead } = this.app;
        this.costs?.stop();
        const costs = this.costs = recording && new Costs(recording, starts, library, this.costs);
        this.repaint();
        if (!pass?.isDone() || recording.isGrowing) return;
        this.waits = () => performance.now() - ahead.touched < CALM;
        costs.run(this.waits, () => { if (costs === this.costs) this.counted(); });
    }

    /** Counts texels and blended cells too, which a table of frames shows. */
    countKinds() {
        const { costs, app } = this;
        if (!costs || !app.pass?.isDone() || costs.hasKinds) return;
        costs.hasKinds = true;
        costs.run(this.waits, () => { if (costs === this.costs) app.tell('costs'); }, true);
    }

    // More frames are counted.
    counted() {
        this.repaint();
        this.app.tell('costs');
    }

    frameAt({ offsetX }) {
        const { recording, starts } = this.app, { clientWidth } = this.canvas;
        if (!recording) return -1;
        const step = (offsetX - INSET) / (clientWidth - 2 * INSET) * recording.length;
        return Math.max(0, Math.min(lastUpTo(starts, step) + 1, this.app.frames - 1));
    }

    goTo(frame) {
        const { app } = this, { starts } = app;
        if (frame >= 0) app.seek(frame < starts.length ? starts[frame] + 1 : app.recording.length, 'frame');
    }

    /** Returns a frame in words: its number from 1, packets and cells. */
    textOf(frame) {
        const { costs, app } = this;
        if (!costs || frame < 0) return '';
        if (app.frames === 0) return 'no frame: there is no packet';
        const packets = counted(costs.packets[frame], 'packets');
        if (app.pass.isDone() && !app.recording.isGrowing) costs.countNow(frame);
        const loaded = costs.loaded[frame] ? `, ${grouped(costs.loaded[frame])} loaded` : '';
        const cells = costs.isCounted(frame) ? `, ${grouped(costs.drawn[frame])} cells drawn${loaded}` : '';
        return `frame ${grouped(frame + 1)} of ${grouped(app.frames)}: ${packets}${cells}`;
    }

    /** Draws all anew, as when the theme is another. */
    repaint() {
        this.bars = null;
        this.draw();
    }

    resize() {
        const { canvas } = this, ratio = devicePixelRatio || 1;
        canvas.width = Math.round(canvas.clientWidth * ratio);
        canvas.height = Math.round(canvas.clientHeight * ratio);
        this.repaint();
    }

    // The size is asked for only when it changes: to ask is to have the whole page laid out.
    draw() {
        const { canvas, app: { recording, pass, at } } = this, ratio = devicePixelRatio || 1, { width, height } = canvas;
        const context = canvas.getContext('2d'), inset = INSET * ratio;
        context.clearRect(0, 0, width, height);
        if (!recording || recording.length === 0 || !this.costs || !width) return;
        const place = step => inset + (width - 2 * inset) * step / recording.length;
        const fill = (name, x, y, w, h) => { context.fillStyle = inkOf(canvas, name); context.fillRect(x, y, w, h); };
        this.bars ??= this.barsOf(place, width, height, ratio);
        context.drawImage(this.bars, 0, 0);
        fill('--line', inset, height - 2 * ratio, width - 2 * inset, 2 * ratio);
        fill('--accent', inset, height - 2 * ratio, place(pass.at) - inset, 2 * ratio);
        fill('--ink', place(at) - ratio / 2, 0, ratio, height);
    }

    // The bars of the frames, on a canvas of their own that is kept.
    barsOf(place, width, height, ratio) {
        const bars = Object.assign(document.createElement('canvas'), { width, height });
        this.drawFrames(bars.getContext('2d'), place, height - 3 * ratio, ratio);
        return bars;
    }

    // For all frames a bar of the cells that they draw, without loads, and a line at the height of their packets. Frames that
    // share a column show the greatest of them.
    drawFrames(context, place, height, ratio) {
        const { costs, canvas } = this;
        for (const [values, ink, isBar] of [[costs.drawn, '--bar', true], [costs.packets, '--quiet', false]]) {
            context.fillStyle = inkOf(canvas, ink);
            const most = values.reduce((a, b) => Math.max(a, b), 1);
            for (const { from, to, value } of this.columns(values, place, ratio)) {
                const high = Math.max(ratio, height * value / most), wide = to - from;
                const gap = wide > 4 * ratio ? ratio : 0;
                context.fillRect(from, height - high, Math.max(ratio, wide - gap), isBar ? high : 2 * ratio);
            }
        }
    }

    // The columns of the frames, each at least a pixel wide.
    * columns(values, place, least) {
        const { starts, recording } = this.app, ends = [...starts.map(step => step + 1), recording.length];
        let from = place(0), value = 0;
        for (let frame = 0; frame < ends.length; frame++) {
            const to = place(ends[frame]);
            value = Math.max(value, values[frame]);
            if (to - from < least) continue;
            if (value > 0) yield { from, to, value };
            [from, value] = [to, 0];
        }
    }
}
