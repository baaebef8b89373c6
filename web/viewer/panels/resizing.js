// The lines between the panels: dragged, or moved by the arrow keys, they make a panel wider. Its width is kept.

import { element } from './dom.js';
import { keep, recall } from '../kept.js';

// Pixels: the least width of a panel, and of what is left for the views; a step of the arrow keys.
const LEAST = 220, VIEWS = 300, STEP = 16;

class Split {
    /** @param {string} side left or right */
    constructor(side) {
        Object.assign(this, { side, line: element(`split-${side}`), panel: element(side) });
        const { line } = this, kept = Number(recall(`${side}-width`));
        if (kept) this.set(kept);
        line.addEventListener('pointerdown', event => { event.preventDefault(); line.setPointerCapture(event.pointerId); });
        line.addEventListener('pointermove', event => { if (line.hasPointerCapture(event.pointerId)) this.follow(event); });
        line.addEventListener('keydown', event => this.key(event));
        line.addEventListener('dblclick', () => this.clear());
        new ResizeObserver(() => this.tell()).observe(this.panel);
    }

    get width() { return this.panel.offsetWidth; }

    follow({ clientX }) {
        const box = this.panel.getBoundingClientRect();
        this.set(this.side === 'left' ? clientX - box.left : box.right - clientX);
    }

    set(width) {
        const other = element(this.side === 'left' ? 'right' : 'left').offsetWidth;
        const most = Math.max(LEAST, innerWidth - other - VIEWS), now = Math.round(Math.max(LEAST, Math.min(most, width)));
        document.body.style.setProperty(`--${this.side}`, `${now}px`);
        keep(`${this.side}-width`, now);
    }

    // As wide as it was made.
    clear() {
        document.body.style.removeProperty(`--${this.side}`);
        keep(`${this.side}-width`, '');
    }

    key(event) {
        const way = { ArrowLeft: -1, ArrowRight: 1 }[event.key];
        if (!way) return;
        event.preventDefault();
        event.stopPropagation();
        this.set(this.width + (this.side === 'left' ? STEP : -STEP) * way);
    }

    tell() { this.line.setAttribute('aria-valuenow', this.width); }
}

/** Makes both lines. */
export const wireSplits = () => ['left', 'right'].map(side => new Split(side));
