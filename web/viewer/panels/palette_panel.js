// The palette of the texture page that is shown, as a strip of colours with their indices. A click marks the texels
// that have an index.

import { counted, element, made } from './dom.js';
import { hex } from '../reading/names.js';
import { cssOfCell } from '../views/pixels.js';

const ACROSS = 16;

export class PalettePanel {
    /**
     * @param {App} app
     * @param {Views} views
     */
    constructor(app, views) {
        Object.assign(this, { app, views });
        this.strip = made('div', 'strip');
        this.told = made('p', 'quiet');
        element('colors').append(this.strip, this.told);
        this.strip.addEventListener('keydown', event => this.key(event));
        app.on('opened moved cell texture', () => this.draw());
    }

    draw() {
        const { app, views } = this, how = app.recording && views.choice.how(views.here);
        element('palette-box').hidden = !how || how.depth === 15;
        if (element('palette-box').hidden) return;
        const { palette, depth } = how, count = depth === 4 ? 16 : 256, { marked } = views.choice;
        while (this.strip.children.length < count) this.strip.append(this.made(this.strip.children.length));
        [...this.strip.children].forEach((entry, index) => {
            entry.hidden = index >= count;
            if (entry.hidden) return;
            const cell = app.cells[palette.y * 1024 + (palette.x + index & 1023)];
            entry.style.background = cell === 0 ? '' : cssOfCell(cell);
            entry.title = `index ${index}: ${hex(cell, 4)}${cell === 0 ? ', not drawn' : ''}`;
            entry.setAttribute('aria-label', entry.title);
            entry.setAttribute('aria-pressed', index === marked);
            entry.tabIndex = index === (marked ?? 0) ? 0 : -1;
        });
        this.tell(how);
    }

    tell({ palette, depth, marked }) {
        const texels = marked !== undefined && counted(this.views.choice.countOf(marked), 'texels');
        const what = texels ? `index ${marked} has ${texels} of the page` : 'click an index to see its texels';
        this.told.textContent = `at (${palette.x}, ${palette.y}), ${depth} bits: ${what}`;
    }

    made(index) {
        const entry = Object.assign(made('button', index > 99 ? 'color three' : 'color', String(index)), { type: 'button' });
        entry.addEventListener('click', () => {
            const { views } = this;
            views.choice.mark(views.choice.marked === index ? undefined : index);
            if (views.name !== 'texture' && views.choice.marked !== undefined) views.choose('texture');
        });
        return entry;
    }

    key(event) {
        const by = { ArrowLeft: -1, ArrowRight: 1, ArrowUp: -ACROSS, ArrowDown: ACROSS }[event.key];
        const seen = [...this.strip.children].filter(entry => !entry.hidden), at = seen.indexOf(document.activeElement);
        if (by === undefined || !seen[at + by]) return;
        event.preventDefault();
        event.stopPropagation();
        seen[at + by].focus();
    }
}
