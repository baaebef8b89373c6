// How what differs is shown: as it is, pale or by its size; the other side in place of this one, also in turn; and how far
// apart two cells may be that count as equal.

import { button, element, made } from '../panels/dom.js';

const SHOWN = { '': 'as usual', plain: 'this side', pale: 'what differs bright', steps: 'by the size of the step' };
// Milliseconds that each side is seen: fewer than three changes a second.
const BLINK = 600;

export class CompareControls {
    /** @param {App} app */
    constructor(app) {
        Object.assign(this, { app, timer: 0 });
        this.shown = Object.assign(made('select'), { id: 'difference-as' });
        this.shown.append(...Object.entries(SHOWN).map(([value, text]) => new Option(text, value)));
        this.shown.addEventListener('change', () => this.set({ as: this.shown.value || null }));
        this.tolerance = Object.assign(made('input'), { type: 'number', min: 0, max: 254, value: 0, size: 4 });
        this.tolerance.addEventListener('change', () => this.setTolerance());
        this.swap = button('Swap', () => this.set({ isSwapped: !app.comparing.isSwapped }));
        this.blink = button('Blink', () => this.setBlink(!this.timer));
        this.box = made('div', 'controls', made('label', 'plain', 'Show ', this.shown), this.swap, this.blink,
            made('label', 'plain', 'Tolerance ', this.tolerance));
        this.box.hidden = true;
        app.on('moved second compared opened', () => this.draw());
    }

    set(values) {
        Object.assign(this.app.comparing, values);
        this.app.tell('compared');
    }

    setTolerance() {
        const { app, tolerance } = this;
        app.comparing.tolerance = Math.max(0, Math.min(254, Math.round(Number(tolerance.value)) || 0));
        tolerance.value = app.comparing.tolerance;
        app.show();
    }

    setBlink(is) {
        clearInterval(this.timer);
        this.timer = is ? setInterval(() => this.set({ isSwapped: !this.app.comparing.isSwapped }), BLINK) : 0;
        this.set({ isSwapped: is && this.app.comparing.isSwapped });
    }

    /** Nothing is compared any more. */
    leave() {
        clearInterval(this.timer);
        this.timer = 0;
        this.tolerance.value = 0;
        this.shown.value = '';
        Object.assign(this.app.comparing, { as: null, isSwapped: false, tolerance: 0 });
        this.draw();
    }

    draw() {
        const { app, box, swap, blink, timer } = this, { difference, comparing, beside, recording } = app;
        box.hidden = !difference;
        swap.setAttribute('aria-pressed', comparing.isSwapped);
        blink.setAttribute('aria-pressed', timer !== 0);
        const caption = element('here'), isAlone = !beside;
        if (isAlone) caption.hidden = !difference || !comparing.isSwapped;
        if (difference && comparing.isSwapped) caption.textContent = `${difference.name} in place of ${recording.name}`;
        else if (beside) beside.caption();
    }
}
