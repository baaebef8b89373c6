// Time: the slider with its marks, the buttons, the number of the event, playing by frames.

import { addressOf, stepsAt } from '../playing/address.js';
import { element, grouped } from './dom.js';
import { frameSeen } from '../playing/frames.js';
import { Marks } from './marks.js';
import { lastUpTo } from '../numbers.js';

export class Timeline {
    constructor(app) {
        Object.assign(this, { app, timer: null });
        const go = { start: () => app.parts?.toStart() || app.seek(0, 'frame'),
            end: () => app.parts?.toEnd() || app.seek(app.recording?.length ?? 0, 'frame'),
            back: isEvery => app.stepRows(-1, isEvery), on: isEvery => app.stepRows(1, isEvery),
            'frame-back': () => this.stepFrames(-1), 'frame-on': () => this.stepFrames(1) };
        for (const button of document.querySelectorAll('[data-go]')) {
            button.addEventListener('click', event => go[button.dataset.go](event.shiftKey));
        }
        this.go = go;
        element('play').addEventListener('click', () => this.toggle());
        element('time').addEventListener('input', () => app.seek(Number(element('time').value)));
        element('event').addEventListener('keydown', event => this.keyInEvent(event));
        element('event').addEventListener('change', () => this.goToEvent(element('event').value));
        element('frames').addEventListener('change', () => this.frameBy(element('frames').value));
        this.marks = new Marks(app);
        app.on('opened', () => this.opened());
        app.on('moved', () => this.draw());
        app.on('grown', () => this.grown());
        app.on('ahead', () => { if (app.pass.isDone()) this.draw(); });
    }

    opened() {
        const { recording } = this.app;
        if (!recording.parts) this.pause();
        element('time').max = recording.length;
        element('frames').value = this.app.framesBy;
        this.draw();
    }

    grown() {
        element('time').max = this.app.recording.length;
        element('frames').value = this.app.framesBy;
        this.draw();
    }

    frameBy(name) {
        this.app.framesBy = name;
        this.marks.count();
        this.draw();
    }

    // Enter goes there, Escape leaves; after both, the keys are those of the page again. A field that is left says that
    // it was changed, and so goes there, too.
    keyInEvent(event) {
        if (event.key !== 'Enter' && event.key !== 'Escape') return;
        const field = element('event');
        event.preventDefault();
        field.blur();
        if (event.key === 'Escape') this.draw();
        else if (field.getAttribute('aria-invalid') === 'true') field.select();
    }

    goToEvent(text) {
        const { app } = this, field = element('event');
        if (!app.recording || app.parts?.goTo(text)) return;
        try {
            const steps = stepsAt(app.recording, text);
            if (addressOf(app.recording, app.at) !== text.trim()) app.seek(steps, 'packet');
            this.draw();
            if (app.goal < 0) field.value = addressOf(app.recording, app.at);
        } catch (fault) {
            if (!(fault instanceof RangeError)) throw fault;
            this.tellEnd(fault.message);
            field.setAttribute('aria-invalid', true);
        }
    }

    // After the field: which event is the last, or what is wrong with what was written.
    tellEnd(problem = '') {
        const { recording } = this.app, end = element('of');
        end.textContent = problem || `of ${grouped(recording.eventAt(recording.length))}`;
        end.classList.toggle('warning', problem !== '');
    }

    stepFrames(by) {
        const { app } = this, frames = app.starts, at = lastUpTo(frames, app.at - 1);
        const isAtMark = at >= 0 && frames[at] === app.at - 1;
        const to = by > 0 ? at + 1 : isAtMark ? at - 1 : at, isOutside = to < 0 || to >= frames.length;
        // Parts end with frames: from within a part, the frame before its first one ends where the part before does.
        const step = () => this.stepFrames(by), isWithin = by < 0 && app.at > 0;
        if (isOutside && app.parts?.cross(by, isWithin ? () => {} : step)) return;
        app.seek(to < 0 ? 0 : to >= frames.length ? app.recording?.length : frames[to] + 1, 'frame');
    }

    toggle() { if (this.timer) this.pause(); else this.play(); }

    // Plays from here on; at the last frame, from the start.
    play() {
        const { app } = this;
        if (!app.recording) return;
        if (app.at > (app.starts.at(-1) ?? -1) && !app.parts?.hasNext) app.seek(0, 'frame');
        element('play').textContent = 'Pause';
        let due = performance.now();
        const next = now => {
            if (now >= due && app.goal < 0) {
                due = Math.max(due + 1000 / Number(element('rate').value), now - 100);
                this.stepFrames(1);
            }
            if (app.at >= app.recording.length && !app.parts?.hasNext) this.pause();
            else this.timer = requestAnimationFrame(next);
        };
        this.timer = requestAnimationFrame(next);
    }

    pause() {
        cancelAnimationFrame(this.timer);
        this.timer = null;
        element('play').textContent = 'Play';
    }

    draw() {
        const { app } = this, { recording, at, starts } = app;
        if (!recording) return;
        const { frames } = app, place = addressOf(recording, at), frame = frameSeen(starts, at, frames);
        element('time').value = at;
        const frameText = frames ? `frame ${frame + 1} of ${frames}` : 'no frame';
        element('time').setAttribute('aria-valuetext', `event ${place}, ${frameText}`);
        const field = element('event');
        if (document.activeElement !== field) field.value = place;
        field.removeAttribute('aria-invalid');
        this.tellEnd();
        element('frame').textContent = this.marks.textOf(frame).replace('frame ', '');
    }
}
