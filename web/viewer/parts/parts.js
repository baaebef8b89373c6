// A long recording in parts: the one that is needed is open, and the others are only files.

import { element } from '../panels/dom.js';
import { placeHere } from '../panels/link.js';
import { breath } from '../playing/yield_to_page.js';

const EVENT = /^\d{1,15}/;

export class Parts {
    /**
     * @param {App} app
     * @param {Views} views
     * @param {Part[]} files in the order of their events
     */
    constructor(app, views, files) { Object.assign(this, { app, views, files, isOpening: false }); }

    /** The number of the part that is open, from 0. */
    get at() { return this.app.recording.part; }

    /** Whether another part follows. */
    get hasNext() { return this.at + 1 < this.files.length; }

    /** Returns which part one is, and its events. @param {number} part @returns {string} */
    textOf(part) {
        const { files } = this, next = files[part + 1];
        const events = `${files[part].before + 1} ${next ? `to ${next.before}` : 'on'}`;
        return `${part + 1} of ${files.length}: events ${events}`;
    }

    /**
     * Opens a part.
     * @param {number} part
     * @param {string} place where, as a link has it; empty for its last frame
     * @param {boolean} isAgreed whether changes that are not saved may be lost
     */
    async open(part, place = '', isAgreed = false) {
        const { file, name } = this.files[part];
        if (this.isOpening || !(isAgreed || this.app.mayLeave(name, () => this.open(part, place, true)))) return;
        this.isOpening = true;
        try {
            if (await this.app.open(file, name, { parts: this, part, place })) this.check();
        } finally {
            this.isOpening = false;
        }
    }

    // The next part continues the open one, or a part is missing.
    check() {
        const { app, files, at } = this, last = app.recording.eventAt(app.recording.length), next = files[at + 1];
        if (!next || next.before === last) return;
        app.warn(`${files[at].name} ends with event ${last}, and ${next.name} begins after event ${next.before}: `
            + 'they are not parts of one recording, or a part is missing.');
    }

    /**
     * Goes to a place in another part.
     * @param {URLSearchParams} link with the event
     * @returns {boolean} whether the event is in another part
     */
    takes(link) {
        const { app, files } = this, event = Number(EVENT.exec(link.get('event').trim())?.[0] ?? -1);
        const { track, length } = app.recording;
        if (event < files[0].before || (event >= track.before && event <= app.recording.eventAt(length))) return false;
        const after = files.findIndex(({ before }) => before >= event), part = (after < 0 ? files.length : after) - 1;
        if (part === this.at || part < 0) return false;
        this.open(part, link.toString());
        return true;
    }

    /** Goes to an address in another part, with the view as it is. @param {string} address @returns {boolean} */
    goTo(address) { return this.takes(new URLSearchParams(this.placeAt(address))); }

    /**
     * Goes on in the next part, or back in the one before.
     * @param {number} by 1 or -1
     * @param {() => void} step done where both parts meet: the state is the same on both sides
     * @returns {boolean} whether there is such a part
     */
    cross(by, step) {
        const { app, files } = this, part = this.at + by;
        if (!files[part]) return false;
        this.open(part, this.placeAt(files[Math.max(part, this.at)].before)).then(async () => {
            while (app.goal >= 0) await breath();
            if (this.at === part && app.at === (by > 0 ? 0 : app.recording.length)) step();
        });
        return true;
    }

    /** Goes to the start of the whole recording. @returns {boolean} whether it is in another part */
    toStart() {
        if (this.at === 0) return false;
        this.open(0, this.placeAt(this.files[0].before));
        return true;
    }

    /** Goes to the end of the whole recording. @returns {boolean} whether it is in another part */
    toEnd() {
        const last = this.files.length - 1;
        if (this.at === last) return false;
        const link = new URLSearchParams(placeHere(this.app, this.views));
        link.delete('event');
        this.open(last, link.toString()).then(() => this.app.seek(this.app.recording.length, 'frame'));
        return true;
    }

    /** What is seen now, at another event, as a link has it. @param {number | string} event @returns {string} */
    placeAt(event) {
        const link = new URLSearchParams(placeHere(this.app, this.views));
        link.set('event', event);
        return link.toString();
    }
}

/**
 * Makes the menu of parts. It is seen while a recording in parts is open.
 * @param {App} app
 */
export function wireParts(app) {
    const label = element('parts'), menu = element('part');
    menu.addEventListener('change', () => {
        const { parts } = app, part = Number(menu.value);
        parts.open(part, parts.placeAt(parts.files[part].before));
    });
    app.on('opened', () => {
        const { parts } = app;
        label.hidden = !parts;
        if (!parts) return;
        menu.replaceChildren(...parts.files.map((_, k) => new Option(parts.textOf(k), k)));
        menu.value = parts.at;
    });
}
