// The line above the view about a recording that grows: what it has so far, and buttons that go on.

import { counted, element } from '../panels/dom.js';
import { Growth } from './growth.js';
import { Chosen, Watched } from './sources.js';

export class GrowingLine {
    /** @param {App} app */
    constructor(app) {
        Object.assign(this, { app, growth: null });
        app.on('opened', () => this.opened());
        app.on('grown moved rested', () => this.draw());
        app.on('moved', () => { this.growth?.moved(); this.draw(); });
        element('last-frame').addEventListener('click', () => { this.growth.followAgain(); this.draw(); });
        element('read-on').addEventListener('click', () => this.readOn());
        element('read-on-file').addEventListener('change', ({ target }) => {
            const [file] = target.files;
            if (file) this.chosen(file);
            target.value = '';
        });
    }

    /**
     * Reads a file while it grows, and shows its last frame.
     * @param {Served | Watched | Chosen} source
     * @param {string} name
     * @param {object} from what the recording gets, as in App.open
     */
    start(source, name, from = {}) {
        this.growth?.source.close();
        this.growth = new Growth(this.app, source, name, from);
        this.growth.run();
        this.draw();
    }

    // Another recording ends what was followed.
    opened() {
        const { growth, app } = this;
        if (growth && growth.recording !== app.recording) {
            growth.source.close();
            this.growth = null;
        }
        this.draw();
    }

    // Reads what has come since: by itself from now on if the browser can look at the file, or of the file that is chosen.
    async readOn() {
        const { name, handle } = this.app.recording, found = this.growth ? null : await handle;
        if (found) this.start(new Watched(found), name, { handle });
        else element('read-on-file').click();
    }

    chosen(file) {
        if (this.growth) this.growth.source.give(file);
        else this.start(new Chosen(file), file.name);
    }

    draw() {
        const { growth, app: { recording } } = this, isOpen = growth || recording?.isCut;
        element('growing').hidden = !isOpen;
        if (!isOpen) return;
        element('growing-text').textContent = this.text;
        element('last-frame').hidden = !growth?.recording || growth.isFollowing;
        element('read-on').hidden = growth ? growth.ended !== '' || !growth.source.give : false;
    }

    // What is known of the recording.
    get text() {
        const { growth, app } = this, { recording } = app;
        if (growth && !growth.recording) return `waiting for ${growth.name}`;
        const state = !growth ? 'has no end yet' : growth.ended || 'is growing';
        const events = recording.eventAt(recording.length) - recording.track.before;
        return `${recording.name} ${state}: ${counted(app.frames, 'frames')}, ${counted(events, 'events')}`;
    }
}
