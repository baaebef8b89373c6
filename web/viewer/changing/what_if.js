// What if: changes of the open recording, and what is seen after each. States before a change are kept, those after it are
// played anew.

import { Edits } from './edits.js';

// A place that is at most so many slices of the pass after the last state that is kept is played at once.
const NEAR = 4;

export class WhatIf {
    /** @param {App} app */
    constructor(app) {
        Object.assign(this, { app, edits: null, savedAt: 0 });
        app.on('opened', () => {
            this.edits = app.recording.edits ??= new Edits(app.recording);
            this.saved();
        });
    }

    /** How many packets are changed. */
    get count() { return this.edits?.originals.size ?? 0; }

    /** The recording was saved as it is now. */
    saved() { this.savedAt = this.app.recording.edition; }

    /** Whether there are changes that are not saved. */
    get isUnsaved() { return this.count > 0 && this.app.recording.edition !== this.savedAt; }

    /** Leaves the packet of a row out, or puts it back. */
    toggle(row) {
        const isOmitted = !this.app.recording?.rows.isOmitted(row);
        this.does(() => this.edits.change(row, { isOmitted }));
    }

    /** Gives a row other words. Returns whether they are possible. */
    setWords(row, words) { return this.does(() => this.edits.changeRow(row, words)); }

    /** Gives the packet of a row other words, with its data. */
    setAll(row, words) { return this.does(() => this.edits.change(row, { words })); }

    restore(row) { this.does(() => this.edits.restore(row)); }

    undo() { this.does(() => this.edits.undo()); }

    redo() { this.does(() => this.edits.redo()); }

    // Makes a change; what is not possible is said.
    does(change) {
        const { app } = this;
        if (!app.recording || app.row === undefined) return false;
        try {
            const step = change();
            if (app.said?.isRefusal) app.say('');
            if (step >= 0) this.changed(step);
            return true;
        } catch (fault) {
            if (!(fault instanceof RangeError)) throw fault;
            app.warn(`Not changed: ${fault.message}.`);
            app.said.isRefusal = true;
            return false;
        }
    }

    // Plays from the first step on that is changed, and shows what is then seen.
    changed(step) {
        const { app } = this, { pass, player, recording } = app;
        pass.rewind(step);
        recording.keyframes.dropAfter(step);
        player.rewind(step);
        app.ahead.leave();
        app.how = 'change';
        app.tell('changed');
        if (app.at - pass.at > NEAR * pass.slice * pass.every) return app.ahead.goTo(app.at);
        while (pass.at < app.at) pass.turn();
        app.showAt(app.at);
        return app.readAhead(pass);
    }
}
