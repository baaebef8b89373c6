// What changed one cell, for those who ask again and again: looked for once, and told when it is there.

import { breath } from './yield_to_page.js';
import { History } from './history.js';
import { Machine } from './machine.js';

export class Changes {
    /**
     * @param {App} app
     * @param {() => void} found called when the changes of the cell that was asked for last are there
     */
    constructor(app, found) { Object.assign(this, { app, found, history: null, edition: 0, machine: null, isWhole: false }); }

    /**
     * Returns the changes of a cell of the open recording, all of which was played; null if they are looked for.
     * @param {{x: number, y: number}} cell
     * @returns {{step: number, row: number, before: number, after: number}[] | null}
     */
    of({ x, y }) {
        const { history, app } = this;
        const isOf = history?.recording === app.recording && this.edition === app.recording.edition;
        if (!isOf || history.cell.x !== x || history.cell.y !== y) {
            this.look({ x, y });
            return null;
        }
        return this.isWhole ? history.changes : null;
    }

    async look(cell) {
        const { app } = this;
        if (this.history) this.history.isStopped = true;
        this.machine ??= new Machine(app.library);
        const history = this.history = new History(app.recording, this.machine, cell);
        Object.assign(this, { isWhole: false, edition: app.recording.edition });
        await history.run(app.at, () => {}, breath);
        if (history !== this.history) return;
        this.isWhole = true;
        this.found();
    }
}
