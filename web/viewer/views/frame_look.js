// What is seen of a whole frame: the wireframe of its primitives, and how often it draws each cell up to this place.

import { frameSeen, rowsOfFrame } from '../playing/frames.js';
import { Overdraw } from '../costs/overdraw.js';
import { Wire } from './wire.js';

export class FrameLook {
    /** @param {{recording: Recording, starts: number[], at: number, row: number, frames: number, library: object}} app */
    constructor(app) { Object.assign(this, { app, wire: new Wire(), overdraw: new Overdraw(app.library) }); }

    get rows() {
        const { recording, starts, at } = this.app;
        return rowsOfFrame(recording, starts, frameSeen(starts, at, this.app.frames));
    }

    /** Returns pairs of points, in cells, of all primitives of the frame. */
    lines() { return this.wire.of(this.app.recording, this.rows); }

    /** Returns how often the frame has drawn each cell so far. */
    counts() {
        const { app } = this, { first, end } = this.rows;
        return this.overdraw.of(app.recording, { first, end: Math.max(first, Math.min(end, app.row + 1)) });
    }
}
