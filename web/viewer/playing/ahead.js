// Plays a recording once while the page is used: the pass that keeps states and areas. It pauses while the reader steps.

import { breath } from './yield_to_page.js';

// Milliseconds: after a step of the reader, in which the pass waits; between two reports; between two pictures of the
// film that is seen until an opened recording is at its last frame.
const CALM = 120, TOLD = 200, FILM = 400;

/**
 * Returns where an opened recording is shown first: after its last flip or mark, or at its end if it has none.
 * @param {Recording} recording
 * @param {number} most a place that has been played
 * @returns {number} steps; 0 if there is neither up to `most`
 */
export function lastFrame({ flips, marks, length }, most = length) {
    const last = steps => {
        for (let k = steps.length - 1; k >= 0; k--) if (steps[k] < most) return steps[k] + 1;
        return 0;
    };
    return Math.max(last(flips), last(marks)) || (most === length ? length : 0);
}

const isPlain = picture => {
    if (!picture) return true;
    const pixels = new Uint32Array(picture.bytes.buffer);
    return pixels.every(pixel => pixel === pixels[0]);
};

export class Ahead {
    /** @param {App} app */
    constructor(app) {
        Object.assign(this, { app, goal: -1, touched: 0, isOpening: false, shown: 0 });
    }

    /** A recording was opened: the pass that runs next goes to its last frame. */
    open() {
        Object.assign(this, { goal: lastFrame(this.app.recording), isOpening: true, shown: performance.now() });
    }

    /** Goes to a place when the pass has been there. */
    goTo(steps) {
        this.isOpening = false;
        this.goal = steps;
        this.run(this.app.pass);
    }

    /** The reader looks around in an opened recording: it stays where it is, and is not taken to its last frame. */
    stay() { if (this.isOpening) Object.assign(this, { goal: -1, isOpening: false }); }

    /** The reader went elsewhere. */
    leave() {
        Object.assign(this, { goal: -1, isOpening: false, touched: performance.now() });
    }

    /** Plays on until the end, or until it is stopped. */
    async run(pass) {
        const { app } = this;
        if (pass.isRunning) return;
        Object.assign(pass, { isRunning: true, isStopped: false });
        for (let told = 0; pass === app.pass && !pass.isDone() && !pass.isStopped;) {
            if (this.goal < pass.at && performance.now() - this.touched < CALM) {
                await new Promise(go => setTimeout(go, CALM / 4));
                continue;
            }
            this.turn(pass);
            if (performance.now() - told > TOLD) {
                told = performance.now();
                this.tell(pass);
            }
            if (this.goal >= 0 && pass.at >= this.goal) this.arrive();
            await breath();
        }
        pass.isRunning = false;
        if (pass === app.pass) this.end(pass);
    }

    end(pass) {
        if (this.goal >= 0 && pass.at >= this.goal) this.arrive();
        this.leave();
        this.touched = 0;
        this.app.work(null);
        this.app.tell('ahead');
    }

    // A turn of the pass. One that fails is its last.
    turn(pass) {
        try {
            pass.turn();
        } catch (fault) {
            pass.isStopped = true;
            this.app.warn(`A fault of this page: ${fault.message}`);
        }
    }

    tell(pass) {
        const { app } = this;
        app.work(this.goal > pass.at ? 'playing to there' : 'reading ahead', pass.at / app.recording.length,
            () => { pass.isStopped = true; });
        app.tell('ahead');
        if (!this.isOpening || performance.now() - this.shown < FILM) return;
        app.showAt(lastFrame(app.recording, pass.at));
        this.shown = performance.now();
    }

    arrive() {
        const { app, goal, isOpening } = this;
        this.goal = -1;
        this.isOpening = false;
        app.showAt(goal);
        if (!isOpening) return;
        if (isPlain(app.picture) && goal < app.recording.length) this.goTo(app.recording.length);
        app.tell('arrived');
    }
}
