// Reads a recording while it is written, and shows its last frame. 'grown' is told for each piece, and 'rested' when no
// piece has come for a while, or when there will be none: then what needs the whole recording is looked for.

import { DumpFault } from '../reading/dump_records.js';
import { lastFrame } from '../playing/ahead.js';
import { captureBytes, settle, startReading } from '../reading/opening.js';
import { Refusal } from '../reading/refusal.js';
import { NewBytes, Replaced } from './new_bytes.js';
import { SourceEnded } from './sources.js';

// Milliseconds without a piece after which the file rests; why a recording that is whole grows no more.
const REST = 500, WHOLE = 'has ended';
// How many steps are played at most before a frame is shown, unless one frame has more.
const NEAR = 1 << 16;

export class Growth {
    /**
     * @param {App} app
     * @param {Served | Watched | Chosen} source
     * @param {string} name
     * @param {object} from what the recording gets, as in App.open
     */
    constructor(app, source, name, from) {
        Object.assign(this, { app, source, name, from, recording: null, ended: '', isFollowing: true, target: -1 });
    }

    /** Whether the page shows this recording. */
    get isShown() { return !this.recording || this.recording === this.app.recording; }

    /** Reads until the source ends. Another file in the place of this one is read anew. */
    async run() {
        for (let said = ''; ;) {
            try {
                await this.readFile(said);
            } catch (fault) {
                if (fault instanceof SourceEnded) return this.end(fault.message);
                if (!(fault instanceof Replaced)) throw fault;
                said = `${this.name} is another file now, or shorter: it was read anew.`;
            }
        }
    }

    // Reads one file, and waits after its end until it is another.
    async readFile(said) {
        const bytes = new NewBytes(this.source), about = {}, pieces = captureBytes(bytes, about);
        let started = null;
        try {
            started = await startReading(this.name, pieces, this.app.library);
            await this.take(started, { bytes, pieces, about, said });
            this.end(WHOLE);
        } catch (fault) {
            if (!(fault instanceof Refusal || fault instanceof DumpFault)) throw fault;
            this.app.warn(`${this.name}: ${fault.message}`);
            this.end('has a fault');
        } finally {
            started?.answers.close();
        }
        for (;;) await bytes.next();
    }

    // Takes the records of a file as they come, up to its end.
    async take(started, { bytes, pieces, about, said }) {
        const { records, rest } = started;
        try {
            records.push(rest);
        } finally {
            settle(started);
            this.adopt(started.recording, about.isDump, bytes);
            this.app.say(said);
        }
        for await (const piece of pieces) {
            try {
                records.push(piece);
            } finally {
                settle(started);
                this.grown();
            }
            if (records.done) break;
        }
    }

    // Opens the recording with what is read of it so far.
    adopt(recording, isDump, bytes) {
        const { app, from } = this;
        Object.assign(recording, from, { isDump, isPart: true, isGrowing: true });
        Object.defineProperty(recording, 'source', { get: () => bytes.whole });
        Object.assign(this, { recording, ended: '', isFollowing: true, target: lastFrame(recording) });
        app.adopt(recording);
    }

    // There is more of it: it is played, and its last frame is shown unless the reader looks at another place.
    grown() {
        const { app, recording } = this;
        if (!this.isShown) return;
        const { flips, marks } = recording;
        if (app.starts.length === 0 && flips.length + marks.length > 0) app.framesBy = flips.length > 0 ? 'flips' : 'marks';
        app.tell('grown');
        this.follow();
        app.readAhead(app.pass);
        clearTimeout(this.timer);
        this.timer = setTimeout(() => this.rest(), REST);
    }

    // Nothing came for a while.
    rest() { if (this.isShown && this.recording) this.app.tell('rested'); }

    /** Goes to the last frame, and from then on to each that comes. */
    followAgain() {
        this.isFollowing = true;
        this.follow();
    }

    // The frame to show next: the last one, or one before it that is played sooner.
    get next() {
        const { app: { at, pass }, recording } = this;
        const near = lastFrame(recording, Math.min(recording.length, pass.at + NEAR));
        return near > at ? near : lastFrame(recording);
    }

    // A frame is shown before the next one is gone to.
    follow() {
        const { app } = this;
        if (!this.isFollowing || app.goal >= 0 || this.next <= app.at) return;
        app.how = 'frame';
        this.target = this.next;
        app.ahead.goTo(this.target);
    }

    /** The page has gone to a place: where it is not the last frame, it stays. */
    moved() {
        const { app, recording } = this;
        if (!recording || !this.isShown || app.ahead.isOpening) return;
        this.isFollowing = app.at === this.target || app.at >= lastFrame(recording);
        this.follow();
    }

    // No more comes of this recording.
    end(why) {
        clearTimeout(this.timer);
        this.ended = why;
        if (this.recording) Object.assign(this.recording, { isGrowing: false, isPart: why !== WHOLE });
        if (this.isShown) this.rest();
    }
}
