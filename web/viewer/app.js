// What is open, and the place that is shown. The panels listen: 'opened', 'arrived' (an opened recording is at its last
// frame), 'moved' (another place), 'cell' (another cell is chosen), 'texture' (another page is chosen), 'second' (a
// recording beside this one), 'goto' (show what differs), 'ahead' (the pass has played on), 'work' (its progress) and
// 'said' (a line), 'costs' (more frames are counted), 'compared' (what differs is shown in another way), 'changed' (a packet
// was changed; a 'moved' comes after it), 'grown' (there is more of the recording) and 'rested' (it has not grown for a
// while).

import { adviceOf } from './reading/advice.js';
import { Ahead } from './playing/ahead.js';
import { breath } from './playing/yield_to_page.js';
import { counted } from './panels/dom.js';
import { Machine } from './playing/machine.js';
import { Pass } from './playing/pass.js';
import { Player } from './playing/player.js';
import { frameCount } from './playing/frames.js';
import { Stopped, openFile } from './reading/opening.js';
import { isStop, nextRow } from './panels/stepping.js';

export class App extends EventTarget {
    constructor(library) {
        super();
        Object.assign(this, { library, recording: null, pass: null, at: 0, cell: null, pixel: null, working: null });
        Object.assign(this, { how: 'time', listed: null, beside: null, framesBy: 'flips' });
        /** How what differs is shown: `as` is 'plain', 'pale', 'steps', or null for the usual one. */
        this.comparing = { as: null, isSwapped: false, tolerance: 0 };
        /** The changes of the open recording. */
        this.whatIf = null;
        this.machine = new Machine(library);
        this.ahead = new Ahead(this);
    }

    /** The place that the page goes to when it is played so far, or -1. */
    get goal() { return this.ahead.goal; }

    /** The steps that end frames: display starts or marks, as the reader chose. */
    get starts() { return this.recording?.[this.framesBy] ?? []; }

    /** The parts of a longer recording, of which one is open, or null. */
    get parts() { return this.recording?.parts ?? null; }

    /** The number of frames. */
    get frames() { return this.recording ? frameCount(this.recording, this.starts) : 0; }

    // A browser compiles what runs often better than what runs once: this is done before the reader waits for it.
    async warmUp() {
        const state = this.machine.save();
        for (let k = 0; k < 12 && !this.recording; k++) {
            this.machine.load(state);
            await breath();
        }
    }

    on(names, does) {
        for (const name of names.split(' ')) this.addEventListener(name, does);
    }

    tell(name) { this.dispatchEvent(new Event(name)); }

    /** Says something; `choice` is what may be done: { text, does }. */
    say(text, choice = null) {
        this.said = { text, choice };
        this.tell('said');
    }

    /** Says what went wrong, and with `advice` what to do. */
    warn(text, choice = null, advice = '') {
        this.said = { text, choice, advice, isWarning: true };
        this.tell('said');
    }

    /**
     * Returns whether what is open may be left. Where changes would be lost, it says so, and offers to open all the same.
     * @param {string} name what is to be opened
     * @param {() => void} open opens it, without asking again
     */
    mayLeave(name, open) {
        const { whatIf, recording } = this;
        if (!whatIf?.isUnsaved) return true;
        this.warn(`Not opened: changes of ${counted(whatIf.count, 'packets')} in ${recording.name} are not saved.`,
            { text: `Open ${name} without saving them`, does: open });
        return false;
    }

    // Opens a file. A bad one leaves all as it was, and says why.
    async open(blob, name, from = {}) {
        this.stopOpening?.abort();
        const stopper = this.stopOpening = new AbortController();
        const progress = part => this.work(`reading ${name}`, part, () => stopper.abort());
        try {
            progress(0);
            const recording = await openFile(blob, name, this.library, { progress, signal: stopper.signal });
            if (stopper === this.stopOpening) this.adopt(Object.assign(recording, { source: blob, ...from }));
            return true;
        } catch (fault) {
            if (fault instanceof Stopped) return false;
            const advice = await adviceOf(fault, blob);
            this.warn(`${name}: ${fault.message}`, this.choiceOf(fault, blob, from), advice);
            return false;
        } finally {
            if (stopper === this.stopOpening) this.work(null);
        }
    }

    // The steps before a fault can be opened.
    choiceOf(fault, blob, from) {
        if (!fault.before?.length) return null;
        const event = fault.before.eventAt(fault.before.length);
        return { text: `Open what is before it (up to event ${event})`,
            does: () => this.adopt(Object.assign(fault.before,
                { source: blob, isPart: true, isCut: fault.cause === 'truncated', ...from })) };
    }

    work(text, part = 0, stop = null) {
        this.working = text === null ? null : { text, part, stop };
        this.tell('work');
    }

    adopt(recording) {
        this.say('');
        this.ahead.leave();
        this.pass?.machine.close();
        this.recording = recording;
        this.player = new Player(recording, this.machine);
        this.pass = new Pass(recording, new Machine(this.library));
        this.cell = null;
        this.pixel = null;
        this.how = 'time';
        this.framesBy = recording.flips.length > 0 || recording.marks.length === 0 ? 'flips' : 'marks';
        this.at = 0;
        this.look();
        this.ahead.open();
        this.tell('opened');
        this.readAhead(this.pass);
    }

    readAhead(pass) { this.ahead.run(pass); }

    /**
     * Goes to the state after a number of steps; where that is far ahead, the pass goes there first.
     * @param {number} steps
     * @param {string} how why: 'packet', 'frame', 'cell' (what drew a cell) or 'time'; the views choose by it
     */
    seek(steps, how = 'time') {
        if (!this.recording) return;
        const to = Math.max(0, Math.min(this.recording.length, Math.round(steps)));
        this.ahead.leave();
        this.how = how;
        if (to <= this.pass.at || to - this.at < 4096) this.showAt(to);
        else this.ahead.goTo(to);
    }

    showAt(steps) {
        this.at = steps;
        this.show();
    }

    // Shows what is seen at this place.
    show() {
        const before = performance.now();
        this.look();
        this.tell('moved');
        this.took = performance.now() - before;
    }

    // Takes what is seen at this place from the machine.
    look() {
        const { machine, recording } = this;
        this.player.seek(this.at);
        const cells = machine.vramView();
        if (this.cells?.length !== cells.length) this.cells = new Uint16Array(cells.length);
        this.cells.set(cells);
        this.picture = machine.frame();
        this.registers = machine.registers();
        this.row = recording.rows.at(this.at);
        if (this.beside) this.beside.follow(); else this.difference?.look(this);
    }

    seekRow(row, how = 'packet') { if (row >= 0) this.seek(this.recording.endOf(row), how); }

    /**
     * Goes to the next packet that draws, of those that the list shows; to every row with `isEvery`.
     * @param {number} by 1 or -1
     * @param {boolean} isEvery
     */
    stepRows(by, isEvery = false) {
        if (!this.recording) return;
        const { rows, length } = this.recording, list = isEvery ? null : this.listed;
        const row = nextRow(this, by, list, isEvery || list ? () => true : to => isStop(rows, to));
        if (row >= 0 && row < rows.length) this.seekRow(row);
        else if (!this.parts?.cross(by, () => this.stepRows(by, isEvery))) {
            this.seek(row < 0 ? 0 : length, 'packet');
        }
    }

    /**
     * Chooses a cell. `pixel`: the pixel of the picture that was chosen; then another cell is chosen as soon as the picture
     * shows another one there.
     */
    choose(cell, pixel = null) {
        Object.assign(this, { cell, pixel });
        this.tell('cell');
    }
}
