// What the panel Compare does with a second recording: both side by side, step by step, and where they part.

import { rowAddress, addressOf } from '../playing/address.js';
import { Difference } from './compare.js';
import { Diverge } from './diverge.js';
import { button, counted, element, grouped, made, tableOf } from '../panels/dom.js';
import { Machine } from '../playing/machine.js';
import { hex, nameOf } from '../reading/names.js';
import { Player } from '../playing/player.js';
import { SamePlace, Second } from './second.js';
import { wordApart } from '../reading/word_fields.js';
import { imageOfPicture } from '../views/pixels.js';

export class SecondPanel {
    /**
     * @param {App} app
     * @param {HTMLElement} panel what it writes to
     * @param {() => void} leave ends the comparison
     */
    constructor(app, panel, leave) {
        Object.assign(this, { app, panel, leave, second: null, isPlayed: false, parting: null, told: '' });
        this.places = new SamePlace();
        app.on('changed', () => this.findAgain());
    }

    // A recording with the starts of its frames.
    side(recording) { return { recording, starts: recording[this.app.framesBy] }; }

    /** Shows a recording beside the one that is open, and looks for where they part. */
    async open(recording) {
        const { app } = this, second = this.second = new Second(recording, app.library);
        app.beside = this;
        app.show();
        app.tell('second');
        await second.playAll(part => this.tell(`playing ${recording.name}: ${Math.round(100 * part)} %`));
        if (second !== this.second) return;
        this.isPlayed = true;
        app.show();
        await this.find(second);
    }

    // The open recording was changed: both part elsewhere.
    findAgain() {
        if (this.diverge) this.diverge.isStopped = true;
        this.parting = null;
        if (this.isPlayed) this.find(this.second);
    }

    async find(second) {
        const { app } = this, { recording } = app, { edition } = recording;
        const isAsked = () => second === this.second && edition === recording.edition;
        app.readAhead(app.pass);
        while (isAsked() && !app.pass.isDone()) {
            this.tell('waiting until the open recording is played');
            await new Promise(go => setTimeout(go, 100));
        }
        if (!isAsked()) return;
        const machines = [new Machine(app.library), new Machine(app.library)];
        const sides = [app.recording, second.recording].map((recording, k) =>
            ({ ...this.side(recording), player: new Player(recording, machines[k]) }));
        this.diverge = new Diverge(...sides);
        try {
            const parting = await this.diverge.find((text, part) => this.tell(`${text}: ${Math.round(100 * part)} %`));
            if (isAsked()) this.parting = parting;
        } finally {
            machines.forEach(machine => machine.close());
        }
        if (isAsked()) this.tell('');
    }

    /** Ends the comparison. */
    close() {
        if (this.diverge) this.diverge.isStopped = true;
        this.second?.close();
        Object.assign(this, { second: null, isPlayed: false, parting: null, diverge: null, told: '' });
        this.app.beside = null;
        this.app.tell('second');
    }

    tell(text) {
        this.told = text;
        if (this.second) this.draw();
    }

    /** Shows the second recording at the place that is as far in its frame as this one. */
    follow() {
        const { app, second } = this;
        if (!second || !app.recording) return;
        second.show(this.places.find({ ...this.side(app.recording), at: app.at }, this.side(second.recording)));
        app.difference = second.cells && new Difference({ view: 'memory', cells: second.cells }, second.recording.name, true);
        app.difference?.look(app);
        this.caption();
    }

    /** Writes what both sides show. */
    caption() {
        const { app, second } = this;
        if (!second || !app.recording) return;
        element('here').textContent = `${app.recording.name}  ${addressOf(app.recording, app.at)}`;
        element('there').textContent = `${second.recording.name}  ${addressOf(second.recording, second.at)}`;
    }

    /** Returns the picture of the second recording, or null. */
    pictureImage() {
        const { picture } = this.second;
        return picture && imageOfPicture(picture);
    }

    draw() {
        const { app, second, told } = this, { count, box, problem } = app.difference ?? {};
        if (!second) return;
        const cells = count && `${counted(count, 'cells')}, in ${box.x1} ${box.y1} ${box.x2} ${box.y2}`;
        const differ = second.cells ? problem ?? (cells || 'nothing') : 'not played so far';
        this.panel.replaceChildren(tableOf([
            ['with', second.recording.name],
            ['place there', addressOf(second.recording, second.at)],
            ['differs here', differ],
            count > 0 && ['by steps', app.difference.bands],
            ...(told ? [['looking', told]] : this.partingRows()),
        ]), ...(count ? [button('Go to it', () => app.tell('goto'))] : []), button('Leave', () => this.leave()));
    }

    partingRows() {
        const { parting } = this;
        if (!parting) return [];
        const { apart, frame, rowA, rowB } = parting;
        if (!apart && frame < 0) return [['all words', 'are the same']];
        return [
            apart && ['first words', ...this.pair(apart.rowA, apart.rowB)],
            ...(apart ? this.wordRows(apart) : []),
            ['first frame', frame < 0 ? 'none: all are the same' : grouped(frame + 1)],
            rowA !== undefined && ['first packet', ...this.pair(rowA, rowB)],
        ];
    }

    // The first word in which the two rows differ, and its fields that do.
    wordRows({ rowA, rowB }) {
        const sides = [[this.app.recording, rowA], [this.second.recording, rowB]];
        if (sides.some(([{ rows }, row]) => row >= rows.length)) return [];
        const found = wordApart(...sides.map(([recording, row]) => ({ kind: recording.rows.kind[row],
            head: recording.rows.head[row], words: recording.wordsOf(row), height: recording.height })));
        if (!found) return [['first word', 'they are not packets of one kind and length']];
        const [ours, theirs] = found.words.map(word => hex(word));
        return [[`word ${found.index + 1}`, made('span', 'mono', ours), ' here, ', made('span', 'mono', theirs), ' there'],
            ...(found.fields.length ? found.fields.map(({ name, texts }) => [name, `${texts[0]} here, ${texts[1]} there`])
                : [['fields', 'the same: only bits without effect differ']])];
    }

    // A row here and one there, each with its address; the one here is gone to.
    pair(rowA, rowB) {
        const { app, second } = this;
        const text = (recording, row) => row < 0 ? 'none' : row >= recording.rows.length ? 'its end'
            : `${rowAddress(recording, row)} ${nameOf(recording.rows.kind[row], recording.rows.head[row])} `
                + hex(recording.rows.head[row]);
        const last = Math.min(rowA, app.recording.rows.length - 1), here = `here ${text(app.recording, rowA)}`;
        return [last < 0 ? here : button(here, () => app.seekRow(last)), made('br'),
            `there ${text(second.recording, rowB)}`];
    }
}
