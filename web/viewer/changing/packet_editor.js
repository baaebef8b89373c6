// Changes the packet at this place: leaves it out, or gives it other fields, other words or, for a load, other cells.

import { FieldInput } from './field_inputs.js';
import { wordsOfImage } from './load_image.js';
import { fieldsToChange } from './packet_fields.js';
import { button, element, made } from '../panels/dom.js';
import { rowHere } from '../panels/packet_panel.js';
import { hex } from '../reading/names.js';
import { KIND } from '../reading/rows.js';

// The words of a text in hexadecimal.
function wordsIn(text) {
    const parts = text.trim().split(/\s+/);
    if (!parts.every(part => /^[0-9a-f]{8}$/i.test(part))) {
        throw new RangeError('write each word in eight hexadecimal digits');
    }
    return Uint32Array.from(parts, part => parseInt(part, 16));
}

export class PacketEditor {
    /**
     * @param {App} app
     * @param {WhatIf} whatIf
     * @param {Views} views
     */
    constructor(app, whatIf, views) {
        Object.assign(this, { app, whatIf, views, here: null, shape: '', inputs: [] });
        this.omit = button('', () => whatIf.toggle(app.row));
        this.open = button('Change', () => this.setOpen(!this.isOpen));
        this.back = button('As it was', () => whatIf.restore(app.row));
        this.form = made('div', 'change-form');
        this.said = made('p', 'warning');
        this.said.setAttribute('role', 'alert');
        this.box = made('div', 'change', made('div', 'controls', this.omit, this.open, this.back), this.form, this.said);
        element('packet').append(this.box);
        this.words = this.wordsInput();
        this.setOpen(false);
        app.on('opened moved changed', () => this.draw());
    }

    setOpen(is) {
        this.isOpen = is;
        this.open.setAttribute('aria-pressed', is);
        element('packet').classList.toggle('changing', is);
        this.draw();
    }

    wordsInput() {
        const input = Object.assign(made('textarea', 'mono'), { rows: 3, spellcheck: false });
        input.setAttribute('aria-label', 'The words of the packet, in hexadecimal');
        input.addEventListener('change', () => this.does(() => this.set(wordsIn(input.value))));
        input.addEventListener('keydown', event => {
            if (event.key !== 'Enter') return;
            event.preventDefault();
            input.dispatchEvent(new Event('change'));
        });
        return input;
    }

    draw() {
        const here = this.here = rowHere(this.app), isPacket = here !== null && here.kind < KIND.GP1;
        this.box.hidden = !isPacket;
        if (!isPacket) return;
        const { rows, edits } = this.app.recording, isOmitted = rows.isOmitted(here.row);
        this.omit.textContent = isOmitted ? 'Put back' : 'Leave out';
        this.back.hidden = !edits.rows.has(here.row);
        this.form.hidden = !this.isOpen;
        this.said.textContent = '';
        if (this.isOpen) this.show();
    }

    // Shows the packet in the inputs. Those of a packet of another shape are made anew.
    show() {
        const { row, kind, head, words } = this.here, shape = `${row} ${kind} ${head >>> 24} ${this.app.recording.height}`;
        if (shape !== this.shape) this.build(shape);
        for (const input of this.inputs) {
            input.show(words[input.field.index]);
            input.input.removeAttribute('aria-invalid');
        }
        this.words.value = words.map(word => hex(word)).join(' ');
        this.words.removeAttribute('aria-invalid');
    }

    build(shape) {
        const { kind, head } = this.here, lines = new Map();
        this.shape = shape;
        this.inputs = fieldsToChange({ kind, head, height: this.app.recording.height })
            .map(field => new FieldInput(field, (index, change) => this.setWord(index, change)));
        for (const input of this.inputs) {
            const { line } = input.field;
            if (!lines.has(line)) lines.set(line, []);
            lines.get(line).push(input.element);
        }
        this.form.replaceChildren(...[...lines].flatMap(([line, inputs]) => [made('span', 'quiet', line),
            made('span', 'inputs', ...inputs)]), made('span', 'quiet', 'words'), this.words,
        ...(kind === KIND.LOAD ? this.imageInput() : []));
    }

    imageInput() {
        const input = Object.assign(made('input'), { type: 'file', accept: 'image/png', id: 'load-image' });
        input.addEventListener('change', () => {
            const [file] = input.files;
            input.value = '';
            if (file) this.setImage(file);
        });
        return [made('span', 'quiet', 'cells'), made('label', 'button', 'Replace by a PNG…', input)];
    }

    async setImage(file) {
        const { app, views, here } = this, { recording } = app;
        try {
            const seen = { cells: app.cells, how: views.choice.shown };
            const all = await wordsOfImage(file, here, recording.wordsOf(here.row), seen);
            if (recording === app.recording) this.whatIf.setAll(here.row, all);
        } catch (fault) {
            this.said.textContent = `${file.name}: ${fault.message}`;
        }
    }

    setWord(index, change) {
        this.does(() => {
            const words = Uint32Array.from(this.here.words);
            words[index] = change(words[index]);
            this.set(words);
        });
    }

    set(words) {
        if (!this.whatIf.setWords(this.here.row, words)) throw new RangeError(this.app.said.text);
    }

    // Does what was written, or says why it is not possible.
    does(change) {
        try {
            change();
        } catch (fault) {
            if (!(fault instanceof RangeError)) throw fault;
            document.activeElement?.setAttribute?.('aria-invalid', true);
            this.said.textContent = fault.message;
        }
    }
}
