// The list of changes, with undo and redo, and the marks that say that the recording is changed.

import { rowAddress } from '../playing/address.js';
import { button, counted, element, made } from '../panels/dom.js';
import { isText } from '../panels/keys.js';
import { List } from '../panels/list.js';
import { hex, nameOf } from '../reading/names.js';

const MOST_ROWS = 9, ROW = 22;

// What differs in the words of a packet, as its first changed word: before and after.
function changeText({ words: before, isOmitted: wasOmitted }, { words, isOmitted }) {
    const changed = [...words.keys()].filter(k => words[k] !== before[k]), [at] = changed;
    const rest = changed.length > 1 ? `, ${changed.length - 1} more` : '';
    return [...(isOmitted === wasOmitted ? [] : ['left out']),
        ...(changed.length ? [`word ${at + 1}: ${hex(before[at])} → ${hex(words[at])}${rest}`] : [])].join(', ');
}

export class ChangesPanel {
    /**
     * @param {App} app
     * @param {{whatIf: WhatIf, out: Out, compare: ComparePanel}} others
     */
    constructor(app, { whatIf, out, compare }) {
        Object.assign(this, { app, whatIf, rows: [] });
        this.undo = button('Undo', () => whatIf.undo());
        this.redo = button('Redo', () => whatIf.redo());
        this.beside = button('Compare with the file', () => compare.open(app.recording.source, app.recording.name));
        this.save = button('Save', () => out.does('changed'));
        this.lines = Object.assign(made('div', 'list'), { id: 'change-list', tabIndex: 0 });
        this.lines.setAttribute('role', 'listbox');
        this.lines.setAttribute('aria-label', 'Changed packets');
        element('changes').append(made('div', 'controls', this.undo, this.redo, this.save, this.beside), this.lines);
        this.list = new List(this.lines, {
            count: () => this.rows.length, draw: (line, k) => this.drawChange(line, this.rows[k]),
            pick: index => app.seekRow(this.rows[index]), current: () => this.rows.indexOf(app.row),
        });
        element('changed').addEventListener('click', () => this.reveal());
        app.on('opened changed', () => this.draw());
        app.on('moved', () => this.list.draw());
        addEventListener('keydown', event => this.pressed(event));
        addEventListener('beforeunload', event => { if (whatIf.isUnsaved) event.preventDefault(); });
    }

    // Ctrl+Z undoes; Ctrl+Y and Ctrl+Shift+Z redo. In a field they are the field's own.
    pressed(event) {
        const key = event.key.toLowerCase();
        if (!(event.ctrlKey || event.metaKey) || event.altKey || isText(event) || !['z', 'y'].includes(key)) return;
        event.preventDefault();
        if (key === 'z' && !event.shiftKey) this.whatIf.undo(); else this.whatIf.redo();
    }

    reveal() {
        element('changes-box').open = true;
        element('changes-box').scrollIntoView({ block: 'nearest' });
        this.lines.focus({ preventScroll: true });
    }

    draw() {
        const { app, whatIf } = this, { edits, count } = whatIf;
        this.rows = [...edits.originals.keys()].sort((a, b) => a - b);
        element('changes-box').hidden = count + edits.done.length + edits.undone.length === 0;
        this.undo.disabled = edits.done.length === 0;
        this.redo.disabled = edits.undone.length === 0;
        this.save.disabled = this.beside.disabled = count === 0;
        for (const id of ['changed', 'changed-mark']) {
            element(id).hidden = count === 0;
            element(id).textContent = `changed: ${counted(count, 'packets')}`;
        }
        document.title = `${count ? '* ' : ''}${app.recording.name}: Valerianpane`;
        this.lines.style.height = `${Math.min(Math.max(this.rows.length, 1), MOST_ROWS) * ROW + 1}px`;
        this.list.changed();
    }

    drawChange(line, row) {
        const { recording } = this.app, { rows, edits } = recording;
        const text = changeText(edits.originals.get(row), edits.contentOf(edits.packetAt(row)));
        line.title = text;
        line.classList.toggle('omitted', rows.isOmitted(row));
        line.replaceChildren(made('span', 'number', rowAddress(recording, row)),
            made('span', 'name', nameOf(rows.kindOf(row), rows.head[row])), made('span', 'rest', text));
    }
}
