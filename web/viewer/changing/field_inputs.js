// Inputs for the fields of a packet. Each shows what a word has, and returns the word with what is written in it.

import { made } from '../panels/dom.js';
import { cssOf } from '../reading/fields.js';

// The numbers of a text such as "10, -4".
function numbersIn(text, parts) {
    const found = text.trim().split(/\s*[,\s×]\s*/).map(part => /^-?\d+$/.test(part) ? Number(part) : NaN);
    if (found.length !== parts.length || found.some(Number.isNaN)) {
        throw new RangeError(`write ${parts.length} numbers, as in ${parts.map(({ least }) => Math.max(0, least))}`);
    }
    found.forEach((value, k) => {
        const { least, most } = parts[k];
        if (value < least || value > most) throw new RangeError(`${value} is not from ${least} to ${most}`);
    });
    return found;
}

const put = (parts, word, values) => parts.reduce((out, part, k) => part.write(out, values[k]), word);

// By what a field is: the input, how it shows a word, and the numbers that it has.
const KINDS = {
    numbers: {
        make: () => Object.assign(made('input', 'mono'), { autocomplete: 'off' }),
        show: (input, word, { parts }) => { input.value = parts.map(part => part.read(word)).join(', '); },
        read: (input, { parts }) => numbersIn(input.value, parts),
    },
    color: {
        make: () => Object.assign(made('input'), { type: 'color' }),
        show: (input, word, { parts: [part] }) => { input.value = cssOf(part.read(word)); },
        read: ({ value }) => [parseInt(value.slice(5) + value.slice(3, 5) + value.slice(1, 3), 16)],
    },
    flag: {
        make: () => Object.assign(made('input'), { type: 'checkbox' }),
        show: (input, word, { parts: [part] }) => { input.checked = part.read(word) === 1; },
        read: ({ checked }) => [Number(checked)],
    },
    choice: {
        make: ({ choices }) => {
            const select = made('select');
            select.append(...choices.map((text, value) => new Option(text, value)));
            return select;
        },
        show: (input, word, { parts: [part] }) => { input.value = part.read(word); },
        read: ({ value }) => [Number(value)],
    },
};

/** The input of one field. */
export class FieldInput {
    /**
     * @param {Field} field
     * @param {(index: number, change: (word: number) => number) => void} changed called when the reader has written
     */
    constructor(field, changed) {
        Object.assign(this, { field, input: KINDS[field.as].make(field) });
        this.input.setAttribute('aria-label', `${field.line}: ${field.name}`);
        this.input.title = field.name;
        this.input.addEventListener('change', () => changed(field.index, word => this.write(word)));
    }

    show(word) { KINDS[this.field.as].show(this.input, word, this.field); }

    // The word with what is written.
    write(word) { return put(this.field.parts, word, KINDS[this.field.as].read(this.input, this.field)); }

    /** Returns the input; a flag has its name beside it. */
    get element() {
        const { field, input } = this;
        return field.as === 'flag' ? made('label', 'plain', input, ` ${field.name}`) : input;
    }
}
