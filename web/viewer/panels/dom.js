// Elements of the page.

export const element = id => document.getElementById(id);

/** Returns a new element with a class and its content. */
export function made(tag, name, ...inside) {
    const out = document.createElement(tag);
    if (name) out.className = name;
    out.append(...inside);
    return out;
}

export function swatch(css) {
    const out = made('span', 'swatch');
    out.style.background = css;
    return out;
}

/** A table of two columns; rows without a value are left out. */
export function tableOf(rows) {
    const table = made('table');
    for (const [label, ...value] of rows.filter(Boolean)) {
        const line = table.insertRow();
        line.append(Object.assign(made('th', '', label), { scope: 'row' }), made('td', '', ...value));
    }
    return table;
}

/** Returns a button with a text. */
export const button = (text, onclick) => Object.assign(made('button', '', text), { type: 'button', onclick });

export const grouped = number => number.toLocaleString('en');

/** Returns a number with what is counted: '1 flip', '2,781 steps'. `plural` ends in s. */
export const counted = (number, plural) => `${grouped(number)} ${number === 1 ? plural.slice(0, -1) : plural}`;
