// Choices of the reader that are kept in this browser: the theme, and which side panels are open and how wide.

import { element } from './panels/dom.js';

// A browser may refuse a page its storage; then nothing is kept.
export function recall(name) {
    try {
        return localStorage.getItem(`valerianpane-${name}`);
    } catch {
        return null;
    }
}

export function keep(name, value) {
    try {
        localStorage.setItem(`valerianpane-${name}`, value);
    } catch {
        // The choice holds until the page is closed.
    }
}

/** Makes the button that changes between dark and light. `changed` is called after it. */
export function wireTheme(changed) {
    const root = document.documentElement, kept = recall('theme');
    if (kept === 'dark' || kept === 'light') root.dataset.theme = kept;
    element('theme').addEventListener('click', () => {
        const now = root.dataset.theme ?? (matchMedia('(prefers-color-scheme: dark)').matches ? 'dark' : 'light');
        root.dataset.theme = now === 'dark' ? 'light' : 'dark';
        keep('theme', root.dataset.theme);
        changed();
    });
}

/** Makes the buttons that fold the panels at the sides. */
export function wireFolds() {
    for (const side of ['left', 'right']) {
        const button = element(`fold-${side}`);
        const set = isOpen => {
            element(side).hidden = !isOpen;
            element(`split-${side}`).hidden = !isOpen;
            button.setAttribute('aria-expanded', isOpen);
            document.body.classList.toggle(`no-${side}`, !isOpen);
        };
        set(recall(side) !== 'folded');
        button.addEventListener('click', () => {
            set(element(side).hidden);
            keep(side, element(side).hidden ? 'folded' : 'open');
        });
    }
}
