// A button that opens a menu. Nothing is done until an entry is chosen: the arrow keys only move.

import { made } from './dom.js';

/**
 * Makes a button a menu.
 * @param {HTMLElement} button
 * @param {{text: string, does: () => void}[]} entries
 */
export function makeMenu(button, entries) {
    const menu = made('div', 'menu');
    menu.setAttribute('role', 'menu');
    menu.setAttribute('aria-labelledby', button.id);
    menu.hidden = true;
    button.setAttribute('aria-haspopup', 'menu');
    button.after(menu);
    const close = isBack => {
        menu.hidden = true;
        button.setAttribute('aria-expanded', false);
        if (isBack) button.focus({ preventScroll: true });
    };
    const open = () => {
        menu.hidden = false;
        button.setAttribute('aria-expanded', true);
        place(menu, button);
        menu.firstChild.focus({ preventScroll: true });
    };
    menu.append(...entries.map(({ text, does }) => {
        const entry = made('button', '', text);
        Object.assign(entry, { type: 'button', tabIndex: -1, onclick: () => { close(true); does(); } });
        entry.setAttribute('role', 'menuitem');
        return entry;
    }));
    close(false);
    button.addEventListener('click', () => menu.hidden ? open() : close(true));
    button.addEventListener('keydown', event => { if (event.key === 'ArrowDown') { event.preventDefault(); open(); } });
    menu.addEventListener('keydown', event => pressed(event, menu, close));
    addEventListener('pointerdown', ({ target }) => { if (!menu.contains(target) && target !== button) close(false); });
}

// Below the button, and inside the window.
function place(menu, button) {
    const { left, bottom } = button.getBoundingClientRect();
    menu.style.top = `${bottom + 4}px`;
    menu.style.left = `${Math.max(4, Math.min(left, innerWidth - menu.offsetWidth - 4))}px`;
}

function pressed(event, menu, close) {
    const entries = [...menu.children], at = entries.indexOf(document.activeElement), { key } = event;
    const to = { ArrowDown: at + 1, ArrowUp: at - 1, Home: 0, End: entries.length - 1 }[key];
    event.stopPropagation();
    if (to !== undefined) {
        event.preventDefault();
        entries[(to + entries.length) % entries.length].focus({ preventScroll: true });
    } else if (key === 'Escape' || key === 'Tab') {
        if (key === 'Escape') event.preventDefault();
        close(key === 'Escape');
    } else if (key.length === 1 && key !== ' ') {
        const begins = ({ textContent }) => textContent.toLowerCase().startsWith(key);
        [...entries.slice(at + 1), ...entries].find(begins)?.focus({ preventScroll: true });
    }
}
