// Links to a place: `#example=NAME&event=2947.60&view=drawn&zoom=4,160,120&cell=150,140&texture=4,640,0,0,480`.

import { addressOf, stepsAt } from '../playing/address.js';
import { VIEWS } from '../views/view_images.js';

const NUMBERS = /^-?\d+(\.\d+)?(,-?\d+(\.\d+)?)*$/;

/**
 * Returns what is seen, as a link has it: place, view, zoom, cell and texture.
 * @param {App} app
 * @param {Views} views
 * @returns {string}
 */
export function placeHere(app, views) {
    const { cell, recording, at } = app, { view, name, choice } = views;
    const parts = [`event=${addressOf(recording, at)}`, `view=${name}`];
    if (!view.fits && view.image) {
        const { x, y } = view.middle();
        parts.push(`zoom=${[view.scale, x, y].map(number => Math.round(100 * number) / 100)}`);
    }
    if (cell) parts.push(`cell=${cell.x},${cell.y}`);
    const texture = choice.chosen();
    if (name === 'texture' && texture) {
        const { depth, page, palette } = texture;
        parts.push(`texture=${[depth, page.x, page.y, palette.x, palette.y]}`);
    }
    return parts.join('&');
}

/**
 * Returns the part of a link from its `#` on: the example, if it is one, and what is seen.
 * @param {App} app
 * @param {Views} views
 * @returns {string}
 */
export function linkTo(app, views) {
    const { example } = app.recording;
    return `#${example ? `example=${encodeURIComponent(example)}&` : ''}${placeHere(app, views)}`;
}

const asked = () => new URLSearchParams(location.hash.slice(1));
const numbersOf = (text, count) => {
    const numbers = NUMBERS.test(text ?? '') ? text.split(',').map(Number) : [];
    return numbers.length === count ? numbers : null;
};

/**
 * Goes where the address of the page says: when it changes, and once for a recording that is opened. If it names no
 * place, a recording that has one is opened there.
 */
export class Follower {
    /**
     * @param {App} app
     * @param {Views} views
     * @param {(name: string) => boolean} openExample opens an example; false if there is none of this name
     */
    constructor(app, views, openExample) {
        Object.assign(this, { app, views, openExample, followed: '' });
        addEventListener('hashchange', () => this.changed());
        app.on('opened', () => this.follow());
        this.changed();
    }

    /** Whether the address of the page names an example. */
    get namesExample() { return asked().has('example'); }

    changed() {
        this.followed = '';
        const example = asked().get('example');
        if (example !== null && example !== this.app.recording?.example) {
            if (this.openExample(example)) return;
            this.app.warn(`There is no example "${example}": choose one of the menu Examples.`);
        } else this.follow();
    }

    follow() {
        const { recording } = this.app, link = this.linkFor(recording);
        if (!link.size) return;
        this.followed = location.hash;
        this.show(recording, link);
    }

    // What the address asks for that was not followed so far, or else the place of the recording.
    linkFor(recording) {
        const link = location.hash === this.followed ? new URLSearchParams() : asked();
        const isOther = link.has('example') && link.get('example') !== recording?.example;
        if (!recording || isOther) return new URLSearchParams();
        link.delete('example');
        return link.size ? link : new URLSearchParams(recording.place ?? '');
    }

    show(recording, link) {
        const { app, views } = this;
        if (link.has('event') && app.parts?.takes(link)) return;
        const texture = numbersOf(link.get('texture'), 5), cell = numbersOf(link.get('cell'), 2);
        const zoom = numbersOf(link.get('zoom'), 3) ?? numbersOf(link.get('zoom'), 1), view = link.get('view');
        if (cell) app.choose({ x: cell[0] & 1023, y: cell[1] & (recording.height - 1) });
        if (link.has('event')) this.seek(link.get('event'), view ? 'link' : 'cell');
        if (texture) views.choice.set(...texture);
        if (VIEWS.includes(view)) views.choose(view);
        if (zoom) views.lookAt(...zoom);
    }

    seek(text, how) {
        try {
            this.app.seek(stepsAt(this.app.recording, text), how);
        } catch (fault) {
            this.app.warn(`The link leads nowhere: ${fault.message}`);
        }
    }

    /** The page's own link, which leads where the page is. */
    set(hash) {
        history.replaceState(null, '', hash);
        this.followed = location.hash;
    }
}
