// The keys. docs/VIEWER.md and the page's own list name them.

import { element } from './dom.js';
import { VIEWS } from '../views/view_images.js';

/** Whether a key is pressed in a field, which takes it. */
export const isText = ({ target }) => target.matches('input:not([type=range]):not([type=checkbox]), select, textarea');

export class Keys {
    constructor({ app, views, timeline, whatIf }) {
        Object.assign(this, { app, views, timeline });
        const { go } = timeline;
        this.everywhere = {
            ArrowRight: go.on, ArrowLeft: go.back, ']': go['frame-on'], '[': go['frame-back'],
            '.': go['frame-on'], ',': go['frame-back'],
            Home: go.start, End: go.end, ' ': () => timeline.toggle(),
            ...Object.fromEntries(VIEWS.map((name, k) => [k + 1, () => views.choose(name)])),
            g: () => element('event').select(), '/': () => element('query').select(), o: () => element('open').click(),
            v: () => element('canvas').focus(), '?': () => element('keys').showModal(),
            '+': () => views.view.zoom(1.5), '=': () => views.view.zoom(1.5), '-': () => views.view.zoom(1 / 1.5),
            0: () => views.view.fit(), x: () => whatIf.toggle(app.row),
        };
        addEventListener('keydown', event => this.pressed(event));
        element('help').addEventListener('click', () => element('keys').showModal());
        element('tabs').addEventListener('keydown', event => this.tab(event));
    }

    pressed(event) {
        if (event.ctrlKey || event.altKey || event.metaKey || isText(event) || element('keys').open) return;
        if (event.target === element('canvas') && this.inView(event)) return event.preventDefault();
        if (event.key === ' ' && event.target.matches('button, summary, input[type=checkbox]')) return;
        if (event.key === 'Enter' && event.target.closest('.list')) return event.preventDefault();
        const does = this.everywhere[event.key];
        if (!does) return;
        event.preventDefault();
        does(event.shiftKey);
    }

    // In the view the arrow keys move the cell.
    inView(event) {
        const { view } = this.views, by = event.shiftKey ? 16 : 1;
        const way = { ArrowLeft: [-by, 0], ArrowRight: [by, 0], ArrowUp: [0, -by], ArrowDown: [0, by] }[event.key];
        if (way) view.moveCursor(...way);
        else if (event.key === 'Enter' && view.cursor) this.views.pick(view.cursor);
        else return false;
        return true;
    }

    tab(event) {
        const way = { ArrowLeft: -1, ArrowRight: 1 }[event.key];
        if (!way) return;
        event.preventDefault();
        event.stopPropagation();
        const tabs = [...element('tabs').children], at = tabs.indexOf(document.activeElement);
        const next = tabs[(at + way + tabs.length) % tabs.length];
        next.focus();
        this.views.choose(next.dataset.view);
    }
}
