// The line under the view: the pixel that is pointed at, its cell and value, as they are at this place of the recording.

import { element } from './dom.js';
import { hex } from '../reading/names.js';
import { MOST } from '../costs/overdraw.js';
import { cellText } from './pixel_panel.js';
import { deepPixel } from '../views/pixels.js';

export class PlaceLine {
    /** @param {Views} views */
    constructor(views) { Object.assign(this, { views, place: null }); }

    /** Tells of a pixel of the view from now on; null for none. */
    point(place) {
        this.place = place;
        this.draw();
    }

    draw() {
        const { place, views: { view, look } } = this;
        const isInside = look?.image && place && place.x < view.width && place.y < view.height;
        element('place').textContent = isInside ? this.text() : '';
    }

    text() {
        const { place, views: { app, name, look, side, counts } } = this, at = `(${place.x}, ${place.y})`;
        const { x, y, index, value } = look.cellAt(place.x, place.y), cell = value ?? app.cells[y * 1024 + x];
        const pixel = `pixel ${at}  `, texel = `texel ${at}${index === undefined ? '' : ` index ${index}`}  `;
        const from = { memory: '', drawn: pixel, picture: pixel, texture: texel }[name];
        const deep = name === 'picture' && deepPixel(app.picture, app.registers, place);
        if (deep) return `${pixel}${deep.text}  cells (${x}, ${y}) and (${x + 1 & 1023}, ${y})`;
        const there = side.cellAt(place.x, place.y), times = counts?.[y * 1024 + x];
        return `${from}cell (${x}, ${y})  ${cellText(cell)}${there === null ? '' : `  there ${hex(there, 4)}`}`
            + (counts ? `  drawn ${times}${times === MOST ? ' or more' : ''} times in this frame` : '');
    }
}
