// The second recording in a pane of its own beside the view, at the same zoom, with a box around what differs.

import { drawDifference } from './overlay_drawing.js';
import { element } from '../panels/dom.js';
import { lookOf } from './view_images.js';
import { PixelView } from './pixel_view.js';
import { FrameLook } from './frame_look.js';
import { frameCount } from '../playing/frames.js';
import { cellsOfCounts } from '../costs/overdraw.js';

export class Side {
    /** @param {Views} views whose view this pane follows */
    constructor(views) {
        Object.assign(this, { views, second: null });
        this.view = new PixelView(element('other-canvas'), {
            hover: place => { if (place) views.line.point(place); },
            pick: place => views.pick(place),
            draw: (context, view) => this.drawAbove(context, view),
        }, views.view);
        this.view.fits = false;
    }

    /** Shows a second recording; null for none. */
    show(second) {
        this.frame?.overdraw.close();
        Object.assign(this, { second, frame: null });
        element('other').hidden = !second;
        element('here').hidden = !second;
    }

    draw() {
        const { second, views, view } = this;
        if (!second || !views.look) return;
        if (!second.cells) return view.show(null);
        this.look = lookOf(views.name, { ...second, cells: this.cells() }, views.how);
        const { scale, x, y, aspect, cursor } = views.view;
        Object.assign(view, { scale, x, y, aspect, cursor });
        view.show(this.look.image, null);
    }

    // Its cells, or with overdraw how often its frame draws them.
    cells() {
        const { second, views: { app, counts } } = this, { recording, at } = second, starts = recording[app.framesBy];
        if (!counts) return second.cells;
        const side = { recording, starts, at, row: recording.rows.at(at), frames: frameCount(recording, starts) };
        if (this.frame?.app.recording !== recording) this.frame = new FrameLook({ ...side, library: app.library });
        Object.assign(this.frame.app, side);
        return cellsOfCounts(this.frame.counts());
    }

    // What the second recording has at a place of the view: its cell, or null outside of it.
    cellAt(x, y) {
        const at = this.second?.cells && this.look?.image && this.look.cellAt(x, y);
        return at ? at.value ?? this.second.cells[at.y * 1024 + at.x] : null;
    }

    drawAbove(context, view) {
        drawDifference(context, view, { app: this.views.app, name: this.views.name, look: this.look });
    }
}
