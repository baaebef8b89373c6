// The wireframe of a frame: the edges of all its primitives over the view.

import { KIND } from '../reading/rows.js';
import { shapesOf } from './shapes.js';

// Which points are joined, by how many there are.
const EDGES = { 2: [[0, 1]], 3: [[0, 1], [1, 2], [2, 0]], 4: [[0, 1], [1, 3], [3, 2], [2, 0], [1, 2]] };

// The lines of a shape: pairs of points.
function linesOf({ kind, points, size }) {
    if (kind !== KIND.RECTANGLE) return (EDGES[points.length] ?? []).map(([a, b]) => [points[a], points[b]]);
    const [{ x, y }] = points, { w, h } = size, corners = [[0, 0], [w, 0], [w, h], [0, h]];
    return corners.map(([dx, dy], k) => {
        const [ex, ey] = corners[(k + 1) % 4];
        return [{ x: x + dx - 0.5, y: y + dy - 0.5 }, { x: x + ex - 0.5, y: y + ey - 0.5 }];
    });
}

/** The wireframe of the last frame that was asked for. */
export class Wire {
    constructor() { Object.assign(this, { recording: null, edition: 0, first: -1, end: -1, lines: [] }); }

    /** Returns pairs of points, in cells, of the primitives of rows. */
    of(recording, { first, end }) {
        const { edition } = recording, asked = { recording, edition, first, end };
        if (Object.keys(asked).some(name => asked[name] !== this[name])) {
            Object.assign(this, asked, { lines: [] });
            for (const shape of shapesOf(recording, first, end)) this.lines.push(...linesOf(shape));
        }
        return this.lines;
    }
}

/**
 * Draws lines between cells.
 * @param {CanvasRenderingContext2D} context
 * @param {PixelView} view
 * @param {object[][]} lines pairs of points
 * @param {{color: string, place: Function}} how
 */
export function drawLines(context, view, lines, { color, place }) {
    const to = ({ x, y }) => {
        const at = place(x, y);
        return view.toScreen(at.x + 0.5, at.y + 0.5);
    };
    context.beginPath();
    for (const [from, end] of lines) {
        const a = to(from), b = to(end);
        context.moveTo(a.x, a.y);
        context.lineTo(b.x, b.y);
    }
    Object.assign(context, { strokeStyle: color, lineWidth: 1 });
    context.stroke();
}
