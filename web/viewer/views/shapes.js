// The shapes of the packets of some rows, in cells: what a wireframe draws and an overdraw counts.

import { offsetOf } from '../reading/fields.js';
import { KIND } from '../reading/rows.js';
import { packetOf } from '../reading/packet.js';
import { settingsBefore } from '../playing/settings.js';

const SHAPED = [KIND.POLYGON, KIND.LINE, KIND.JOINT, KIND.RECTANGLE];

/**
 * Yields the primitives of rows: their vertices with the drawing offset added. A segment that joins another has the
 * vertex of that one, too.
 * @param {Recording} recording
 * @param {number} first
 * @param {number} end the row after the last
 * @yields {{row: number, kind: number, points: {x: number, y: number}[], size: {w: number, h: number} | undefined}}
 */
export function* shapesOf(recording, first, end) {
    const { rows, track, height } = recording;
    let offset = offsetOf(settingsBefore(recording, first, [0xE5])[0]), last = null;
    for (let row = first; row < end; row++) {
        const kind = rows.kind[row], head = rows.head[row];
        if (kind === KIND.SETTING && head >>> 24 === 0xE5) offset = offsetOf(head);
        if (kind === KIND.GP1 && (head >>> 24 & 63) === 0) offset = { x: 0, y: 0 };
        if (!SHAPED.includes(kind)) continue;
        const { vertices, size } = packetOf(kind, head, rows.words(row, track), { registers: [0], height });
        const points = vertices.map(({ x, y }) => ({ x: x + offset.x, y: y + offset.y }));
        if (kind === KIND.JOINT && last) points.unshift(last);
        last = points.at(-1);
        yield { row, kind, points, size };
    }
}
