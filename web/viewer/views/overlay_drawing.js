// What a view draws above its image, by the overlays that are on.

import { OVERLAYS, boxesOf, drawBoxes, drawOutline, drawPoints } from './overlays.js';
import { drawLines } from './wire.js';
import { texelBox, texelCorners } from '../reading/texels.js';

const DIFFERENCE = '#ff40ff', LEAST = 14;

// The overlays that the picture and the drawing area show; video memory shows all.
const FEW = { picture: ['packet', 'drawing'], drawn: ['packet', 'wire'] };

/**
 * Draws areas, pages, palettes and the packet's outline over cells.
 * @param {CanvasRenderingContext2D} context
 * @param {PixelView} view
 * @param {Views} views
 */
export function drawAbove(context, view, { app, name: viewName, on, here, look, frame }) {
    drawDifference(context, view, { app, name: viewName, look });
    if (!look.offset) return;
    const { registers, picture, recording } = app, place = look.offset;
    const boxes = boxesOf({ registers, picture, height: recording.height, area: here?.area, packet: here?.packet });
    for (const { name, color } of OVERLAYS) {
        if (!on[name] || (FEW[viewName] && !FEW[viewName].includes(name))) continue;
        drawBoxes(context, view, boxes[name], { color, place });
        if (name === 'wire') drawLines(context, view, frame.lines(), { color, place });
        if (name === 'packet' && here?.area) drawOutline(context, view, { ...here, registers, color, place });
    }
}

/**
 * Draws a box around what differs from the compared file; it is never smaller than 14 pixels.
 * @param {CanvasRenderingContext2D} context
 * @param {PixelView} view
 * @param {{app: App, name: string, look: object}} views
 */
export function drawDifference(context, view, { app, name, look }) {
    const { box, view: of } = app.difference ?? {};
    if (!box || (of === 'picture' ? name !== 'picture' : !look.offset)) return;
    const place = of === 'picture' ? (x, y) => ({ x, y }) : look.offset;
    const { x1, y1, x2, y2 } = box, wide = x2 - x1 + 1, high = y2 - y1 + 1;
    const [addX, addY] = [[wide, view.scaleX], [high, view.scale]].map(([size, scale]) => Math.max(0, LEAST / scale - size));
    drawBoxes(context, view, [{ x: x1 - addX / 2, y: y1 - addY / 2, w: wide + addX, h: high + addY }],
        { color: DIFFERENCE, place });
}

/**
 * Draws the texels that the packet reads: their box, and the corners of a polygon in it. Under a texture window there
 * are no corners if the texture is repeated.
 */
export function drawTexels(context, view, { here, on, app }) {
    const { packet } = here ?? {}, box = texelBox(packet, app.registers);
    if (!on.packet || !box) return;
    const color = OVERLAYS[0].color, place = (x, y) => ({ x, y }), corners = texelCorners(packet, app.registers);
    const part = { x: box.u1, y: box.v1, w: box.u2 - box.u1 + 1, h: box.v2 - box.v1 + 1 };
    if (packet.size || !corners) drawBoxes(context, view, [part], { color, place });
    else drawPoints(context, view, corners, color);
}
