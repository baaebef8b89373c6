// What is drawn above video memory and what it shows: areas, pages, palettes, the packet's own outline.

import { made } from '../panels/dom.js';
import { KIND } from '../reading/rows.js';
import { offsetOf, placeOf, windowOf } from '../reading/fields.js';
import { windowedSpan } from '../reading/texels.js';

export const OVERLAYS = [
    { name: 'packet', label: 'packet', color: '#ff4d6d', on: true },
    { name: 'drawing', label: 'drawing area', color: '#35c46a', on: false },
    { name: 'shown', label: 'shown area', color: '#ffb020', on: true },
    { name: 'page', label: 'texture page', color: '#4da3ff', on: true },
    { name: 'window', label: 'window', color: '#22c7c7', on: false },
    { name: 'palette', label: 'palette', color: '#c86bff', on: true },
    { name: 'wire', label: 'wireframe', color: '#e05bff', on: false },
    { name: 'overdraw', label: 'overdraw', color: '#f0a020', on: false },
];

/**
 * Makes a box to check for each overlay.
 * @param {HTMLElement} parent
 * @param {{[name: string]: boolean}} on which are on; changed by the boxes
 * @param {(name: string) => void} changed called with the overlay whose box was changed
 */
export function makeToggles(parent, on, changed) {
    parent.append(...OVERLAYS.map(({ name, label, color }) => {
        const box = Object.assign(made('input'), { type: 'checkbox', checked: on[name] });
        box.style.color = color;
        box.addEventListener('change', () => { on[name] = box.checked; changed(name); });
        return made('label', '', box, label);
    }));
}

const boxOf = (x, y, w, h) => ({ x, y, w, h });

/** The boxes of each overlay, in cells: by the registers, the row's area and packet, the shown picture, the height. */
export function boxesOf({ registers, area, packet, picture, height }) {
    const boxes = {};
    const near = placeOf(registers[2], height), far = placeOf(registers[3], height);
    const [wide, high] = [far.x - near.x + 1, far.y - near.y + 1];
    if (wide > 0 && high > 0) boxes.drawing = [boxOf(near.x, near.y, wide, high)];
    if (picture) {
        const start = placeOf(registers[8], height), isDeep = (registers[11] >>> 4 & 1) === 1;
        const cells = isDeep ? Math.ceil(picture.width * 3 / 2) : picture.width;
        boxes.shown = wrapped(boxOf(start.x, start.y, cells, picture.height), height);
    }
    if (area) boxes.packet = wrapped(boxOf(area.x1, area.y1, area.x2 - area.x1 + 1, area.y2 - area.y1 + 1), height);
    return packet?.page ? { ...boxes, ...textureBoxes(packet, windowOf(registers[1]), height) } : boxes;
}

// The boxes of a packet's page, palette and window.
function textureBoxes({ page, palette }, { maskX, maskY, x, y }, height) {
    const perCell = { 4: 4, 8: 2, 15: 1 }[page.depth], colors = page.depth === 4 ? 16 : 256;
    const boxes = { page: wrapped(boxOf(page.x, page.y, 256 / perCell, 256), height) };
    if (page.depth < 15) boxes.palette = wrapped(boxOf(palette.x, palette.y, colors, 1), height);
    if (maskX || maskY) {
        const [left, right] = windowedSpan([0, 255], maskX, x), [top, low] = windowedSpan([0, 255], maskY, y);
        boxes.window = [boxOf(page.x + left / perCell, page.y + top, (right - left + 1) / perCell, low - top + 1)];
    }
    return boxes;
}

// A box that reaches over an edge continues at the opposite one.
function wrapped({ x, y, w, h }, height) {
    const columns = x + w > 1024 ? [[x, 1024 - x], [0, x + w - 1024]] : [[x, w]];
    const rows = y + h > height ? [[y, height - y], [0, y + h - height]] : [[y, h]];
    return columns.flatMap(([x1, w1]) => rows.map(([y1, h1]) => boxOf(x1, y1, w1, h1)));
}

/** Draws boxes; `place(x, y)` is the place of a cell in the image. */
export function drawBoxes(context, view, boxes, { color, place }) {
    for (const { x, y, w, h } of boxes ?? []) {
        const at = place(x, y), from = view.toScreen(at.x, at.y);
        for (const [width, style] of [[3, '#000a'], [1.5, color]]) {
            Object.assign(context, { strokeStyle: style, lineWidth: width });
            context.strokeRect(from.x - 1, from.y - 1, w * view.scaleX + 2, h * view.scale + 2);
        }
    }
}

/** The edges of a polygon, or the segment of a line. */
export function drawOutline(context, view, { packet, registers, kind, color, place }) {
    if (!packet?.vertices || kind === KIND.RECTANGLE || packet.vertices.length < 2) return;
    const offset = offsetOf(registers[4]);
    const points = packet.vertices.map(({ x, y }) => {
        const at = place(x + offset.x, y + offset.y);
        return { x: at.x + 0.5, y: at.y + 0.5 };
    });
    drawPoints(context, view, points, color);
}

/** Points in order, joined; four are two triangles. */
export function drawPoints(context, view, points, color) {
    const orders = points.length === 4 ? [[0, 1, 2], [1, 2, 3]] : [points.map((_, k) => k)];
    Object.assign(context, { strokeStyle: color, lineWidth: 1.5 });
    for (const order of orders) {
        context.beginPath();
        for (const k of order) {
            const at = view.toScreen(points[k].x, points[k].y);
            context.lineTo(at.x, at.y);
        }
        context.closePath();
        context.stroke();
    }
}
