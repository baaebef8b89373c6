// The view in which a step is seen: stepping shows the drawing area, or video memory for what is drawn outside of it.

import { drawingArea } from './view_images.js';
import { rowHere } from '../panels/packet_panel.js';

const meets = (area, box) => area.x1 < box.x + box.w && box.x <= area.x2 && area.y1 < box.y + box.h && box.y <= area.y2;

/**
 * Returns the view that a step chooses, or null if the view stays.
 * @param {App} app
 * @param {string} name the view that is shown
 * @param {boolean} isAuto whether a step chose it
 * @returns {string | null}
 */
export function viewFor(app, name, isAuto) {
    const { how, cell, recording } = app, isFree = name === 'picture' || isAuto;
    const box = drawingArea(app.registers, recording.height), area = rowHere(app)?.area;
    const seen = shown => box && (!shown || meets(shown, box)) ? 'drawn' : 'memory';
    if (how === 'frame') return isAuto ? 'picture' : null;
    if (how === 'packet') return isFree ? seen(area) : null;
    if (how !== 'cell' || !(isFree || name === 'drawn')) return null;
    return seen(cell ? { x1: cell.x, y1: cell.y, x2: cell.x, y2: cell.y } : area);
}
