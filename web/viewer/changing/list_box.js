// The box of a packet in the list: it is ticked unless the packet is left out.

import { made } from '../panels/dom.js';
import { KIND } from '../reading/rows.js';

/** Returns the box of a row; a row that is not a packet has an empty place there. */
export function boxOf({ rows }, row) {
    const isPacket = rows.kindOf(row) < KIND.GP1, box = made('span', isPacket ? 'box' : 'box none');
    if (!isPacket) return box;
    box.classList.toggle('ticked', !rows.isOmitted(row));
    box.title = rows.isOmitted(row) ? 'Put it back (x)' : 'Leave it out (x)';
    return box;
}

/** Marks the line of a changed row. Returns what its text begins with. */
export function markChange(line, recording, row) {
    const isOmitted = recording.rows.isOmitted(row), is = Boolean(recording.edits?.rows.has(row));
    line.classList.toggle('changed', is);
    line.classList.toggle('omitted', isOmitted);
    return isOmitted ? 'left out ' : is ? 'changed ' : '';
}

/** Makes a click on a box of the list leave its packet out, or put it back. */
export function wireBoxes(listPanel, whatIf) {
    listPanel.list.element.addEventListener('click', event => {
        if (!event.target.closest('.box:not(.none)')) return;
        event.stopPropagation();
        whatIf.toggle(listPanel.rowAt(event.target.closest('.row').index));
    }, { capture: true });
}
