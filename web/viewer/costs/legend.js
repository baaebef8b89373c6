// The legend of overdraw: what each colour counts.

import { made, swatch } from '../panels/dom.js';
import { LEGEND, rampColor } from './overdraw.js';

/**
 * Fills an element with the legend.
 * @param {HTMLElement} parent
 */
export function makeLegend(parent) {
    const entries = LEGEND.map((count, k) => {
        const more = k === LEGEND.length - 1 ? ' or more' : '';
        return made('span', 'count', swatch(`rgb(${rampColor(count).join(' ')})`), ` ${count}${more}`);
    });
    parent.replaceChildren('drawn in this frame, times: ', ...entries);
}
