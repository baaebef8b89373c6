// What a view shows while something is compared: the other side, or what differs.

import { imagePart } from '../views/pixels.js';

/**
 * Returns the image that is shown in place of a view's own, or null for its own.
 * @param {Views} views
 * @returns {ImageData | null}
 */
export function comparedImage({ app, name, look }) {
    const { difference, comparing, beside } = app;
    if (!difference || difference.problem || !look.image) return null;
    const as = comparing.isSwapped ? 'theirs' : comparing.as ?? (difference.isBeside ? 'plain' : 'pale');
    if (as === 'plain' || (as === 'pale' && difference.count === 0)) return null;
    if (name === difference.view) return difference.imageAs(as, app);
    if (difference.view !== 'memory') return null;
    if (name === 'drawn' && as !== 'pale') return imagePart(difference.imageAs(as, app), look.area);
    return name === 'picture' && as === 'theirs' && beside ? beside.pictureImage() : null;
}
