// The page's own text, and the cases that it has inside: recordings, each with a place to open it at and a note.
//
// This module is evaluated before any other part of the page changes the document.

const TAG = '<script type="application/json" id="inside">', END = '</' + 'script>';

/**
 * @typedef {object} Case
 * @property {string} name
 * @property {string} place as a link has it, without `#`
 * @property {string} note
 * @property {{name: string, bytes: string}[]} files a recording, and perhaps one to compare it with: packed by gzip, in
 *     base64
 */

// Takes the cases out of the document, so that the page's own text is without them.
function takeCases() {
    const holder = document.getElementById('inside'), text = holder.textContent;
    holder.textContent = '';
    return text ? JSON.parse(text) : [];
}

/** @type {Case[]} */
export const CASES = takeCases();

// What the policy of a page that is saved leaves out: it asks no server, as this one may do (`psxgpu view --follow`). It is
// joined here, so that this script has no such text itself.
const ASKS = ["'none';", 'connect-src', "'self';"].join(' ');
const EMPTY = `<!doctype html>\n${document.documentElement.outerHTML}\n`.replace(ASKS, "'none';");

/**
 * Returns a page that is this one, with other cases inside. No text of a case can end the element that holds it.
 * @param {Case[]} cases
 * @returns {string}
 */
export function pageWith(cases) {
    const text = JSON.stringify(cases).replace(/[<>&\u2028\u2029]/g,
        letter => `\\u${letter.charCodeAt(0).toString(16).padStart(4, '0')}`);
    const at = EMPTY.indexOf(TAG + END) + TAG.length;
    return EMPTY.slice(0, at) + text + EMPTY.slice(at);
}
