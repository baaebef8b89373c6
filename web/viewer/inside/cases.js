// The cases inside the page: how one is opened, its note above the view, and the page with a case of what is open.

import { element } from '../panels/dom.js';
import { placeHere } from '../panels/link.js';
import { Served } from '../growing/sources.js';
import { bytesOfText, gzipped, textOfBytes, unpacked } from './packed.js';
import { CASES, pageWith } from './page_source.js';

// Bytes of a packed recording: with its base64, the page has to be one string of a browser.
const MOST = 2 ** 28;

/** The names of the cases. */
export const caseNames = CASES.map(({ name }) => name);

/**
 * Opens a case: its recording at its place, and a second one beside it if it has two. Without a recording, it is the file
 * that the server of the page follows. Only links of a page with several cases name them.
 * @param {{receiver: Receiver, compare: ComparePanel, growing: GrowingLine}} page
 * @param {string} name
 * @returns {boolean} whether there is such a case
 */
export function openCase(page, name) {
    const found = CASES.find(one => one.name === name);
    if (found?.files.length === 0) page.growing.start(new Served('bytes'), name, { place: found.place, note: found.note });
    else if (found) openFiles(page, found, CASES.length > 1 ? { example: name } : {});
    return Boolean(found);
}

async function openFiles({ receiver, compare }, { place, note, files: [first, second] }, from) {
    await receiver.open(new Blob([bytesOfText(first.bytes)]), first.name, { place, note, ...from });
    if (second) await compare.open(await unpacked(bytesOfText(second.bytes)), second.name);
}

/**
 * Shows the note of what is open above the view.
 * @param {App} app
 */
export function wireNote(app) {
    app.on('opened', () => {
        const { note } = app.recording;
        element('note').hidden = !note;
        element('note').textContent = note ?? '';
    });
}

/**
 * Returns this page with what is open inside, and what it is compared with. It opens at what is seen now.
 * @param {App} app
 * @param {Views} views
 * @returns {Promise<string>}
 * @throws {Error} if the recording has a fault, is changed (events of a changed capture have other numbers), or is too long
 */
export async function pageOfThis(app, views) {
    const { recording, beside, difference } = app, second = beside ? beside.second?.recording : difference;
    if (recording.isPart) throw new Error('the recording has a fault: make it whole first (psxgpu mend)');
    if (app.whatIf.count !== 0) throw new Error('packets are changed: save the changed capture, open it, then save the page');
    const files = await Promise.all([recording, ...(second ? [second] : [])].map(fileOf));
    return pageWith([{ name: recording.name, place: placeHere(app, views), note: recording.note ?? '', files }]);
}

async function fileOf({ name, source }) {
    const bytes = await gzipped(source);
    if (bytes.length > MOST) throw new Error(`${name} is too long for a page: cut it first (psxgpu page --frame)`);
    return { name, bytes: textOfBytes(bytes) };
}
