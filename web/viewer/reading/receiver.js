// Takes the files that a reader chooses or drops: recordings are opened, also in parts; for pictures and dumps, Compare
// is offered.

import { counted, element } from '../panels/dom.js';
import { Parts } from '../parts/parts.js';
import { recordingsOf, whyNotParts } from '../parts/part_files.js';
import { pictureKind } from './file_kind.js';

export class Receiver {
    /**
     * @param {App} app
     * @param {Views} views
     * @param {ComparePanel} compare
     */
    constructor(app, views, compare) { Object.assign(this, { app, views, compare }); }

    /**
     * Takes files that are chosen or dropped together: one, or the parts of one recording. Files that are no recordings
     * are left out.
     * @param {File[]} files
     * @param {object} from as for `open`
     */
    async openAll(files, from = {}) {
        if (files.length < 2) return files[0] && this.open(files[0], files[0].name, from);
        const found = await recordingsOf(files), why = whyNotParts(found);
        if (found.length === 1) return this.open(found[0].file, found[0].name, { ...from, handle: null });
        if (found.length === 0) this.app.warn(`None of these ${counted(files.length, 'files')} is a recording.`);
        else if (why) this.app.warn(`These are not the parts of one recording: ${why}. Drop one file to open it.`);
        else await new Parts(this.app, this.views, found).open(found.length - 1);
    }

    /**
     * @param {Blob} file
     * @param {string} name
     * @param {{example: string, isDropped: boolean}} from the example that it is, or whether it was dropped
     * @param {boolean} isAgreed whether changes that are not saved may be lost
     */
    async open(file, name, from = {}, isAgreed = false) {
        const { app, compare } = this, kind = await pictureKind(file), before = app.recording;
        if (kind) {
            app.say(`${name} is ${kind}, and not a recording. Compare shows where it differs from what is seen here.`,
                app.recording && { text: 'Compare it', does: () => { app.say(''); compare.open(file, name); } });
        } else if ((isAgreed || app.mayLeave(name, () => this.open(file, name, from, true)))
            && await app.open(file, name, from)) {
            element('list').focus({ preventScroll: true });
            if (from.isDropped && before) this.tellOfSecond(before);
        }
    }

    // A recording was dropped while another was open: it may have been meant for Compare.
    tellOfSecond(before) {
        const { app, compare } = this, { name, what } = app.recording;
        app.say(`${name} (${what}) is open now in place of ${before.name}.`, { text: `Compare it with ${before.name}`,
            does: () => { app.say(''); compare.open(before.source, before.name); } });
    }
}
