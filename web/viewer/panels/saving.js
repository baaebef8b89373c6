// What leaves the page: files that are saved, text for the clipboard, a link to a place.

import { addressOf } from '../playing/address.js';
import { changedFile, cutChanged } from '../changing/changed_file.js';
import { Machine } from '../playing/machine.js';
import { cutAt } from '../playing/cut.js';
import { counted, element, made } from './dom.js';
import { linkTo } from './link.js';
import { makeMenu } from './menu.js';
import { rowHere } from './packet_panel.js';
import { pageWithAlpha } from '../views/pixels.js';
import { copyOf } from '../reading/words.js';
import { pageOfThis } from '../inside/cases.js';

const CHOICES = {
    png: 'PNG of this view', texture: 'PNG of the texture page, with alpha', vram: 'Video memory (bytes)',
    ppm: 'Picture (PPM)', cut: 'Capture cut at this place', changed: 'Changed capture', words: 'Copy the words of the packet',
    link: 'Copy a link to this place', page: 'Page with this place',
};

export function save(parts, name, type = 'application/octet-stream') {
    const url = URL.createObjectURL(new Blob(parts, { type }));
    Object.assign(made('a'), { href: url, download: name }).click();
    setTimeout(() => URL.revokeObjectURL(url), 10000);
}

const shortened = text => text.length > 400 ? `${text.slice(0, 400)}…` : text;

/** The picture as `shot` writes it. */
export function ppmOf({ width, height, bytes }) {
    const pixels = new Uint8Array(3 * width * height);
    for (let k = 0; k < width * height; k++) pixels.set(bytes.subarray(4 * k, 4 * k + 3), 3 * k);
    return [`P6\n${width} ${height}\n255\n`, pixels];
}

export class Out {
    /** `follower` is what follows links. */
    constructor(app, views) {
        Object.assign(this, { app, views, follower: null });
        makeMenu(element('out'), Object.entries(CHOICES).map(([what, text]) => ({ text, does: () => this.does(what) })));
    }

    does(what) {
        const { app } = this;
        if (!app.recording) app.say('Nothing is open yet: open a recording, or choose an example.');
        else this[what]().catch(fault => app.warn(`${CHOICES[what]}: ${fault.message}`));
    }

    get stem() { return this.app.recording.name.replace(/\.[a-z0-9.]*$/i, ''); }

    get base() { return `${this.stem}-${this.place}`; }

    get place() { return addressOf(this.app.recording, this.app.at); }

    async png() {
        const { view, name } = this.views;
        if (!view.image) throw new Error('there is no picture here');
        const blob = await new Promise(go => view.source.toBlob(go));
        save([blob], `${this.base}-${name}.png`, 'image/png');
    }

    // The page that Texture shows. Texels of value 0, which are not drawn, have alpha 0.
    async texture() {
        const { app, views } = this, image = pageWithAlpha(app.cells, views.choice.how(rowHere(app)));
        const canvas = Object.assign(made('canvas'), { width: image.width, height: image.height });
        canvas.getContext('2d').putImageData(image, 0, 0);
        save([await new Promise(go => canvas.toBlob(go))], `${this.base}-texture-alpha.png`, 'image/png');
    }

    async vram() { save([this.app.cells], `${this.base}.vram`); }

    async ppm() {
        if (!this.app.picture) throw new Error('there is no picture here');
        save(ppmOf(this.app.picture), `${this.base}.ppm`);
    }

    async words() {
        const here = rowHere(this.app);
        if (!here?.words.length) throw new Error('there is no packet here');
        await this.copy(copyOf(here.kind, here.head, this.app.recording.wordsOf(here.row)), 'the words');
    }

    async cut() { save(await this.cutParts(), `${this.base}.snapshot`); }

    // The whole recording with its changes.
    async changed() {
        const { app } = this, { recording, whatIf } = app;
        if (whatIf.count === 0) throw new Error('nothing is changed: leave a packet out, or change its words');
        const { parts, transfers } = await changedFile(recording), what = recording.start ? 'snapshot' : 'capture';
        const name = `${this.stem}-changed.${what}`;
        save(parts, name);
        whatIf.saved();
        app.say(`Saved ${name}: ${counted(whatIf.count, 'packets')} changed.` + (transfers === 0 ? '' : ` The words of `
            + `${counted(transfers, 'events')} of DMA with changed packets are words for GP0 in it.`));
    }

    async cutParts() {
        const { app } = this;
        if (app.recording.eventAt(app.at) === 0) throw new Error('nothing is played yet: choose a later event');
        this.machine ??= new Machine(app.library);
        const machines = { player: app.player, machine: this.machine };
        return app.whatIf.count === 0 ? cutAt(app.recording, app.at, machines)
            : cutChanged(app.recording, app.at, machines, app.library);
    }

    // A link to what is seen, in the same recording.
    async link() {
        this.follower.set(linkTo(this.app, this.views));
        await this.copy(location.href, 'the link');
    }

    // A page with the recording inside, that opens at what is seen.
    async page() { save([await pageOfThis(this.app, this.views)], `${this.base}.html`, 'text/html'); }

    async copy(text, what) {
        try {
            await navigator.clipboard.writeText(text);
            this.app.say(`Copied ${what}: ${shortened(text)}`);
        } catch {
            this.app.say(text);
        }
    }
}
