// What is compared with what is seen: video memory as `vram` writes it, the picture as `shot` does, or a PNG of one.

import { BIT_15, bandsText, cellSteps, pixelSteps } from './difference_steps.js';
import { rampColor } from '../costs/overdraw.js';
import { imageOfCells, imageOfPicture } from '../views/pixels.js';

const DUMPS = [1048576, 2097152];

/** Returns the pixels of a PNG as they are in the file. */
export async function pixelsOfPng(blob) {
    const image = await createImageBitmap(blob, { colorSpaceConversion: 'none', premultiplyAlpha: 'none' });
    const canvas = new OffscreenCanvas(image.width, image.height), context = canvas.getContext('2d');
    context.drawImage(image, 0, 0);
    return context.getImageData(0, 0, image.width, image.height);
}

function pixelsOfPpm(bytes) {
    const text = new TextDecoder('latin1').decode(bytes.subarray(0, 64));
    const head = /^P6\s+(\d+)\s+(\d+)\s+255\s/.exec(text);
    if (!head) throw new Error('no PPM of 255 steps');
    const [width, height] = [Number(head[1]), Number(head[2])], from = head[0].length;
    if (bytes.length < from + 3 * width * height) throw new Error('this PPM is not whole');
    const image = new ImageData(width, height);
    for (let k = 0; k < width * height; k++) {
        image.data.set(bytes.subarray(from + 3 * k, from + 3 * k + 3), 4 * k);
        image.data[4 * k + 3] = 255;
    }
    return image;
}

// What differs, bright; and by its size in steps of 31, in the scale of overdraw: bit 15 alone is violet.
const BRIGHT = 0xFF6D4DFF;
const STEP_COLORS = Uint32Array.from({ length: 256 }, (_, size) => {
    const [r, g, b] = size === BIT_15 ? [190, 90, 255] : rampColor(size);
    return (0xFF000000 | b << 16 | g << 8 | r) >>> 0;
});

const copyOf = image => new ImageData(new Uint8ClampedArray(image.data), image.width, image.height);

/** Reads a second dump: cells, or pixels with the view that they are of. */
export async function readDump(blob) {
    const bytes = new Uint8Array(await blob.arrayBuffer());
    if (bytes[0] === 0x89 && bytes[1] === 0x50) return ofPixels(await pixelsOfPng(blob));
    if (bytes[0] === 0x50 && bytes[1] === 0x36) return ofPixels(pixelsOfPpm(bytes));
    if (DUMPS.includes(bytes.length)) return { view: 'memory', cells: new Uint16Array(bytes.buffer) };
    throw new Error(`it has ${bytes.length} bytes and is neither a recording, nor a dump of video memory (1 or 2 MB), `
        + 'nor a PPM or PNG');
}

function ofPixels(image) {
    const isMemory = image.width === 1024 && image.height >= 512;
    return { view: isMemory ? 'memory' : 'picture', image };
}

/** Where the dump differs from what is seen at a place. */
export class Difference {
    /**
     * @param {{view: string, cells: Uint16Array} | {view: string, image: ImageData}} dump
     * @param {string} name
     * @param {boolean} isBeside whether it is seen beside the view, so that the view itself stays as it is
     */
    constructor(dump, name, isBeside = false) {
        Object.assign(this, { ...dump, name, isBeside, count: 0, first: null, box: null });
    }

    // Looks again; an error where the sizes differ.
    look(app) {
        const own = this.cells ? app.cells : this.ownImage(app);
        const theirs = this.cells ?? new Uint32Array(this.image.data.buffer);
        this.width = this.cells ? 1024 : this.image.width;
        if (!own || own.length !== theirs.length) {
            this.problem = 'The sizes differ here.';
            this.count = 0;
            this.first = null;
            this.box = null;
            return;
        }
        this.problem = null;
        this.compare(own, theirs, app.comparing.tolerance);
    }

    ownImage(app) {
        if (this.view === 'memory') return new Uint32Array(imageOfCells(app.cells).data.buffer);
        const { picture } = app;
        return picture?.width === this.image.width ? new Uint32Array(picture.bytes.buffer) : null;
    }

    // Compares cells or pixels. Those that are at most `tolerance` steps apart count as equal.
    compare(own, theirs, tolerance) {
        const stepsOf = this.cells ? cellSteps : pixelSteps;
        this.steps = new Uint8Array(own.length);
        let count = 0, first = -1, x1 = this.width, y1 = Infinity, x2 = -1, y2 = -1;
        for (let k = 0; k < own.length; k++) {
            const size = own[k] === theirs[k] ? 0 : stepsOf(own[k], theirs[k]);
            if (size <= tolerance) continue;
            this.steps[k] = size;
            if (count++ === 0) first = k;
            const x = k % this.width, y = (k - x) / this.width;
            x1 = Math.min(x1, x); x2 = Math.max(x2, x);
            y1 = Math.min(y1, y); y2 = y;
        }
        this.count = count;
        this.first = null;
        this.box = null;
        if (first < 0) return;
        const x = first % this.width, y = (first - x) / this.width;
        this.first = { x, y, own: own[first], theirs: theirs[first] };
        this.box = { x1, y1, x2, y2 };
    }

    /** How many differ by how much, in words. */
    get bands() { return bandsText(this.steps, Boolean(this.cells)); }

    /**
     * Returns an image in place of what is seen.
     * @param {'theirs' | 'pale' | 'steps'} as the compared file; what is seen, pale, with what differs bright; or what
     *     differs in colours by its size, the rest dark
     * @param {App} app
     * @returns {ImageData | null}
     */
    imageAs(as, app) {
        if (as === 'theirs') return this.cells ? imageOfCells(this.cells) : copyOf(this.image);
        const image = this.view === 'memory' ? imageOfCells(app.cells)
            : app.picture && imageOfPicture({ ...app.picture, bytes: app.picture.bytes.slice() });
        if (!image) return null;
        const pixels = new Uint32Array(image.data.buffer), [part, least, colorOf] = as === 'pale' ? [9, 24, () => BRIGHT]
            : [18, 8, size => STEP_COLORS[this.cells ? size : size === 0 ? 0 : Math.max(1, size >> 3)]];
        for (let k = 0; k < pixels.length; k++) {
            const grey = ((pixels[k] & 255) + (pixels[k] >> 8 & 255) + (pixels[k] >> 16 & 255)) / part + least;
            pixels[k] = this.steps[k] ? colorOf(this.steps[k]) : (0xFF000000 | grey << 16 | grey << 8 | grey) >>> 0;
        }
        return image;
    }
}
