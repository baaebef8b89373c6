// Cells as pixels: colours of 15 bits as four bytes, texture pages, and the place of a pixel of the shown picture.

/** A channel of five bits as a byte. */
export const wide = channel => 8 * channel + (channel >> 2);

const RGBA = Uint32Array.from({ length: 65536 }, (_, cell) =>
    (0xFF000000 | wide(cell >> 10 & 31) << 16 | wide(cell >> 5 & 31) << 8 | wide(cell & 31)) >>> 0);

export const rgbaOf = cell => RGBA[cell];
export const cssOfCell = cell => `rgb(${wide(cell & 31)} ${wide(cell >> 5 & 31)} ${wide(cell >> 10 & 31)})`;

/** Cells as the pixels of an image of 1024 columns. */
export function imageOfCells(cells) {
    const pixels = new Uint32Array(cells.length);
    for (let k = 0; k < cells.length; k++) pixels[k] = RGBA[cells[k]];
    return new ImageData(new Uint8ClampedArray(pixels.buffer), 1024, cells.length >> 10);
}

/**
 * Returns a box of cells as an image.
 * @param {Uint16Array} cells rows of 1024
 * @param {{x: number, y: number, w: number, h: number}} box inside of them
 * @returns {ImageData}
 */
export function imageOfBox(cells, { x, y, w, h }) {
    const pixels = new Uint32Array(w * h);
    for (let row = 0, k = 0; row < h; row++) {
        const from = (y + row) * 1024 + x;
        for (let column = 0; column < w; column++) pixels[k++] = RGBA[cells[from + column]];
    }
    return new ImageData(new Uint8ClampedArray(pixels.buffer), w, h);
}

/** Returns a box of an image, inside of it. */
export function imagePart(image, { x, y, w, h }) {
    const from = new Uint32Array(image.data.buffer), pixels = new Uint32Array(w * h);
    for (let row = 0; row < h; row++) {
        const at = (y + row) * image.width + x;
        pixels.set(from.subarray(at, at + w), row * w);
    }
    return new ImageData(new Uint8ClampedArray(pixels.buffer), w, h);
}

export const imageOfPicture = ({ bytes, width, height }) => new ImageData(bytes, width, height);

/** The cell of a texel of a page, and the texel's value. */
export function texelOf(cells, { page, palette, depth }, u, v) {
    const height = cells.length >> 10, perCell = depth === 15 ? 1 : depth === 8 ? 2 : 4;
    const x = (page.x + Math.floor(u / perCell)) & 1023, y = (page.y + v) & (height - 1);
    const cell = cells[y * 1024 + x];
    if (depth === 15) return { x, y, value: cell };
    const index = depth === 8 ? cell >> 8 * (u & 1) & 255 : cell >> 4 * (u & 3) & 15;
    return { x, y, index, value: cells[palette.y * 1024 + ((palette.x + index) & 1023)] };
}

const CHEQUER = [0xFF444444, 0xFF555555], MARKED = 0xFFFF40FF;

// A page of 256 by 256 texels, each as `pixelOf(texel, u, v)` says.
function imageOfTexels(cells, how, pixelOf) {
    const pixels = new Uint32Array(65536);
    for (let v = 0; v < 256; v++) {
        for (let u = 0; u < 256; u++) pixels[v * 256 + u] = pixelOf(texelOf(cells, how, u, v), u, v);
    }
    return new ImageData(new Uint8ClampedArray(pixels.buffer), 256, 256);
}

/**
 * Returns a texture page as an image. Texels of value 0, which are not drawn, are a chequer; those of the index
 * `how.marked` are bright.
 */
export function imageOfPage(cells, how) {
    return imageOfTexels(cells, how, ({ value, index }, u, v) => {
        if (how.marked !== undefined && index === how.marked) return MARKED;
        return value !== 0 ? RGBA[value] : CHEQUER[(u ^ v) >> 2 & 1];
    });
}

/** Returns a texture page as an image in which texels of value 0 have alpha 0. */
export const pageWithAlpha = (cells, how) => imageOfTexels(cells, how, ({ value }) => value === 0 ? 0 : RGBA[value]);

/**
 * Returns the colour of a pixel of a picture of 24 bits; null if the picture has 15 bits a pixel, or no such pixel.
 * @param {{bytes: Uint8ClampedArray, width: number, height: number} | null} picture
 * @param {ArrayLike<number>} registers
 * @param {{x: number, y: number}} pixel
 * @returns {{hex: string, text: string} | null}
 */
export function deepPixel(picture, registers, { x, y }) {
    if (!picture || !shownBy(registers, 512).deep || x >= picture.width || y >= picture.height) return null;
    const at = 4 * (y * picture.width + x), [r, g, b] = picture.bytes.subarray(at, at + 3);
    const hex = [r, g, b].map(byte => byte.toString(16).padStart(2, '0')).join('');
    return { hex, text: `${hex}  red ${r}, green ${g}, blue ${b} of 24 bits` };
}

/** Where the shown picture is in video memory: the cell that a pixel begins in, and the pixel that a cell begins. */
export function shownBy(registers, height) {
    const start = { x: registers[8] & 1023, y: registers[8] >>> 10 & (height - 1) };
    const deep = (registers[11] >>> 4 & 1) === 1;
    return {
        start, deep,
        cellOf: (i, j) => ({ x: (start.x + (deep ? (3 * i) >> 1 : i)) & 1023, y: (start.y + j) & (height - 1) }),
        pixelOf: (x, y) => {
            const across = (x - start.x) & 1023;
            return { x: deep ? Math.ceil(2 * across / 3) : across, y: (y - start.y) & (height - 1) };
        },
    };
}
