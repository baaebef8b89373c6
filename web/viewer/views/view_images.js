// What each view shows at a place: its image, the cell below each of its pixels, and the pixel above a cell.

import { placeOf } from '../reading/fields.js';
import { imageOfBox, imageOfCells, imageOfPage, imageOfPicture, shownBy, texelOf } from './pixels.js';

/** The views, in the order of their tabs. */
export const VIEWS = ['picture', 'drawn', 'memory', 'texture'];

/** What a view without an image says. */
export const EMPTY = {
    picture: 'There is no shown picture here: its width or height is 0.',
    drawn: 'There is no drawing area here: its width or height is 0.',
};

/**
 * Returns the drawing area of registers E3h and E4h, or null if it is empty.
 * @param {Uint32Array} registers
 * @param {number} height of video memory
 * @returns {{x: number, y: number, w: number, h: number} | null}
 */
export function drawingArea(registers, height) {
    const near = placeOf(registers[2], height), far = placeOf(registers[3], height);
    const [w, h] = [far.x - near.x + 1, far.y - near.y + 1];
    return w > 0 && h > 0 ? { x: near.x, y: near.y, w, h } : null;
}

/**
 * Returns what a view shows.
 * @param {string} name one of VIEWS
 * @param {{cells: Uint16Array, picture: object, registers: Uint32Array}} seen the state at a place
 * @param {object} how for 'texture': how the page is read
 * @returns {{image: ImageData | null, cellAt: Function, pixelAt: Function, offset: Function}} `cellAt(x, y)` is the
 *     cell of a pixel, `pixelAt(cell)` the pixel of a cell or null, `offset(x, y)` the place of a cell in the image,
 *     also outside of it
 */
export function lookOf(name, seen, how) {
    return { picture: lookOfPicture, drawn: lookOfDrawn, memory: lookOfMemory, texture: lookOfTexture }[name](seen, how);
}

function lookOfMemory({ cells }) {
    const same = (x, y) => ({ x, y });
    return { image: imageOfCells(cells), cellAt: same, pixelAt: cell => cell, offset: same };
}

function lookOfDrawn({ cells, registers }) {
    const height = cells.length >> 10, area = drawingArea(registers, height);
    if (!area) return { image: null, cellAt: () => null, pixelAt: () => null, offset: null };
    const offset = (x, y) => ({ x: x - area.x, y: y - area.y });
    return {
        image: imageOfBox(cells, area), offset, area,
        cellAt: (x, y) => ({ x: area.x + x, y: area.y + y }),
        pixelAt: ({ x, y }) => within(offset(x, y), area.w, area.h),
    };
}

function lookOfPicture({ cells, picture, registers }) {
    const { start, deep, cellOf, pixelOf } = shownBy(registers, cells.length >> 10);
    return {
        image: picture && imageOfPicture(picture), cellAt: cellOf,
        pixelAt: ({ x, y }) => picture && within(pixelOf(x, y), picture.width, picture.height),
        offset: deep ? null : (x, y) => ({ x: x - start.x, y: y - start.y }),
    };
}

function lookOfTexture({ cells }, how) {
    const cellAt = (u, v) => texelOf(cells, how, u, v);
    return { image: imageOfPage(cells, how), cellAt, pixelAt: () => null, offset: null };
}

const within = (place, width, height) =>
    place.x >= 0 && place.y >= 0 && place.x < width && place.y < height ? place : null;
