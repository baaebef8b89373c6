// The fields of a packet that can be changed, each with the bits of a word that have it.

import { BLENDS, colorOf } from '../reading/fields.js';
import { KIND } from '../reading/rows.js';

/** A number in a word: `read` returns it, `write` returns the word with another one.
 * @typedef {{read: (word: number) => number, write: (word: number, value: number) => number, least: number, most: number}}
 *     Part */

/** A field: the line that it is shown in, its name, the index of its word, what it is ('numbers', 'color', 'flag' or
 * 'choice'), its numbers, and the texts of a choice.
 * @typedef {{line: string, name: string, index: number, as: string, parts: Part[], choices?: string[]}} Field */

// `width` bits from `at` on. `scale`: what a step of them is worth.
function bits(at, width, { isSigned = false, scale = 1 } = {}) {
    const mask = (1 << width) - 1, half = 1 << (width - 1);
    return {
        least: isSigned ? -half : 0, most: (isSigned ? half - 1 : mask) * scale,
        read: word => {
            const value = word >>> at & mask;
            return (isSigned && value >= half ? value - mask - 1 : value) * scale;
        },
        write: (word, value) => ((word & ~(mask << at)) | (Math.round(value / scale) & mask) << at) >>> 0,
    };
}

// A size of 1 to 2^width, of which the greatest is written as 0.
function size(at, width) {
    const part = bits(at, width), most = 1 << width;
    return { ...part, least: 1, most, read: word => part.read(word) || most };
}

// The row of a texture page: with 1024 rows of video memory another bit counts 512.
function pageRow(at, height) {
    const low = bits(at + 4, 1, { scale: 256 }), high = bits(at + 11, 1, { scale: 512 });
    if (height < 1024) return low;
    return { least: 0, most: 768, read: word => low.read(word) + high.read(word),
        write: (word, value) => high.write(low.write(word, value & 256), value & 512) };
}

const field = (line, name, index, as, parts, choices) => ({ line, name, index, as, parts, choices });
const numbers = (line, name, index, ...parts) => field(line, name, index, 'numbers', parts);
const flag = (line, name, index, at) => field(line, name, index, 'flag', [bits(at, 1)]);
const color = (line, index) => field(line, 'colour', index, 'color', [{ ...bits(0, 24), read: colorOf }]);
const signed = at => bits(at, 11, { isSigned: true });
const vertex = (line, index) => numbers(line, 'x, y', index, signed(0), signed(16));
const texcoord = (line, index) => numbers(line, 'u, v', index, bits(0, 8), bits(8, 8));
const palette = index => numbers('palette', 'x, y', index, bits(16, 6, { scale: 16 }), bits(22, 9));

const page = (index, at, height) => [
    numbers('texture page', 'x, y', index, bits(at, 4, { scale: 64 }), pageRow(at, height)),
    field('texture page', 'depth', index, 'choice', [bits(at + 7, 2)], ['4 bits', '8 bits', '15 bits', '15 bits (3)']),
    field('blending', 'blending', index, 'choice', [bits(at + 5, 2)], BLENDS),
];

const headFlags = isTextured => [flag('flags', 'semi', 0, 25), ...(isTextured ? [flag('flags', 'raw', 0, 24)] : [])];

// Vertices from a word on, `count` of them: those of a polygon, line or joint.
function verticesOf({ isShaded, isTextured, height }, from, count) {
    const out = [];
    for (let k = 0, at = from; k < count; k++) {
        const line = `vertex ${k + 1}`;
        if (isShaded && k > 0) out.push(color(line, at++));
        out.push(vertex(line, at++));
        if (!isTextured) continue;
        out.push(texcoord(line, at), ...(k === 0 ? [palette(at)] : k === 1 ? page(at, 16, height) : []));
        at++;
    }
    return out;
}

function rectangleFields(isTextured, isFree) {
    const last = isTextured ? 3 : 2;
    return [...headFlags(isTextured), color('colour', 0), vertex('corner', 1),
        ...(isTextured ? [texcoord('corner', 2), palette(2)] : []),
        ...(isFree ? [numbers('size', 'width, height', last, bits(0, 10), bits(16, 9))] : [])];
}

// Corners and the size of a fill, copy, load or store.
function boxFields(kind, height) {
    const corner = (line, index) => numbers(line, 'x, y', index, bits(0, 10), bits(16, height === 1024 ? 10 : 9));
    const sized = index => numbers('size', 'width, height', index, size(0, 10), size(16, 9));
    switch (kind) {
    case KIND.COPY: return [corner('from', 1), corner('to', 2), sized(3)];
    case KIND.LOAD: return [corner('to', 1), sized(2)];
    case KIND.STORE: return [corner('from', 1), sized(2)];
    default: return [color('colour', 0), corner('corner', 1),
        numbers('size', 'width, height', 2, bits(0, 10), bits(16, 9))];
    }
}

function settingFields(opcode, height) {
    const eights = at => bits(at, 5, { scale: 8 }), rows = height === 1024 ? 10 : 9;
    switch (opcode) {
    case 0xE1: return [...page(0, 0, height), ...[['dither', 9], ['to display', 10], ['flip X', 12], ['flip Y', 13]]
        .map(([name, at]) => flag('flags', name, 0, at))];
    case 0xE2: return [numbers('mask', 'x, y', 0, eights(0), eights(5)),
        numbers('offset', 'x, y', 0, eights(10), eights(15))];
    case 0xE3: case 0xE4: return [numbers('corner', 'x, y', 0, bits(0, 10), bits(10, rows))];
    case 0xE5: return [numbers('offset', 'x, y', 0, signed(0), signed(11))];
    case 0xE6: return [flag('flags', 'sets bit 15', 0, 0), flag('flags', 'keeps cells with bit 15', 0, 1)];
    default: return [];
    }
}

/**
 * Returns the fields of a row that can be changed.
 * @param {{kind: number, head: number, height: number}} packet `height`: of video memory
 * @returns {Field[]}
 */
export function fieldsToChange({ kind, head, height }) {
    const opcode = head >>> 24, isTextured = (opcode & 4) !== 0, isShaded = (opcode & 16) !== 0;
    switch (kind) {
    case KIND.POLYGON:
        return [...headFlags(isTextured), color('colour', 0),
            ...verticesOf({ isShaded, isTextured, height }, 1, opcode & 8 ? 4 : 3)];
    case KIND.LINE: return [...headFlags(false), color('colour', 0), ...verticesOf({ isShaded }, 1, 2)];
    case KIND.JOINT: return isShaded ? [color('vertex', 0), vertex('vertex', 1)] : [vertex('vertex', 0)];
    case KIND.RECTANGLE: return rectangleFields(isTextured, (opcode >> 3 & 3) === 0);
    case KIND.SETTING: return settingFields(opcode, height);
    case KIND.OTHER: return opcode === 2 ? boxFields(kind, height) : [];
    default: return kind === KIND.FINISH ? [] : boxFields(kind, height);
    }
}
