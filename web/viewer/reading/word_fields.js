// What one word of a packet says: its fields, each with a name and a text. So the first word in which two packets differ is
// told by its fields.

import { BLENDS, colorOf, cornerOf, cssOf, pageOf, paletteOf, texcoordOf, vertexOf } from './fields.js';
import { sizeOf } from './grammar.js';
import { hex, nameOf } from './names.js';
import { KIND } from './rows.js';
import { controlText, pageText, settingText, tagsOf } from './words.js';

/** A name and a text.
 * @typedef {[string, string]} Field */

const at = ({ x, y }) => `(${x}, ${y})`;
const by = ({ w, h }) => `${w} × ${h}`;
const color = word => ['colour', cssOf(colorOf(word))];
const ORDINALS = ['first', 'second', 'third', 'fourth'];

/** @param {number} kind
 * @param {number} head
 * @returns {Field[]} */
const headFields = (kind, head) => [
    ['packet', [nameOf(kind, head), ...tagsOf(kind, head)].join(' ')],
    ...(kind >= KIND.COPY && kind <= KIND.STORE ? [] : [color(head)]),
];

// What each further word of a polygon, line or rectangle is: 'color', 'vertex' or 'texcoord', and of which vertex.
function layoutOf(kind, head, length) {
    const shaded = head >>> 28 & 1, textured = kind !== KIND.LINE && head >>> 26 & 1, out = [];
    for (let vertex = 0; out.length < length; vertex++) {
        if (shaded && vertex > 0) out.push(['color', vertex]);
        out.push(['vertex', vertex]);
        if (textured) out.push(['texcoord', vertex]);
    }
    return out;
}

function texcoordFields(word, vertex, height) {
    const { u, v } = texcoordOf(word), out = [[`u, v of the ${ORDINALS[vertex]} vertex`, `${u}, ${v}`]];
    if (vertex === 0) out.push(['palette', at(paletteOf(word >>> 16))]);
    if (vertex === 1) {
        const page = pageOf(word >>> 16, height);
        out.push(['texture page', pageText(page)], ['blending', BLENDS[page.blend]]);
    }
    return out;
}

function shapeFields(kind, head, index, word, height) {
    const [what, vertex] = layoutOf(kind, head, index)[index - 1];
    if (what === 'color') return [[`colour of the ${ORDINALS[vertex]} vertex`, cssOf(colorOf(word))]];
    if (what === 'texcoord') return texcoordFields(word, vertex, height);
    return [[`${ORDINALS[vertex] ?? 'a later'} vertex`, at(vertexOf(word))]];
}

function rectangleFields(head, index, word, height) {
    if (index === 1) return [['corner', at(vertexOf(word))]];
    if (index === 2 && head >>> 26 & 1) {
        return texcoordFields(word, 0, height).map(([, text], k) => [['u, v', 'palette'][k], text]);
    }
    return [['size', by({ w: word & 0x3FF, h: word >>> 16 & 0x1FF })]];
}

// Corners and sizes of fills and transfers, and the cells of a load.
function transferFields(kind, index, word, height) {
    const corners = { [KIND.COPY]: ['source', 'target'], [KIND.LOAD]: ['target'], [KIND.STORE]: ['source'],
        [KIND.OTHER]: ['corner'] }[kind];
    if (index <= corners.length) return [[corners[index - 1], at(cornerOf(word, height))]];
    if (index > corners.length + 1) return [['cells', `${hex(word & 0xFFFF, 4)} ${hex(word >>> 16, 4)}`]];
    return [['size', by(kind === KIND.OTHER ? { w: word & 0x3FF, h: word >>> 16 & 0x1FF } : sizeOf(word))]];
}

/**
 * Returns the fields of a word of a packet, or of a word for GP1.
 * @param {{kind: number, head: number, height: number}} packet `height`: of video memory
 * @param {number} index of the word
 * @param {number} word
 * @returns {Field[]}
 */
export function fieldsOfWord({ kind, head, height }, index, word) {
    if (kind === KIND.GP1) return [[nameOf(kind, word), controlText(word, height)]];
    if (kind === KIND.SETTING) return [tagsOf(kind, word).concat('setting').slice(0, 1).concat(settingText(word, height))];
    if (kind === KIND.JOINT) return [index === 0 && head >>> 28 & 1 ? color(word) : ['vertex', at(vertexOf(word))]];
    if (index === 0) return headFields(kind, word);
    if (kind === KIND.POLYGON || kind === KIND.LINE) return shapeFields(kind, head, index, word, height);
    if (kind === KIND.RECTANGLE) return rectangleFields(head, index, word, height);
    return kind <= KIND.STORE ? transferFields(kind, index, word, height) : [];
}

/**
 * Returns the first word in which two packets of one kind differ, and those of its fields that differ.
 * @param {{kind: number, head: number, words: number[], height: number}} a
 * @param {{kind: number, head: number, words: number[], height: number}} b
 * @returns {{index: number, words: [number, number], fields: {name: string, texts: [string, string]}[]} | null} null if one
 *     has more words, or if they are not of one kind
 */
export function wordApart(a, b) {
    const index = a.words.findIndex((word, k) => word !== b.words[k]);
    if (a.kind !== b.kind || index < 0 || index >= b.words.length) return null;
    const [ours, theirs] = [a, b].map(packet => fieldsOfWord(packet, index, packet.words[index]));
    const fields = ours.map(([name, text], k) => ({ name, texts: [text, theirs[k]?.[1] ?? ''] }))
        .filter(({ name, texts }, k) => texts[0] !== texts[1] || name !== (theirs[k]?.[0] ?? name));
    return { index, words: [a.words[index], b.words[index]], fields };
}
