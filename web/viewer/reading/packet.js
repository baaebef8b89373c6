// A packet's words taken apart: vertices with their colours and texture coordinates, page, palette, rectangles.

import { colorOf, cornerOf, pageOf, paletteOf, texcoordOf, vertexOf } from './fields.js';
import { fillBox, sizeOf } from './grammar.js';
import { KIND } from './rows.js';

const FIXED = [0, 1, 8, 16];

/** `registers`: the values of E1h to E6h that are in force; `height`: of video memory. */
export function packetOf(kind, head, words, { registers, height }) {
    const opcode = head >>> 24;
    const flags = { semi: (opcode & 2) !== 0, shaded: (opcode & 16) !== 0, textured: (opcode & 4) !== 0,
        raw: (opcode & 5) === 5 };
    switch (kind) {
    case KIND.OTHER: return opcode === 2 ? { color: colorOf(words[0]), ...fillBox(words, height) } : {};
    case KIND.POLYGON: return { ...flags, ...polygonOf(words, flags, opcode, height) };
    case KIND.LINE: return { semi: flags.semi, shaded: flags.shaded, ...lineOf(words, flags.shaded) };
    case KIND.JOINT: return { semi: flags.semi, shaded: flags.shaded, ...jointOf(words, flags.shaded) };
    case KIND.RECTANGLE: return { ...flags, shaded: false, ...rectangleOf(words, opcode, registers, height) };
    case KIND.COPY: return { from: cornerOf(words[1], height), to: cornerOf(words[2], height), size: sizeOf(words[3]) };
    case KIND.LOAD: return { to: cornerOf(words[1], height), size: sizeOf(words[2]) };
    case KIND.STORE: return { from: cornerOf(words[1], height), size: sizeOf(words[2]) };
    default: return {};
    }
}

function polygonOf(words, { shaded, textured }, opcode, height) {
    const count = opcode & 8 ? 4 : 3, vertices = [], out = {};
    let at = 1, color = colorOf(words[0]);
    for (let k = 0; k < count; k++) {
        if (shaded && k > 0) color = colorOf(words[at++]);
        const vertex = { ...vertexOf(words[at++]), color };
        if (textured) {
            Object.assign(vertex, texcoordOf(words[at]));
            if (k === 0) out.palette = paletteOf(words[at] >>> 16);
            if (k === 1) out.page = pageOf(words[at] >>> 16, height);
            at++;
        }
        vertices.push(vertex);
    }
    return { ...out, color: colorOf(words[0]), vertices };
}

function lineOf(words, shaded) {
    const vertices = [{ ...vertexOf(words[1]), color: colorOf(words[0]) }];
    vertices.push({ ...vertexOf(words[shaded ? 3 : 2]), color: colorOf(words[shaded ? 2 : 0]) });
    return { color: colorOf(words[0]), vertices };
}

// A joint begins where the segment before it ended.
function jointOf(words, shaded) {
    const vertex = vertexOf(words[shaded ? 1 : 0]);
    return { vertices: [shaded ? { ...vertex, color: colorOf(words[0]) } : vertex] };
}

function rectangleOf(words, opcode, registers, height) {
    const size = FIXED[opcode >> 3 & 3], out = { color: colorOf(words[0]) }, textured = (opcode & 4) !== 0;
    const isFlipped = bit => (registers[0] >>> bit & 1) === 1;
    if (textured) {
        out.palette = paletteOf(words[2] >>> 16);
        out.page = pageOf(registers[0], height);
    }
    const last = words[words.length - 1];
    const vertex = { ...vertexOf(words[1]), color: out.color, ...(textured ? texcoordOf(words[2]) : {}) };
    out.size = size > 0 ? { w: size, h: size } : { w: last & 0x3FF, h: (last >>> 16) & 0x1FF };
    return { ...out, vertices: [vertex], flipX: isFlipped(12), flipY: isFlipped(13) };
}
