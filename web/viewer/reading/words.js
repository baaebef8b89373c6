// A row in words: what it is in short, and all its fields.

import { KIND } from './rows.js';
import { BLENDS, colorOf, cssOf, offsetOf, placeOf, pageOf, windowOf } from './fields.js';
import { hex, nameOf } from './names.js';
import { texelBox } from './texels.js';

const at = ({ x, y }) => `(${x}, ${y})`;
const by = ({ w, h }) => `${w} × ${h}`;
const yes = (bit, text) => bit ? [text] : [];

export const pageText = ({ x, y, depth }) => `(${x}, ${y}), ${depth} bits`;

/** The words by which a row is found, and which the list shows. */
export function tagsOf(kind, head) {
    const bit = k => (head >>> k & 1) === 1;
    if (kind === KIND.POLYGON) {
        return [bit(27) ? 'quad' : 'triangle', ...yes(bit(28), 'shaded'), ...yes(bit(26), 'textured'),
            ...yes(bit(26) && bit(24), 'raw'), ...yes(bit(25), 'semi')];
    }
    if (kind === KIND.LINE || kind === KIND.JOINT) {
        return [...yes(kind === KIND.JOINT, 'joint'), ...yes(bit(27), 'polyline'), ...yes(bit(28), 'shaded'),
            ...yes(bit(25), 'semi')];
    }
    if (kind === KIND.RECTANGLE) {
        return [...yes(bit(26), 'textured'), ...yes(bit(26) && bit(24), 'raw'), ...yes(bit(25), 'semi')];
    }
    return kind === KIND.SETTING ? [settingName(head)] : [];
}

const SETTINGS = { 0xE1: 'draw mode', 0xE2: 'texture window', 0xE3: 'drawing area from', 0xE4: 'drawing area to',
    0xE5: 'drawing offset', 0xE6: 'mask setting' };
const settingName = head => SETTINGS[head >>> 24] ?? '';

/** The colour in a row's first word, or null. */
export function colorIn(kind, head) {
    const isFill = kind === KIND.OTHER && head >>> 24 === 2;
    const has = isFill || kind === KIND.POLYGON || kind === KIND.LINE || kind === KIND.RECTANGLE;
    return has ? cssOf(colorOf(head)) : null;
}

/** What a word of E1h to E6h says. */
export function settingText(word, height) {
    switch (word >>> 24) {
    case 0xE1: {
        const page = pageOf(word, height);
        return [`page ${pageText(page)}, ${BLENDS[page.blend]}`, ...yes(word >>> 9 & 1, 'dither'),
            ...yes(word >>> 10 & 1, 'draws to the display'), ...yes(word >>> 12 & 1, 'X flip'),
            ...yes(word >>> 13 & 1, 'Y flip')].join(', ');
    }
    case 0xE2: {
        const { maskX, maskY, x, y } = windowOf(word);
        return `mask ${at({ x: maskX, y: maskY })}, offset ${at({ x, y })}`;
    }
    case 0xE3: case 0xE4: return at(placeOf(word, height));
    case 0xE5: return at(offsetOf(word));
    case 0xE6: return ['bit 15 is ' + (word & 1 ? 'set' : 'left') + ' in what is written',
        'cells whose bit 15 is 1 are ' + (word & 2 ? 'kept' : 'written')].join(', ');
    default: return '';
    }
}

/** What a word for GP1 says. */
export function controlText(word, height) {
    const low = word & 0xFFF, high = word >>> 12 & 0xFFF;
    switch (word >>> 24 & 0x3F) {
    case 0x03: return word & 1 ? 'off' : 'on';
    case 0x04: return String(word & 3);
    case 0x05: return at(placeOf(word, height));
    case 0x06: return `cycles ${low} to ${high}`;
    case 0x07: return `lines ${word & 0x3FF} to ${word >>> 10 & 0x3FF}`;
    case 0x08: return modeText(word);
    default: return '';
    }
}

export function modeText(word) {
    const width = word & 0x40 ? 368 : [256, 320, 512, 640][word & 3];
    return [`${width} columns`, ...yes(word & 4, 'double height'), word & 8 ? 'PAL' : 'NTSC',
        ...yes(word & 16, '24 bits a pixel'), ...yes(word & 32, 'interlaced')].join(', ');
}

// What the list writes of a setting: as settingText, but short enough for a column.
function shortSetting(word, height) {
    switch (word >>> 24) {
    case 0xE1: {
        const { x, y, depth, blend } = pageOf(word, height);
        const flips = [...yes(word >>> 12 & 1, ' X'), ...yes(word >>> 13 & 1, ' Y')].join('');
        return [`${at({ x, y })} ${depth} bits ${BLENDS[blend].replaceAll(' ', '')}`, ...yes(word >>> 9 & 1, 'dither'),
            ...yes(word >>> 10 & 1, 'to display'), ...yes(flips, `flip${flips}`)].join(' ');
    }
    case 0xE2: {
        const { maskX, maskY, x, y } = windowOf(word);
        return `window ${at({ x: maskX, y: maskY })} at ${at({ x, y })}`;
    }
    case 0xE3: return `area from ${settingText(word, height)}`;
    case 0xE4: return `area to ${settingText(word, height)}`;
    case 0xE5: return `offset ${settingText(word, height)}`;
    default: return `mask bit ${word & 1 ? 'set' : 'left'}, masked cells ${word & 2 ? 'kept' : 'written'}`;
    }
}

// The display mode with what is seldom first.
function shortMode(word) {
    const width = word & 0x40 ? 368 : [256, 320, 512, 640][word & 3];
    return [`${width} wide`, ...yes(word & 16, '24 bits'), word & 8 ? 'PAL' : 'NTSC', ...yes(word & 4, '2x'),
        ...yes(word & 32, 'interlaced')].join(' ');
}

/** A row in short. */
export function shortOf(kind, head, height) {
    if (kind === KIND.GP1) return (head >>> 24 & 0x3F) === 8 ? shortMode(head) : controlText(head, height);
    if (kind === KIND.SETTING && settingName(head)) return shortSetting(head, height);
    return tagsOf(kind, head).join(' ');
}

// The polygons and lines that dithering changes, by docs/MACHINE.md.
function canDither(kind, { shaded, textured, raw }) {
    return kind === KIND.LINE || kind === KIND.JOINT || (kind === KIND.POLYGON && (textured ? !raw : shaded));
}

// What is read of the texture, and what is in force for the packet beside its own words.
function forceOf(kind, packet, registers) {
    const texels = texelBox(packet, registers), setting = (opcode, bits) => {
        const value = registers[opcode - 0xE1] & bits;
        return value !== 0 && settingText((opcode << 24 | value) >>> 0, 512);
    };
    const isDrawn = kind >= KIND.POLYGON && (kind <= KIND.LOAD || kind === KIND.JOINT);
    return [
        packet.page && setting(0xE2, 0xFFFFF) && ['texture window', setting(0xE2, 0xFFFFF)],
        texels && ['texels', `u ${texels.u1} to ${texels.u2}, v ${texels.v1} to ${texels.v2}`],
        canDither(kind, packet) && (registers[0] >>> 9 & 1) === 1 && ['dither', 'dithered'],
        isDrawn && setting(0xE6, 3) && ['mask setting', setting(0xE6, 3)],
    ];
}

/** The fields of a packet: pairs of a label and a text. `registers`: those after its words. */
export function fieldsOf(kind, head, packet, registers) {
    const { from, to, size, page, palette, flipX, flipY } = packet, what = tagsOf(kind, head).join(', ');
    const blend = page ?? pageOf(registers[0], 512);
    return [
        what && kind !== KIND.SETTING && ['what', what],
        kind === KIND.RECTANGLE && ['at', at(packet.vertices[0])],
        from && ['from', at(from)], to && ['to', at(to)], size && ['size', by(size)],
        page && ['texture page', pageText(page)],
        page && page.depth < 15 && ['palette', at(palette)],
        packet.semi && ['semi-transparent', BLENDS[blend.blend]],
        (flipX || flipY) && packet.page && ['flip', [...yes(flipX, 'X'), ...yes(flipY, 'Y')].join(' ')],
        ...forceOf(kind, packet, registers),
    ].filter(Boolean);
}

/** A row as text for the clipboard. */
export function copyOf(kind, head, words) {
    const port = kind === KIND.GP1 ? 'gp1' : 'gp0';
    return `${port} ${words.map(word => hex(word)).join(' ')}    # ${nameOf(kind, head)}\n`;
}
