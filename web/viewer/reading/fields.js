// The fields of words, by docs/CAPTURE.md: places, colours, pages, palettes.

const signed11 = value => (value & 0x7FF) << 21 >> 21;

export const vertexOf = word => ({ x: signed11(word), y: signed11(word >>> 16) });
export const cornerOf = (word, height) => ({ x: word & 0x3FF, y: (word >>> 16) & (height - 1) });
export const colorOf = word => word & 0xFFFFFF;
const byteOf = value => (value & 255).toString(16).padStart(2, '0');
export const cssOf = color => `#${byteOf(color)}${byteOf(color >> 8)}${byteOf(color >> 16)}`;
export const texcoordOf = word => ({ u: word & 0xFF, v: (word >>> 8) & 0xFF });
export const paletteOf = attribute => ({ x: (attribute & 0x3F) * 16, y: (attribute >>> 6) & 0x1FF });
export const offsetOf = word => ({ x: signed11(word), y: signed11(word >>> 11) });
export const placeOf = (word, height) => ({ x: word & 0x3FF, y: (word >>> 10) & (height - 1) });

/** A texture page, as E1h and the second texcoord of a polygon have it. */
export function pageOf(word, height) {
    return {
        x: (word & 15) * 64,
        y: (word >>> 4 & 1) * 256 + (height === 1024 ? (word >>> 11 & 1) * 512 : 0),
        blend: word >>> 5 & 3,
        depth: [4, 8, 15, 15][word >>> 7 & 3],
    };
}

/** A texture window, in texels. */
export function windowOf(word) {
    const field = at => (word >>> at & 31) * 8;
    return { maskX: field(0), maskY: field(5), x: field(10), y: field(15) };
}

export const BLENDS = ['B/2 + F/2', 'B + F', 'B − F', 'B + F/4'];

/** The channels of a cell. */
export const channelsOf = cell => ({ r: cell & 31, g: cell >> 5 & 31, b: cell >> 10 & 31, mask: cell >> 15 });
