// The grammar of GP0 as docs/CAPTURE.md has it: lengths of packets, sizes of transfers and fills, the end word of a polyline.
// Every other module takes these from here.

// How many words a packet has, by its opcode; of a load and a polyline, those before its data and its joints.
const LENGTHS = Uint8Array.from({ length: 256 }, (_, opcode) => {
    const shaded = opcode >> 4 & 1, textured = opcode >> 2 & 1, quad = opcode >> 3 & 1;
    switch (opcode >> 5) {
    case 0: return opcode === 2 ? 3 : 1;
    case 1: return 1 + (3 + quad) * (1 + textured) + shaded * (2 + quad);
    case 2: return 3 + shaded;
    case 3: return 2 + textured + ((opcode >> 3 & 3) === 0 ? 1 : 0);
    case 4: return 4;
    case 5: case 6: return 3;
    default: return 1;
    }
});

/** Returns how many words a packet has by its first word. */
export const lengthOf = head => LENGTHS[head >>> 24];

/** Whether a word ends a polyline, where a vertex or the colour of one may also come. */
export const isPolylineEnd = word => (word & 0xF000F000) >>> 0 === 0x50005000;

/** The width and height of a copy, load or store in cells, by its word of size. */
export const sizeOf = word => ({ w: ((word - 1) & 0x3FF) + 1, h: (((word >>> 16) - 1) & 0x1FF) + 1 });

/** How many data words hold the cells of a transfer. */
export const wordsOfCells = cells => (cells + 1) >> 1;

/** How many data words a transfer has, by its word of size. */
export function dataWords(word) {
    const { w, h } = sizeOf(word);
    return wordsOfCells(w * h);
}

/** The box of a fill in cells: in steps of 16, x rounded down and the width up. `height`: of video memory. */
export const fillBox = (words, height) => ({
    to: { x: words[1] & 0x3F0, y: (words[1] >>> 16) & (height - 1) },
    size: { w: ((words[2] & 0x3FF) + 15) & ~15, h: (words[2] >>> 16) & 0x1FF },
});
