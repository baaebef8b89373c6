// Packed files: by what they begin with, and the program that unpacks them outside of the page.

const PACKINGS = [{ name: 'gzip', first: [0x1F, 0x8B], program: 'gzip -d' },
    { name: 'zstd', first: [0x28, 0xB5, 0x2F, 0xFD], program: 'zstd -d' },
    { name: 'xz', first: [0xFD, 0x37, 0x7A, 0x58, 0x5A], program: 'xz -d' },
    { name: 'zip', first: [0x50, 0x4B, 3, 4], program: 'unzip' }];

/** How many bytes tell the packing of a file. */
export const MOST_FIRST = 5;

/**
 * Returns how a file is packed, or undefined.
 * @param {Uint8Array} first its first bytes
 * @returns {{name: string, program: string} | undefined}
 */
export const packingOf = first => PACKINGS.find(({ first: mark }) => mark.every((byte, k) => first[k] === byte));

/**
 * Returns what unpacks a file.
 * @throws {Error} if the browser has nothing that does, with the program to use instead
 */
export function unpacking({ name, program }) {
    try {
        return new DecompressionStream(name);
    } catch {
        throw new Error(`this is a file packed by ${name}, which this browser cannot unpack: `
            + `unpack it first with ${program}`);
    }
}
