// What a file is that is no recording: a picture, or a dump of video memory.

const DUMPS = { 1048576: 512, 2097152: 1024 };
const HEADS = ['PSXGPU', '\x1F\x8B', '\x28\xB5\x2F\xFD', '\xFD7zXZ', 'PK'];
const SIZE_AT = 16;

/**
 * Returns what a file is, in words, if it is a picture or a dump of video memory; else null.
 * @param {Blob} file
 * @returns {Promise<string | null>}
 */
export async function pictureKind(file) {
    const first = new Uint8Array(await file.slice(0, 64).arrayBuffer());
    const text = String.fromCharCode(...first), ppm = /^P6\s+(\d+)\s+(\d+)\s/.exec(text);
    if (text.startsWith('\x89PNG') && first.length > SIZE_AT + 8) {
        const data = new DataView(first.buffer);
        return `a picture (PNG, ${data.getUint32(SIZE_AT)} × ${data.getUint32(SIZE_AT + 4)})`;
    }
    if (ppm) return `a picture (PPM, ${ppm[1]} × ${ppm[2]})`;
    const rows = DUMPS[file.size];
    return rows && !HEADS.some(head => text.startsWith(head)) ? `a dump of video memory (${rows} rows)` : null;
}
