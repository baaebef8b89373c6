// The words of a snapshot's state before its two memories. docs/CAPTURE.md has their order.

const HEAD_BYTES = 8;
const MEMORY_BYTES = 0x200000;

function loadAt(words, at) {
    const [x, y, w, h, next] = words.subarray(at, at + 5);
    return { x, y, w, h, next };
}

function pendingAt(words, at) {
    const kind = words[at];
    if (kind === 1) {
        const count = words[at + 1];
        return [{ kind: 'packet', words: [...words.subarray(at + 2, at + 2 + count)] }, at + 2 + count];
    }
    if (kind === 2) return [{ kind: 'load', ...loadAt(words, at + 1) }, at + 6];
    if (kind === 3) {
        const [command, color, vertex, begun] = words.subarray(at + 1, at + 5);
        return [{ kind: 'polyline', command, color, vertex, words: begun ? [words[at + 5]] : [] }, at + 5 + begun];
    }
    return [{ kind: 'nothing' }, at + 1];
}

function runAt(words, at) {
    const kind = words[at];
    if (kind === 1) {
        const [from, left, block, flags] = words.subarray(at + 1, at + 5);
        const back = (flags & 1) !== 0, toMemory = (flags & 2) !== 0;
        return [{ list: false, at: from, left, block, back, toMemory }, at + 5];
    }
    return kind === 2 ? [{ list: true, at: words[at + 1] }, at + 2] : [null, at + 1];
}

/** The outline of a snapshot that the machine has admitted, and where its memories lie, in bytes. */
export function outlineOf(bytes) {
    const room = bytes.slice(HEAD_BYTES, HEAD_BYTES + 4 * 64);
    const words = new Uint32Array(room.buffer, 0, room.length >> 2);
    const height = words[0], played = words[1] + words[2] * 2 ** 32;
    const registers = words.slice(3, 16);
    const [pending, afterPending] = pendingAt(words, 16);
    const store = words[afterPending] === 1 ? loadAt(words, afterPending + 1) : null;
    const [running, end] = runAt(words, afterPending + (store ? 6 : 1));
    const vramAt = HEAD_BYTES + 4 * end, memoryAt = vramAt + 2048 * height;
    return { height, played, registers, pending, store, running, vramAt, memoryAt, size: memoryAt + MEMORY_BYTES };
}

/** The same bytes, with another number of events played. */
export function renumbered(bytes, played) {
    const out = bytes.slice();
    const view = new DataView(out.buffer);
    view.setUint32(HEAD_BYTES + 4, played % 2 ** 32, true);
    view.setUint32(HEAD_BYTES + 8, Math.floor(played / 2 ** 32), true);
    return out;
}
