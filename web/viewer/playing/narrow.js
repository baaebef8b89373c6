// Plays a stretch for one cell alone, by its plan (narrow_plan.js).

import { playSteps } from './player.js';

// Where registers E3h and E4h are in a snapshot, in bytes.
const AREA_AT = [8 + 4 * (3 + 2), 8 + 4 * (3 + 3)];

// The two words that leave of a drawing area one cell, or nothing.
function narrowed({ x, y }, near, far) {
    const isInside = (near & 1023) <= x && x <= (far & 1023) && near >>> 10 <= y && y <= far >>> 10;
    const words = isInside ? [x | y << 10, x | y << 10] : [1 | 1 << 10, 0];
    return Uint32Array.of(0xE3000000 | words[0], 0xE4000000 | words[1]);
}

// A state with its drawing area cut down to a cell.
function narrowState(bytes, cell, [near, far]) {
    const data = new DataView(bytes.buffer, bytes.byteOffset);
    narrowed(cell, near, far).forEach((word, k) => data.setUint32(AREA_AT[k], word & 0xFFFFFF, true));
    return bytes;
}

/**
 * Plays a stretch. `look(item, play)` is called at each item: `play` plays the item itself.
 * @param {{recording: Recording, machine: Machine, cell: {x: number, y: number}}} with
 * @param {number} kept which of the kept states the stretch begins with
 * @param {object[]} stops of `planOf`
 * @param {(item: object, play: () => void) => void} look
 */
export function playNarrow({ recording, machine, cell }, kept, stops, look) {
    const { keyframes, track, height } = recording, mask = height === 1024 ? 0xFFFFF : 0x7FFFF;
    const area = keyframes.registers(kept).slice(2, 4).map(word => word & mask);
    machine.load(narrowState(keyframes.bytes(kept), cell, area));
    let at = keyframes.stepOf(kept);
    for (const { step, item, to, mode, word, isReset } of stops) {
        playSteps(machine, track, at, step);
        at = to ?? (mode === undefined ? step + 1 : step);
        if (item) look(item, () => playSteps(machine, track, step, step + 1));
        else if (mode !== undefined) machine.gp0(Uint32Array.of(mode));
        else if (isReset) {
            playSteps(machine, track, step, at);
            area.fill(0);
        } else if (word !== undefined) {
            area[word >>> 24 === 0xE3 ? 0 : 1] = word & mask;
            machine.gp0(narrowed(cell, area[0], area[1]));
        }
    }
}
