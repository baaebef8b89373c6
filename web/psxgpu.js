// The drawing processor of a PlayStation, as a proved machine, for pages: the calls of c/psxgpu.h over typed arrays.
//
//     const library = await psxgpu.load();               // or psxgpu.load(bytes of psxgpu.wasm)
//     const machine = library.machine();
//     machine.gp0([0x020000FF, 0x00000000, 0x00100010]); // a red fill of 16 by 16
//     machine.cell(3, 4);                                // 31
//     const ppm = library.play('shot', capture);         // what psxgpu_tool shot writes
//
// web/build.py makes web/out/psxgpu.js of this module, those that it imports, and psxgpu.wasm. That file is a plain
// script, which a page from a disk may load: what is exported here is in `psxgpu`. docs/LIBRARY.md describes it.

import { bytesOf } from './bytes.js';
import { begun, isFlip, isMark, played, playRecords, records } from './capture.js';
import { Library, MODES } from './library.js';
import { Machine } from './machine.js';
import { PACKED } from './module.js';
import { NO_PICTURE, Refused } from './refused.js';

// TypeScript has no type for it before 5.1.
const { DecompressionStream } = /** @type {any} */ (globalThis);

/** Returns the bytes of the module in this file. */
async function unpacked() {
    if (!PACKED) throw new Error('there is no module in this file: call psxgpu.load(bytes of psxgpu.wasm)');
    const bytes = Uint8Array.from(atob(PACKED), letter => letter.charCodeAt(0));
    return new Response(new Blob([bytes]).stream().pipeThrough(new DecompressionStream('gzip'))).arrayBuffer();
}

/** Loads the module in this file, or the one in `bytes`.
 * @param {BufferSource} [bytes] of psxgpu.wasm */
export async function load(bytes) {
    const { instance } = await WebAssembly.instantiate(bytes ?? await unpacked(), {});
    return new Library(instance);
}

export { Library, MODES, Machine, NO_PICTURE, Refused, begun, bytesOf, isFlip, isMark, played, playRecords, records };
