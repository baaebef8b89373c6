// What rows are called: the names of `psxgpu_tool list`, and those of the words for GP1.

import { KIND } from './rows.js';

export const hex = (word, digits = 8) => (word >>> 0).toString(16).padStart(digits, '0');

const PACKETS = { [KIND.POLYGON]: 'polygon', [KIND.LINE]: 'line', [KIND.JOINT]: 'line', [KIND.RECTANGLE]: 'rectangle',
    [KIND.COPY]: 'copy', [KIND.LOAD]: 'load', [KIND.STORE]: 'store', [KIND.FINISH]: 'finish' };

const CONTROLS = { 0x00: 'reset', 0x01: 'clear commands', 0x02: 'clear interrupt', 0x03: 'display on/off',
    0x04: 'DMA direction', 0x05: 'display start', 0x06: 'horizontal range', 0x07: 'vertical range',
    0x08: 'display mode', 0x3F: 'mark' };

export function controlName(word) {
    const opcode = (word >>> 24) & 0x3F;
    return CONTROLS[opcode] ?? ((opcode & 0x30) === 0x10 ? 'information' : 'nothing');
}

/** The name of a row by its kind and its head. */
export function nameOf(kind, head) {
    const opcode = head >>> 24;
    switch (kind) {
    case KIND.OTHER: return opcode === 0x02 ? 'fill' : opcode === 0x1F ? 'irq' : 'nop';
    case KIND.SETTING: return opcode >= 0xE1 && opcode <= 0xE6 ? 'environment' : 'nop';
    case KIND.GP1: return controlName(head);
    case KIND.READS: return 'read';
    case KIND.STATUS: return 'status';
    default: return PACKETS[kind];
    }
}
