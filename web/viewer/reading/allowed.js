// The kinds of records, and the counts that a record of each may have. docs/CAPTURE.md has the format.

export const KIND = { END: 0, RAM: 1, GP0: 2, GP1: 3, READ: 4, STAT: 5, DMA: 6, BEGIN: 7, TURN: 8, SKIP: 9 };

/** Returns whether a record of a kind may have a count in captures of a version.
 * @param {number} kind @param {number} count @param {number} version */
export function isAllowed(kind, count, version) {
    switch (kind) {
    case KIND.END: return count === 0;
    case KIND.RAM: return count >= 1 && count <= 524288;
    case KIND.GP0: return count >= 1;
    case KIND.GP1: case KIND.STAT: return count === 1;
    case KIND.READ: return count >= 1 && count <= 262144;
    case KIND.DMA: return count === 2 || count === 6;
    case KIND.BEGIN: return version > 1 && count === 2;
    case KIND.TURN: case KIND.SKIP: return version > 1 && count >= 1 && count <= 262144;
    default: return false;
    }
}
