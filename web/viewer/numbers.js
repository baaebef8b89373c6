// Searching in numbers that are in order.

/**
 * Returns the index of the last number that is not above another, or -1.
 * @param {ArrayLike<number>} numbers in order
 * @param {number} most
 * @returns {number}
 */
export function lastUpTo(numbers, most) {
    let low = 0, high = numbers.length;
    while (low < high) {
        const middle = (low + high) >> 1;
        if (numbers[middle] <= most) low = middle + 1; else high = middle;
    }
    return low - 1;
}
