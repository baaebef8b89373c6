// The address of a place: the number of an event and, inside an event of DMA, which of its items comes before it.
//
// `2947` is the state after event 2947. `2947.60` is the state after the 60th item that event 2947 completes: a packet
// or another row of the list, a load with its data. `2947.60+2` is two steps after that item.

const ADDRESS = /^(\d{1,15})(?:\.(\d{1,9})(?:\+(\d{1,9}))?)?$/;

/**
 * Returns whether an event makes more than one step, as DMA does.
 * @param {Track} track
 * @param {number} step one of the event's steps
 * @returns {boolean}
 */
function isShared(track, step) {
    if (!track.numbers || step < track.apart) return false;
    const event = track.event(step);
    return (step > 0 && track.event(step - 1) === event) || (step + 1 < track.length && track.event(step + 1) === event);
}

/**
 * Returns the first row that an event or a later one completes.
 * @param {Recording} recording
 * @param {number} event
 * @returns {number} a row, or the number of rows
 */
export function firstRowOf({ rows, track }, event) {
    let low = 0, high = rows.length;
    while (low < high) {
        const middle = (low + high) >> 1;
        if (track.event(rows.done[middle]) < event) low = middle + 1; else high = middle;
    }
    return low;
}

/**
 * Returns how many rows an event completes.
 * @param {Recording} recording
 * @param {number} event
 * @returns {number}
 */
const itemsOf = (recording, event) => firstRowOf(recording, event + 1) - firstRowOf(recording, event);

/**
 * Returns the address of a row: that of the place after it.
 * @param {Recording} recording
 * @param {number} row
 * @returns {string}
 */
export function rowAddress(recording, row) {
    const { rows, track } = recording, step = rows.done[row], event = track.event(step);
    return isShared(track, step) ? `${event}.${row - firstRowOf(recording, event) + 1}` : String(event);
}

/**
 * Returns the address of the place after a number of steps.
 * @param {Recording} recording
 * @param {number} steps
 * @returns {string}
 */
export function addressOf(recording, steps) {
    const { rows, track } = recording;
    if (steps === 0 || !isShared(track, steps - 1)) return String(recording.eventAt(steps));
    const row = rows.at(steps), event = track.event(steps - 1), isOwn = row >= 0 && track.event(rows.done[row]) === event;
    if (isOwn && recording.endOf(row) === steps) return rowAddress(recording, row);
    if (!isOwn && steps === track.stepsUpTo(event)) return String(event);
    const base = isOwn ? rows.done[row] + 1 : track.stepsUpTo(event - 1);
    return `${event}.${isOwn ? row - firstRowOf(recording, event) + 1 : 0}+${steps - base}`;
}

/**
 * Returns how many characters the longest address of a row has.
 * @param {Recording} recording
 * @returns {number}
 */
export function longestAddress(recording) {
    const { rows, track, length } = recording, last = String(recording.eventAt(length)).length;
    if (!track.numbers) return last;
    let most = 0, items = 0, event = -1;
    for (let row = 0; row < rows.length; row++) {
        const own = track.event(rows.done[row]);
        items = own === event ? items + 1 : 1;
        event = own;
        most = Math.max(most, items);
    }
    return most > 1 ? last + 1 + String(most).length : last;
}

/**
 * Reads an address.
 * @param {Recording} recording
 * @param {string} text
 * @returns {number} the number of steps before the place
 * @throws {RangeError} if there is no such place, with what to write instead
 */
export function stepsAt(recording, text) {
    const found = ADDRESS.exec(text.trim()), { track } = recording;
    if (!found) throw new RangeError(`"${text}" is not an address: write an event as 2947, or one of its items as 2947.60`);
    const event = Number(found[1]), last = recording.eventAt(recording.length);
    if (event > last) throw new RangeError(`there is no event ${event}: the last is ${last}`);
    if (event < track.before) throw new RangeError(`event ${event} is not in this file: it begins after ${track.before}`);
    return found[2] === undefined ? track.stepsUpTo(event)
        : stepsInside(recording, event, Number(found[2]), Number(found[3] ?? -1));
}

function stepsInside(recording, event, item, more) {
    const { rows, track } = recording, count = itemsOf(recording, event);
    if (item > count) {
        const has = count === 0 ? 'completes no item' : `has ${count} ${count === 1 ? 'item' : 'items'}`;
        throw new RangeError(`there is no item ${item}: event ${event} ${has}`);
    }
    const row = firstRowOf(recording, event) + item - 1;
    if (item > 0 && more < 0) return recording.endOf(row);
    const base = item > 0 ? rows.done[row] + 1 : track.stepsUpTo(event - 1);
    return Math.min(base + Math.max(more, 0), track.stepsUpTo(event));
}
