// Why a file is refused: the line that psxgpu_tool writes for it.

const hex = (value, digits) => value.toString(16).padStart(digits, '0');

export class Refusal extends Error {
    // `cause`: its name; `event`: the number of the event; `more`: byte, word, words or node, where the line has them.
    constructor(cause, event, more = {}) {
        super(lineOf(cause, event, more));
        this.cause = cause;
    }
}

function lineOf(cause, event, more) {
    let line = `psxgpu: ${cause} at event ${event}`;
    if (more.byte !== undefined) line += ` byte ${more.byte}`;
    if (more.word !== undefined) line += ` word ${hex(more.word, 8)}`;
    if (more.words !== undefined) line += ` words ${more.words}`;
    if (more.node !== undefined) line += ` node ${hex(more.node, 6)}`;
    return line;
}
