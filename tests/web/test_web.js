// Functions of test_web.py in the page.

var library = page.state.library;

function bytesOf(text) { return Uint8Array.from(atob(text), letter => letter.charCodeAt(0)); }
async function sumOf(bytes) {
    const sum = new Uint8Array(await crypto.subtle.digest('SHA-256', bytes));
    return [...sum].map(byte => byte.toString(16).padStart(2, '0')).join('');
}
async function plays(command, text, on = library) {
    const [mode, x, y] = command.startsWith('pixel') ? command.split(' ') : [command];
    try {
        return [0, await sumOf(on.play(mode, bytesOf(text), [Number(x || 0), Number(y || 0)])), ''];
    } catch (bad) {
        return [2, await sumOf(bad.output), bad.message];
    }
}
// The same by playTo and playSize, and whether both have the number of the bytes that were passed.
async function passes(command, text) {
    const [mode, x, y] = command.startsWith('pixel') ? command.split(' ') : [command];
    const capture = bytesOf(text), cell = [Number(x || 0), Number(y || 0)], pieces = [];
    const ended = call => {
        try { return [0, call(), '']; } catch (bad) { return [2, bad.written, bad.message]; }
    };
    const [status, count, message] = ended(() => library.playTo(mode, capture, piece => pieces.push(piece), cell));
    const [, size] = ended(() => library.playSize(mode, capture, cell));
    const whole = new Uint8Array(await new Blob(pieces).arrayBuffer());
    return [status, await sumOf(whole), message, whole.length === count && size === count];
}
// What a sink throws at its second piece, the number of its calls, and whether the library plays on.
function sinkThrows(text) {
    let calls = 0, message = '';
    const sink = () => { if (++calls === 2) throw new Error('full'); };
    try { library.playTo('vram', bytesOf(text), sink); } catch (bad) { message = bad.message; }
    return [message, calls, library.play('vram', bytesOf(text)).length];
}
// What the calls of a machine give: the words read, video memory and the shown picture at the end, what is refused.
async function callsSee(text) {
    const lines = [], seen = {};
    try {
        psxgpu.playRecords(library, bytesOf(text), (machine, record, words) => {
            lines.push(...words.map(word => word.toString(16).padStart(8, '0')));
            if (record !== null) return;
            seen.vram = machine.vram();
            lines.push('status ' + machine.status().toString(16).padStart(8, '0'));
            try { seen.shot = machine.picture(); } catch (bad) { seen.shot = new Uint8Array(); }
        });
    } catch (bad) {
        return [2, bad.message];
    }
    return [0, lines.join('\n') + '\n', await sumOf(seen.vram), await sumOf(seen.shot)];
}
// Takes and gives back blocks without a pattern; answers how many were written by another block.
function heapFaults(rounds) {
    const blocks = [];
    let state = 1, faults = 0;
    const below = n => (state = (1664525 * state + 1013904223) >>> 0, (state >>> 8) % n);
    for (let round = 0; round < rounds; round++) {
        if (blocks.length < 40 && below(3)) {
            const size = 1 + below(below(8) ? 500 : 300000), at = library.take(size);
            library.bytes(at, size).fill(round);
            blocks.push({ at, size, byte: round % 256 });
        } else if (blocks.length) {
            const [{ at, size, byte }] = blocks.splice(below(blocks.length), 1);
            faults += library.bytes(at, size).some(it => it !== byte);
            library.give(at);
        }
    }
    for (const { at } of blocks) library.give(at);
    return faults;
}
function machineSeen() {
    const machine = library.machine(), seen = [];
    machine.gp0([0x020000FF, 0, 0x00100010]);
    seen.push(machine.cell(3, 4), machine.cell(16, 4), machine.status());
    machine.gp0([0xA0000000, 0, 0x00010002, 0x22221111, 0xC0000000, 0, 0x00010002]);
    seen.push(machine.read());
    machine.clear();
    seen.push(machine.cell(3, 4));
    machine.close();
    try { machine.read(); } catch (bad) { seen.push(bad.message); }
    return seen;
}
function notesAndPicture() {
    const machine = library.machine();
    const notes = machine.gp0Notes([0xE1000000, 0x020000FF, 0, 0x00010010, 0xA0000000, 0, 0x00010002, 0]);
    const told = notes.map(({ event, word, classNumber, head, area }) => [event, word, classNumber, head, area]);
    // Notes have 64-bit fields, so the module has to get them at a multiple of 8, also after an odd count of words.
    const places = [[0], [0, 0], [0, 0, 0]].map(words => machine.gp0NotesView(words).words.byteOffset % 8);
    machine.gp1(0x08000001);
    const pixels = machine.pictureRgba(), [width, height] = machine.shape();
    machine.close();
    return [told, [...pixels.subarray(4, 16)], pixels.length === 4 * width * height, places];
}
function stepBack() {
    const machine = library.machine({ tall: true });
    machine.gp0([0x020000FF, 0x02580000, 0x00100010]);
    const before = machine.save();
    machine.gp0([0x02000000, 0x02580000, 0x00100010]);
    const between = machine.cell(3, 604);
    machine.load(before);
    const seen = [between, machine.cell(3, 604)];
    machine.close();
    return seen;
}
// Opens bytes as a file. Gives what the page says, its count, the size of the picture and the sum of its pixels.
async function opened(text, name) {
    const { element } = page, canvas = element('picture');
    await page.open(new Blob([bytesOf(text)]), name);
    const pixels = canvas.getContext('2d').getImageData(0, 0, canvas.width, canvas.height).data;
    return [element('said').textContent, element('count').textContent, [canvas.width, canvas.height], await sumOf(pixels)];
}
// The names of the controls that have none.
function nameless() {
    return [...document.querySelectorAll('button, select, input, canvas')].filter(it =>
        !(it.getAttribute('aria-label') || it.textContent.trim() || it.labels?.[0]?.textContent)).map(it => it.id);
}
// Whether the page takes a file that is dropped beside the picture: the browser would open it in its place.
function takesDrops() {
    return ['dragover', 'drop'].every(kind => !document.body.dispatchEvent(new DragEvent(kind, { bubbles: true, cancelable: true })));
}
