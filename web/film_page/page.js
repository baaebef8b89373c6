// The page: opens a recording, shows a picture at the end of each frame, and video memory.

import { filmOf, imageOf } from './film.js';
import { bytesOf } from '../viewer/reading/opening.js';
import { pictureKind } from '../viewer/reading/file_kind.js';

/** @typedef {import('./film.js').Film} Film */

/** Returns an element of the page.
 * @param {string} id @returns {any} */
const element = id => document.getElementById(id);

/** Says a text below the picture.
 * @param {string} text */
const say = text => { element('said').textContent = text; };

/** What the page shows: the machine's library, the recording that is open, its film and its name. `opening` counts the
 * files, and `drawing` the pictures, so that one that is late is not shown. */
const state = {
    /** @type {any} */ library: null,
    /** @type {Blob | null} */ file: null,
    /** @type {Film | null} */ film: null,
    name: '', showsMemory: false, opening: 0, drawing: 0,
    /** @type {any} */ timer: null,
};

/** Returns the cells of video memory as a picture.
 * @param {Uint8Array} vram */
function imageOfMemory(vram) {
    const image = new ImageData(1024, vram.length / 2048), words = new Uint32Array(image.data.buffer);
    const wide = (/** @type {number} */ channel) => 8 * channel + (channel >> 2);
    for (let k = 0; k < words.length; k++) {
        const cell = vram[2 * k] | vram[2 * k + 1] << 8;
        words[k] = 255 << 24 | wide(cell >> 10 & 31) << 16 | wide(cell >> 5 & 31) << 8 | wide(cell & 31);
    }
    return image;
}

/** Shows the frame that is chosen, or video memory. */
async function show() {
    const { film } = state, at = Number(element('at').value), drawing = ++state.drawing;
    const picture = film && film.pictures[at], isMemory = state.showsMemory || !picture;
    for (const id of ['play', 'back', 'on', 'at']) {
        element(id).disabled = !film || film.pictures.length < 2 || state.showsMemory;
    }
    element('save').disabled = element('memory').disabled = !film;
    element('count').textContent = film && film.pictures.length ? `frame ${at + 1} of ${film.pictures.length}` : '';
    element('memory').setAttribute('aria-pressed', String(state.showsMemory));
    if (!film) return;
    const image = isMemory ? imageOfMemory(film.vram) : await imageOf(picture);
    if (drawing !== state.drawing) return;
    const canvas = element('picture');
    [canvas.width, canvas.height] = [image.width, image.height];
    canvas.className = isMemory ? 'memory' : '';
    canvas.setAttribute('aria-label', isMemory ? 'video memory' : `the picture of frame ${at + 1}`);
    canvas.getContext('2d').putImageData(image, 0, 0);
}

/** Goes some frames on, and round.
 * @param {number} by */
function step(by) {
    const count = state.film ? state.film.pictures.length : 0;
    if (count) element('at').value = (Number(element('at').value) + by + count) % count;
    return show();
}

function stop() {
    clearInterval(state.timer);
    state.timer = null;
    element('play').textContent = 'play';
}

function toggle() {
    if (state.timer) return stop();
    element('play').textContent = 'stop';
    state.timer = setInterval(() => step(1), 1000 / Number(element('rate').value));
}

/** Opens a file: a capture, a snapshot or a GPU dump, packed or not. Resolves when it is shown or refused.
 * @param {Blob} file @param {string} name */
async function open(file, name) {
    const opening = ++state.opening, says = (/** @type {string} */ text) => {
        if (opening === state.opening) say(text ? `${name}: ${text}` : name);
    };
    stop();
    try {
        const kind = await pictureKind(file);
        if (kind) return says(`this is ${kind}. Open a capture, a snapshot or a GPU dump.`);
        says('reading');
        const parts = [];
        let fault = '';
        try {
            for await (const part of bytesOf(file)) parts.push(part);
        } catch (/** @type {any} */ bad) {
            if (!parts.length) throw bad;
            fault = bad.message;
        }
        const bytes = new Uint8Array(await new Blob(parts).arrayBuffer());
        const film = await filmOf(state.library, bytes, element('ends').value, count => says(`frame ${count}`));
        if (opening !== state.opening) return;
        Object.assign(state, { file, name, film });
        says(fault || film.fault);
        element('at').max = Math.max(0, film.pictures.length - 1);
        element('at').value = element('at').max;
        document.title = name;
        await show();
    } catch (/** @type {any} */ bad) {
        says(bad.message);
    }
}

/** Opens a file of the user, if there is one.
 * @param {File | undefined} file */
const openFile = file => file && open(file, file.name);

/** Saves what is shown as a PNG. */
function save() {
    const link = document.createElement('a'), at = Number(element('at').value) + 1;
    const what = state.showsMemory || !state.film?.pictures.length ? 'memory' : `frame-${at}`;
    Object.assign(link, { download: `${state.name}-${what}.png`, href: element('picture').toDataURL() });
    link.click();
}

/** A file may be dropped anywhere: beside the picture the browser would leave the page. */
function wireDrops() {
    const mark = (/** @type {boolean} */ isOver) => element('screen').classList.toggle('over', isOver);
    document.addEventListener('dragover', event => { event.preventDefault(); mark(true); });
    document.addEventListener('dragleave', () => mark(false));
    document.addEventListener('drop', event => {
        event.preventDefault();
        mark(false);
        openFile(event.dataTransfer?.files[0]);
    });
}

/** @param {Record<string, string>} examples captures in base64, by name */
function wireExamples(examples) {
    element('examples').append(...Object.keys(examples).map(name => new Option(name)));
    element('examples').onchange = (/** @type {any} */ event) => {
        const text = examples[event.target.value];
        if (text) open(new Blob([Uint8Array.from(atob(text), letter => letter.charCodeAt(0))]), event.target.value);
    };
}

function wire() {
    element('file').onchange = (/** @type {any} */ event) => openFile(event.target.files[0]);
    wireExamples(JSON.parse(element('example-files').textContent || '{}'));
    element('ends').onchange = () => { if (state.file) open(state.file, state.name); };
    element('play').onclick = toggle;
    element('back').onclick = () => step(-1);
    element('on').onclick = () => step(1);
    element('at').oninput = show;
    element('rate').onchange = () => { if (state.timer) { stop(); toggle(); } };
    element('memory').onclick = () => { state.showsMemory = !state.showsMemory; show(); };
    element('save').onclick = save;
    wireDrops();
    document.onkeydown = event => {
        const does = { ' ': toggle, ArrowLeft: () => step(-1), ArrowRight: () => step(1) }[event.key];
        const isElsewhere = /** @type {any} */ (event.target).closest('select, input, button, label');
        if (does && !isElsewhere) { event.preventDefault(); does(); }
    };
}

/** Settled when the page can be used. */
async function begin() {
    wire();
    await show();
    try {
        state.library = await /** @type {any} */ (globalThis).psxgpu.load();
        say('Open a recording, or drop one here: a capture, a snapshot or a GPU dump, also packed as .gz.');
    } catch (/** @type {any} */ bad) {
        say('This browser does not run the machine: ' + bad.message);
        throw bad;
    }
}

// For checks: they wait for `ready`.
/** @type {any} */ (globalThis).page = { open, element, state, ready: begin() };
