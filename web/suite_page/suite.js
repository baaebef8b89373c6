// The conformance suite on the module of this page. Each test is a capture, and a line of expected.tsv that says what has
// to come out; psxgpu/conformance/released.py has the columns. web/suite_page/pack.py puts the tests into the page.
'use strict';

/** A test: its rule, the capture in base64, and its line of expected.tsv.
 * @typedef {{ says: string, capture: string, expected: string }} Test */
/** A word that has to be read, in the bits of the mask.
 * @typedef {{ word: number, mask: number }} Word */
/** What plays a capture.
 * @typedef {{ play(mode: string, capture: Uint8Array): Uint8Array }} Player */

/** The machine's script, which the page has before this one.
 * @type {typeof import('../psxgpu.js')} */
const machine = /** @type {any} */ (globalThis).psxgpu;
const COLUMNS = 1024, PATIENCE = 50;        // cells of a row; milliseconds until the page is shown anew

/** Returns an element of the page.
 * @param {string} id @returns {any} */
const element = id => document.getElementById(id);

/** Returns the bytes of a text in base64.
 * @param {string} text */
const decoded = text => Uint8Array.from(atob(text), letter => letter.charCodeAt(0));

/** Returns the SHA-256 of bytes.
 * @param {Uint8Array} bytes */
async function sumOf(bytes) {
    const sum = new Uint8Array(await crypto.subtle.digest('SHA-256', bytes));
    return [...sum].map(byte => byte.toString(16).padStart(2, '0')).join('');
}

/** Returns a word as hexadecimal digits.
 * @param {number} word */
const hex = word => (word >>> 0).toString(16).padStart(8, '0');

/** Returns the words of a line: WORD, WORD/MASK or WORD*COUNT each, or `-`.
 * @param {string} text @returns {Word[]} */
function wordsOf(text) {
    return text === '-' ? [] : text.split(' ').flatMap(part => {
        const [word, count = '1'] = part.split('*'), [value, mask = 'ffffffff'] = word.split('/');
        return Array(Number(count)).fill({ word: parseInt(value, 16), mask: parseInt(mask, 16) });
    });
}

/** Sets the cells to 0 whose value does not matter: X,Y or X,Y*COUNT each, or `-`.
 * @param {Uint8Array} memory @param {string} text */
function clear(memory, text) {
    for (const part of text === '-' ? [] : text.split(' ')) {
        const [place, count = '1'] = part.split('*'), [x, y] = place.split(',').map(Number);
        memory.fill(0, 2 * (COLUMNS * y + x), 2 * (COLUMNS * y + x + Number(count)));
    }
}

/** Returns what the sum of video memory is taken of: the number of rows, then the number and the cells of each row that is
 * not all 0. web/suite_page/pack.py takes it of the same bytes.
 * @param {Uint8Array} memory */
function filledRows(memory) {
    const count = memory.length / (2 * COLUMNS), number = (/** @type {number} */ y) => Uint8Array.of(y & 255, y >> 8);
    const words = new Uint32Array(memory.slice().buffer), parts = [number(count)];
    for (let y = 0; y < count; y++) {
        if (words.subarray(y * COLUMNS / 2, (y + 1) * COLUMNS / 2).some(Boolean)) {
            parts.push(number(y), memory.subarray(2 * COLUMNS * y, 2 * COLUMNS * (y + 1)));
        }
    }
    const bytes = new Uint8Array(parts.reduce((sum, part) => sum + part.length, 0));
    let at = 0;
    for (const part of parts) {
        bytes.set(part, at);
        at += part.length;
    }
    return bytes;
}

/** Returns how video memory differs, or an empty text.
 * @param {Player} player @param {Uint8Array} capture @param {string} sum @param {string} ignored */
async function memoryFault(player, capture, sum, ignored) {
    const memory = player.play('vram', capture);
    clear(memory, ignored);
    return await sumOf(filledRows(memory)) === sum ? '' : 'video memory differs';
}

/** Returns how the words that are read differ, or an empty text.
 * @param {Player} player @param {Uint8Array} capture @param {Word[]} wanted */
function wordFault(player, capture, wanted) {
    if (!wanted.length) return '';
    const lines = new TextDecoder().decode(player.play('play', capture)).split('\n');
    const found = lines.filter(line => line && !line.startsWith('status')).map(line => parseInt(line, 16));
    if (found.length !== wanted.length) return `${found.length} words are read, expected ${wanted.length}`;
    const at = wanted.findIndex(({ word, mask }, k) => ((found[k] ^ word) & mask) !== 0);
    return at < 0 ? '' : `word ${at + 1} is ${hex(found[at])}, expected ${hex(wanted[at].word)}`;
}

/** Returns the shown picture as PPM, or null if there is none.
 * @param {Player} player @param {Uint8Array} capture */
function shot(player, capture) {
    try {
        return player.play('shot', capture);
    } catch (/** @type {any} */ bad) {
        if (bad.code !== machine.NO_PICTURE) throw bad;
        return null;
    }
}

/** Returns how the shown picture differs, or an empty text. `wanted`: WIDTHxHEIGHT:SUM, `none`, or `-`.
 * @param {Player} player @param {Uint8Array} capture @param {string} wanted */
async function pictureFault(player, capture, wanted) {
    if (wanted === '-') return '';
    const picture = shot(player, capture);
    if (!picture || wanted === 'none') return !picture === (wanted === 'none') ? '' : `the picture: expected ${wanted}`;
    const head = /^P6\n(\d+) (\d+)\n255\n/.exec(String.fromCharCode(...picture.subarray(0, 32)));
    if (!head) return 'the picture is no PPM';
    const found = `${head[1]}x${head[2]}:${await sumOf(picture.subarray(head[0].length))}`;
    return found === wanted ? '' : 'the picture differs';
}

/** Returns what differs, or an empty text.
 * @param {Player} player @param {Test} test */
async function faultOf(player, test) {
    const [, , , sum, ignored, picture, words] = test.expected.split('\t'), capture = decoded(test.capture);
    try {
        return [await memoryFault(player, capture, sum, ignored), wordFault(player, capture, wordsOf(words)),
            await pictureFault(player, capture, picture)].filter(Boolean).join('; ');
    } catch (/** @type {any} */ bad) {
        return bad.message;
    }
}

/** Returns an element with a text.
 * @param {string} kind @param {string} text */
function made(kind, text) {
    const made = document.createElement(kind);
    made.textContent = text;
    return made;
}

/** Returns a link that saves the capture of a test.
 * @param {Test} test @param {string} name */
function saving(test, name) {
    const link = /** @type {HTMLAnchorElement} */ (made('a', name));
    link.download = test.expected.split('\t')[0].replace('/', '-') + '.capture';
    link.href = 'data:application/octet-stream;base64,' + test.capture;
    return link;
}

/** Adds the line of a test to its chapter.
 * @param {Test} test @param {string} fault */
function addLine(test, fault) {
    const [fullName, decides] = test.expected.split('\t'), [chapter, name] = fullName.split('/');
    let list = element('chapter-' + chapter);
    if (!list) {
        list = made('ol', '');
        list.id = 'chapter-' + chapter;
        element('chapters').append(made('h2', chapter), list);
    }
    const line = made('li', ''), says = made('span', test.says + ' ');
    says.append(made('small', decides));
    line.append(saving(test, name), says);
    line.classList.toggle('failed', fault !== '');
    if (fault) line.append(made('em', fault));
    list.append(line);
}

/** Says how many tests passed.
 * @param {number} passed @param {number} run @param {number} all @param {string} more */
function say(passed, run, all, more) {
    element('said').textContent = `${passed} of ${run} tests passed${more}`;
    element('said').classList.toggle('failed', passed < run);
    element('progress').value = run / all;
}

/** Runs the tests. Returns how many passed, and how many there are.
 * @param {Test[]} tests */
async function run(tests) {
    element('chapters').replaceChildren();
    const player = await machine.load(), start = performance.now();
    let passed = 0, shown = start;
    for (const [at, test] of tests.entries()) {
        const fault = await faultOf(player, test);
        passed += Number(fault === '');
        addLine(test, fault);
        if (performance.now() - shown > PATIENCE) {
            say(passed, at + 1, tests.length, '');
            await new Promise(resolve => setTimeout(resolve));
            shown = performance.now();
        }
    }
    say(passed, tests.length, tests.length, ` in ${((performance.now() - start) / 1000).toFixed(1)} seconds`);
    return { passed, tests: tests.length };
}

const TESTS = JSON.parse(element('tests').textContent || '[]');
const finished = run(TESTS);
finished.catch(bad => {
    element('said').textContent = `This browser does not run the module: ${bad.message}`;
    element('said').className = 'failed';
});
