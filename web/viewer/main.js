// Begins: the machine, the panels, files that are chosen or dropped, the examples that the page brings along.

import { App } from './app.js';
import { ChangesPanel } from './changing/changes_panel.js';
import { ComparePanel } from './comparing/compare_panel.js';
import { counted, element, made } from './panels/dom.js';
import { addressOf } from './playing/address.js';
import { Keys } from './panels/keys.js';
import { FrameTable } from './costs/frame_table.js';
import { wireFolds, wireTheme } from './kept.js';
import { GrowingLine } from './growing/growing_line.js';
import { droppedHandle, wirePicker } from './growing/handles.js';
import { caseNames, openCase, wireNote } from './inside/cases.js';
import { bytesOfText } from './inside/packed.js';
import { Follower } from './panels/link.js';
import { MemoryPanel } from './costs/memory_panel.js';
import { makeMenu } from './panels/menu.js';
import { nameOf } from './reading/names.js';
import { ListPanel } from './panels/list_panel.js';
import { Out } from './panels/saving.js';
import { PacketPanel } from './panels/packet_panel.js';
import { PacketEditor } from './changing/packet_editor.js';
import { filesOf } from './parts/dropped.js';
import { wireParts } from './parts/parts.js';
import { PalettePanel } from './panels/palette_panel.js';
import { PixelPanel } from './panels/pixel_panel.js';
import { Receiver } from './reading/receiver.js';
import { RegistersPanel } from './panels/registers_panel.js';
import { wireSplits } from './panels/resizing.js';
import { Timeline } from './panels/timeline.js';
import { Views } from './views/views.js';
import { WhatIf } from './changing/what_if.js';
import { wireBoxes } from './changing/list_box.js';

// Opens files: those that are chosen or dropped, the cases inside the page, and the examples. Returns how a case or an
// example is opened by its name.
function wireFiles({ receiver, compare, growing }) {
    const examples = JSON.parse(element('example-files').textContent);
    const openExample = name => {
        if (openCase({ receiver, compare, growing }, name)) return true;
        if (!Object.hasOwn(examples, name)) return false;
        receiver.open(new Blob([bytesOfText(examples[name])]), `${name}.capture`, { example: name });
        return true;
    };
    const names = [...caseNames, ...Object.keys(examples)];
    makeMenu(element('examples'), names.map(name => ({ text: name, does: () => openExample(name) })));
    element('open').addEventListener('change', ({ target }) => {
        receiver.openAll([...target.files]);
        target.value = '';
    });
    wirePicker(element('open'), (files, from) => receiver.openAll(files, from));
    addEventListener('dragover', event => { event.preventDefault(); document.body.classList.add('over'); });
    addEventListener('dragleave', event => { if (!event.relatedTarget) document.body.classList.remove('over'); });
    addEventListener('drop', async event => {
        event.preventDefault();
        document.body.classList.remove('over');
        const handle = droppedHandle(event.dataTransfer);
        receiver.openAll(await filesOf(event.dataTransfer), { isDropped: true, handle });
    });
    return openExample;
}

function wireSaid(app) {
    app.on('said', () => {
        const { text, choice, advice, isWarning } = app.said, line = element('said');
        line.hidden = text === '';
        line.classList.toggle('warning', Boolean(isWarning));
        line.setAttribute('role', isWarning ? 'alert' : 'status');
        line.replaceChildren(text, ...(advice ? [made('span', 'advice', advice)] : []));
        if (choice) line.append(Object.assign(made('button', '', choice.text), { onclick: choice.does }));
        if (text) line.append(Object.assign(made('button', '', 'Close'), { onclick: () => app.say('') }));
    });
    app.on('work', () => {
        element('work').classList.toggle('idle', !app.working);
        element('stop').disabled = !app.working;
        if (!app.working) return;
        element('progress').value = app.working.part;
        element('work-text').textContent = app.working.text;
    });
    element('stop').addEventListener('click', () => app.working?.stop?.());
    app.on('opened grown rested', () => {
        const { name, what, length, flips, marks, isPart, isGrowing } = app.recording;
        const counts = { steps: length, frames: app.frames, flips: flips.length, marks: marks.length };
        const parts = [what, ...Object.entries(counts).map(([what, count]) => counted(count, what))];
        const state = isGrowing ? ', growing' : isPart ? ', up to its fault' : '';
        const text = `${name}${state}: ${parts.join(', ')}`;
        Object.assign(element('file'), { textContent: text, title: text });
        document.title = `${name}: Valerianpane`;
    });
}

// Where the reader is, for those who listen: when the place has stood still for a while.
function wireSpoken(app, timeline) {
    let timer = 0;
    app.on('moved', () => {
        clearTimeout(timer);
        if (timeline.timer) return;
        timer = setTimeout(() => {
            const { recording, row, at } = app, { rows } = recording;
            const name = row < 0 ? 'before the first packet' : nameOf(rows.kindOf(row), rows.head[row]);
            element('spoken').textContent = `event ${addressOf(recording, at)}: ${name}`;
        }, 300);
    });
}

function wireFaults(app) {
    addEventListener('error', event => app.warn(`A fault of this page: ${event.message}`));
    addEventListener('unhandledrejection', event => app.warn(`A fault of this page: ${event.reason?.message}`));
}

export async function main() {
    const library = await psxgpu.load();
    const app = new App(library), whatIf = app.whatIf = new WhatIf(app);
    const list = new ListPanel(app), views = new Views(app), pixel = new PixelPanel(app);
    new PacketPanel(app);
    new PacketEditor(app, whatIf, views);
    wireBoxes(list, whatIf);
    new PalettePanel(app, views);
    new RegistersPanel(app);
    const compare = new ComparePanel(app);
    const timeline = new Timeline(app), out = new Out(app, views);
    const table = new FrameTable(app, timeline.marks), memory = new MemoryPanel(app, views);
    new ChangesPanel(app, { whatIf, out, compare });
    new Keys({ app, views, timeline, whatIf });
    wireFaults(app);
    wireSaid(app);
    wireSpoken(app, timeline);
    wireTheme(() => timeline.marks.repaint());
    wireFolds();
    wireSplits();
    wireNote(app);
    wireParts(app);
    const receiver = new Receiver(app, views, compare), growing = new GrowingLine(app);
    const openExample = wireFiles({ receiver, compare, growing });
    out.follower = new Follower(app, views, openExample);
    if (caseNames.length && !out.follower.namesExample) openExample(caseNames[0]);
    app.warmUp();
    return { app, whatIf, list, views, pixel, timeline, out, compare, receiver, table, memory, growing };
}

// Settled when the page can be used: the checks wait for it.
window.viewer = main().catch(fault => {
    element('said').hidden = false;
    element('said').textContent = `This browser does not run the machine: ${fault.message}`;
    throw fault;
});
