// What the tests ask of the page: put into it, and named `probe`.
const probe = (() => {
    let viewer = null;
    const later = () => new Promise(go => setTimeout(go, 4));
    const hex = (value, digits) => (value >>> 0).toString(16).padStart(digits, '0');
    const bytesOf = text => Uint8Array.from(atob(text), letter => letter.charCodeAt(0));
    const hexes = bytes => [...new Uint8Array(bytes)].map(byte => hex(byte, 2)).join('');
    const sum = async bytes => hexes(await crypto.subtle.digest('SHA-256', bytes));
    const sumOfParts = async parts => sum(await new Blob(parts).arrayBuffer());

    async function played() {
        const { app } = viewer;
        while (!app.pass.isDone() || app.pass.isRunning || app.goal >= 0) {
            if (app.said?.text.startsWith('A fault of this page')) throw new Error(app.said.text);
            await later();
        }
    }

    // Waits until what the page has inside is open and played, and what it is compared with; or until the page says why not.
    async function opened() {
        const { app } = viewer;
        while (!app.recording && !app.said?.text) await later();
        if (app.recording) await played();
        while (app.beside?.told) await later();
    }

    const base64Of = async parts => {
        const bytes = new Uint8Array(await new Blob(parts).arrayBuffer());
        let text = '';
        for (let at = 0; at < bytes.length; at += 8192) text += String.fromCharCode(...bytes.subarray(at, at + 8192));
        return btoa(text);
    };

    return {
        begin: async () => { viewer = await window.viewer; },
        get app() { return viewer.app; },
        get viewer() { return viewer; },
        sum, played, opened,

        // Opens bytes as a file is opened, and waits until all is played. True, or the line that says why not.
        async open(name, text) {
            const isOpen = await viewer.app.open(new Blob([bytesOf(text)]), name);
            if (isOpen) await played();
            return isOpen || viewer.app.said.text;
        },

        memory: () => sum(viewer.app.cells),
        picture: async () => viewer.app.picture && sumOfParts(module_saving.ppmOf(viewer.app.picture)),

        // The whole state at this place.
        state: () => sum(module_outline.renumbered(viewer.app.machine.stateView(), viewer.app.at)),

        async memoryAtEvent(event) {
            viewer.app.seek(viewer.app.recording.track.stepsUpTo(event));
            return sum(viewer.app.cells);
        },

        // The lines of `list`.
        list() {
            const { rows, track } = viewer.app.recording, out = [];
            for (let row = 0; row < rows.length; row++) {
                if (!rows.isPacket(row)) continue;
                const area = rows.area(row), box = area ? `${area.x1} ${area.y1} ${area.x2} ${area.y2}` : '-';
                const head = rows.head[row], name = module_names.nameOf(rows.kind[row], head);
                out.push(`${track.event(rows.done[row])} ${name} ${hex(head, 8)} ${box}\n`);
            }
            return out.join('');
        },

        // The lines of `pixel`, as the panel lists them.
        async pixel(x, y) {
            const { app, pixel } = viewer;
            pixel.isWhole = false;
            app.choose({ x, y });
            while (!pixel.isWhole) await later();
            return pixel.history.changes.map(change => {
                const { name, head } = module_pixel_panel.itemOf(app.recording, change);
                const event = app.recording.track.event(change.step);
                return `${event} ${name} ${hex(head, 8)} ${hex(change.before, 4)} ${hex(change.after, 4)}\n`;
            }).join('');
        },

        // The steps as the bytes of `flat`.
        flat() {
            const { track, version } = viewer.app.recording, words = [];
            for (let step = 0; step < track.length; step++) {
                const kind = track.kind(step);
                if (kind === module_track.STEP.OMITTED) continue;
                words.push([0x02000001, 0x03000001, 0x04000001, 0x05000001, 0x09000001][kind]);
                if (kind <= 1) words.push(track.word(step));
            }
            return sumOfParts([`PSXGPUC${Math.max(2, version)}`, Uint32Array.from([...words, 0])]);
        },

        // A file that is cut at the last event up to this one that reaches a port: the event, and its sum.
        async cut(event) {
            const { app } = viewer;
            app.seek(app.recording.track.stepsUpTo(event));
            return [app.recording.eventAt(app.at), await sumOfParts(await viewer.out.cutParts())];
        },

        // The file that is cut at this place, in base64.
        cutHere: async () => base64Of(await viewer.out.cutParts()),

        // The rows of packets.
        packetRows() {
            const { rows } = viewer.app.recording, all = Array.from({ length: rows.length }, (_, row) => row);
            return all.filter(row => rows.kindOf(row) < module_rows.KIND.GP1);
        },

        // Changes a row as `choice` says: leaves it out, or gives a field another value as the panel does, or flips bits of a
        // word. Returns whether anything is changed.
        change({ row, how, at, values, bits }) {
            const { recording, whatIf } = viewer.app, { rows, track, height, edition } = recording;
            const words = Uint32Array.from(rows.words(row, track));
            const fields = module_packet_fields.fieldsToChange({ kind: rows.kindOf(row), head: rows.head[row], height });
            const field = fields[at % fields.length];
            if (how === 0) whatIf.toggle(row);
            else if (how === 1 || !field) {
                words[at % words.length] ^= bits;
                whatIf.setWords(row, words);
            } else {
                field.parts.forEach((part, k) => {
                    const value = part.least + values[k] % (part.most - part.least + 1);
                    words[field.index] = part.write(words[field.index], value);
                });
                whatIf.setWords(row, words);
            }
            return recording.edition > edition;
        },

        // The changed recording as a file, in base64, and how many events of DMA are words in it.
        async changedFile() {
            const { parts, transfers } = await module_changed_file.changedFile(viewer.app.recording);
            return [await base64Of(parts), transfers];
        },

        // What is seen at the end: sums of video memory and of the picture; and the changed file.
        async changedEnd() {
            await played();
            viewer.app.seek(1e12);
            return [await probe.memory(), await probe.picture(), await probe.changedFile()];
        },

        // The address of each row, and whether each place is found again by its address.
        addresses() {
            const { recording } = viewer.app, { addressOf, rowAddress, stepsAt } = module_address;
            const places = Array.from({ length: recording.length + 1 }, (_, steps) => steps);
            return {
                rows: Array.from({ length: recording.rows.length }, (_, row) => rowAddress(recording, row)),
                lost: places.filter(steps => stepsAt(recording, addressOf(recording, steps)) !== steps),
            };
        },

        // The bytes that the machines' module takes.
        moduleBytes: () => viewer.app.library.exports.memory.buffer.byteLength,

        // The pixels of the image that a view shows, as a sum.
        viewSum: () => sum(viewer.views.view.image?.data ?? new Uint8Array(0)),

        // Milliseconds of going to places, in order from the least.
        async times(places) {
            const out = [];
            for (const place of places) {
                viewer.app.seek(place);
                while (viewer.app.goal >= 0) await later();
                out.push(viewer.app.took);
                await later();
            }
            return out.sort((a, b) => a - b);
        },

        // After how many steps each row has done all that it does.
        ends() {
            const { recording } = viewer.app;
            return Array.from({ length: recording.rows.length }, (_, row) => recording.endOf(row));
        },

        // The middle of a pixel of the view, in the window.
        placeOf(x, y) {
            const { view } = viewer.views, at = view.toScreen(x + 0.5, y + 0.5);
            const box = view.canvas.getBoundingClientRect();
            return [box.x + at.x, box.y + at.y];
        },

        unpacks(name) {
            try {
                return Boolean(new DecompressionStream(name));
            } catch {
                return false;
            }
        },

        // How many states are kept, and how many MB they and all that the page holds take.
        kept() {
            const { frames, bytesKept } = viewer.app.recording.keyframes;
            return [frames.length, bytesKept / 1e6, performance.memory.usedJSHeapSize / 1e6];
        },

        // The fields of each packet that has an area, in the packet's own words.
        packets() {
            const { app } = viewer, { rows, track, height } = app.recording, out = [];
            for (let row = 0; row < rows.length; row++) {
                if (!rows.isPacket(row) || !rows.area(row)) continue;
                app.seekRow(row);
                const registers = [...app.registers], kind = rows.kind[row], words = rows.words(row, track);
                const packet = module_packet.packetOf(kind, rows.head[row], words, { registers, height });
                out.push({ kind, packet, registers, area: rows.area(row) });
            }
            return out;
        },
    };
})();
