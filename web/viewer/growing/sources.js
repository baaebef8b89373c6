// Where the bytes of a file that grows come from: the server of `psxgpu view --follow`, a file that the browser may look at
// again and again, or one that the reader chooses again. Each has `look(from)`: its result is the bytes of the file from an
// offset on, as soon as they may be others than those of the last look.

/** The source has ended: no more can be read. Its message says why. */
export class SourceEnded extends Error {}

// The most bytes of one look; milliseconds between two looks at a file.
const MOST = 1 << 22, PAUSE = 50;

const pause = () => new Promise(go => setTimeout(go, PAUSE));

/** The file that the server of this page follows. */
export class Served {
    /** @param {string} path of its bytes, as the page's address has it */
    constructor(path) { Object.assign(this, { path, seen: '', stopper: new AbortController() }); }

    async look(from) {
        for (;;) {
            const answer = await this.ask(from);
            if (answer.status === 204) continue;
            if (!answer.ok) throw new SourceEnded('is refused by psxgpu view');
            const bytes = new Uint8Array(await answer.arrayBuffer());
            this.seen = answer.headers.get('ETag') ?? '';
            return bytes;
        }
    }

    async ask(from) {
        try {
            return await fetch(`${this.path}?from=${from}&seen=${this.seen}`, { signal: this.stopper.signal });
        } catch {
            throw new SourceEnded('is no longer followed (psxgpu view has ended)');
        }
    }

    close() { this.stopper.abort(); }
}

// A file of the browser: it is as it was when it was chosen, so each look takes it anew.
class Browsed {
    constructor() { Object.assign(this, { seen: '', isClosed: false }); }

    async look(from) {
        for (;;) {
            const file = await this.next();
            if (this.isClosed) throw new SourceEnded('closed');
            const stamp = `${file.size} ${file.lastModified}`, end = Math.min(file.size, from + MOST);
            if (stamp === this.seen) continue;
            try {
                const bytes = new Uint8Array(await file.slice(from, end).arrayBuffer());
                this.seen = end === file.size ? stamp : '';
                return bytes;
            } catch {
                await pause();      // it was written to at this moment
            }
        }
    }

    close() { this.isClosed = true; }
}

/** A file that the browser may look at again and again (File System Access). */
export class Watched extends Browsed {
    /** @param {FileSystemFileHandle} handle */
    constructor(handle) { super(); this.handle = handle; }

    async next() {
        if (this.seen) await pause();
        try {
            return await this.handle.getFile();
        } catch (fault) {
            throw new SourceEnded(`is no longer followed (${fault.message})`);
        }
    }
}

/** A file that the reader chooses again when it has grown. */
export class Chosen extends Browsed {
    constructor(file) { super(); this.give(file); }

    /** Takes the file that was chosen now. */
    give(file) {
        this.file = file;
        this.go?.();
    }

    async next() {
        if (this.seen) await new Promise(go => { this.go = go; });
        return this.file;
    }

    close() {
        super.close();
        this.go?.();
    }
}
