// The words of a file that is made, in parts for a Blob.

const PART = 1 << 18;

export class FileWords {
    constructor() { Object.assign(this, { parts: [], room: new Uint32Array(PART), used: 0 }); }

    put(...words) { this.putAll(words); }

    /** Adds an array of words. */
    putAll(words) {
        if (this.used + words.length > PART) this.close();
        if (words.length > PART) {
            this.parts.push(Uint32Array.from(words));
            return;
        }
        this.room.set(words, this.used);
        this.used += words.length;
    }

    /** Ends the part that is being filled. */
    close() {
        this.parts.push(this.room.slice(0, this.used));
        this.used = 0;
    }
}
