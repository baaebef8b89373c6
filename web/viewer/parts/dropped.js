// The files that are dropped on the page, those of dropped folders too.

// The files of an entry of the file system.
async function filesOfEntry(entry) {
    if (entry.isFile) return [await new Promise((done, failed) => entry.file(done, failed))];
    const reader = entry.createReader(), out = [];
    for (;;) {
        const entries = await new Promise((done, failed) => reader.readEntries(done, failed));
        if (!entries.length) return out;
        for (const one of entries) out.push(...await filesOfEntry(one));
    }
}

/**
 * Returns the files of a drop. It is called while the drop is handled.
 * @param {DataTransfer} transfer
 * @returns {Promise<File[]>}
 */
export async function filesOf({ items, files }) {
    const entries = [...items].map(item => item.webkitGetAsEntry?.()).filter(Boolean), own = [...files];
    if (!entries.some(entry => entry.isDirectory)) return own;
    return (await Promise.all(entries.map(filesOfEntry))).flat();
}
