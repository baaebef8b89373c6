// Files that the browser may look at again when they grow (File System Access, of Chromium and its kin).

/**
 * Has a field for files ask for those that can be looked at again, if the browser has that.
 * @param {HTMLInputElement} input
 * @param {(files: File[], from: {handle: FileSystemFileHandle}) => void} open the handle is that of a single file
 */
export function wirePicker(input, open) {
    const pick = async () => {
        const handles = await showOpenFilePicker({ multiple: true }), files = handles.map(handle => handle.getFile());
        open(await Promise.all(files), handles.length === 1 ? { handle: handles[0] } : {});
    };
    let isOffered = Boolean(window.showOpenFilePicker);
    input.addEventListener('click', event => {
        if (!isOffered) return;
        event.preventDefault();
        pick().catch(fault => {
            if (fault.name === 'AbortError') return;
            isOffered = false;      // the browser refuses it here, as inside of another page
            input.click();
        });
    });
}

/**
 * Returns what looks again at a file that was dropped.
 * @param {DataTransfer} dropped
 * @returns {Promise<FileSystemFileHandle | null>} null if the browser has none
 */
export async function droppedHandle({ items: [item] }) {
    return await item?.getAsFileSystemHandle?.().catch(() => null) ?? null;
}
