// Runs a WASI command in node: node wasi.mjs MODULE WORD .. The command may open files below the current folder and,
// by absolute paths, all others.
import { readFile } from 'node:fs/promises';
import { WASI } from 'node:wasi';

const [path, ...words] = process.argv.slice(2);
const wasi = new WASI({ version: 'preview1', args: ['psxgpu_tool', ...words], preopens: { '.': '.', '/': '/' },
    returnOnExit: true });
const { instance } = await WebAssembly.instantiate(await readFile(path), wasi.getImportObject());
process.exitCode = wasi.start(instance);
