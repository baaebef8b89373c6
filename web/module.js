/** The WebAssembly module, compressed by gzip, in base64. It is empty here: web/build.py writes it into web/out/psxgpu.js. */
export const PACKED = '';
