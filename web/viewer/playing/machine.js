// The machine of the script before the viewer's own, web/out/psxgpu.js, as a module of the viewer.

export const Machine = psxgpu.Machine;
