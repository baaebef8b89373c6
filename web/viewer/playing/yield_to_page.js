// Lets the page breathe between two parts of a long work: what waits in the browser runs first.

const channel = new MessageChannel();
const waiting = [];
channel.port1.onmessage = () => waiting.shift()?.();

/** @returns {Promise<void>} settled after what waits has run */
export const breath = () => new Promise(go => { waiting.push(go); channel.port2.postMessage(0); });
