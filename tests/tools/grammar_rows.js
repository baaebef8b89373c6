// Reads words of GP0 from standard input, as bytes with the low byte first, and writes the rows that the viewer cuts them
// into: the number of the word that completes each, the name of its packet, its first word. web/bundle.py joins it with
// the viewer's modules for node.

import { nameOf } from '../../web/viewer/reading/names.js';
import { Rows } from '../../web/viewer/reading/rows.js';
import { Splitter } from '../../web/viewer/reading/splitter.js';
import { STEP, Track } from '../../web/viewer/reading/track.js';

const bytes = require('fs').readFileSync(0);
const track = new Track(0), rows = new Rows(), splitter = new Splitter(track, rows);
for (let at = 0; at < bytes.length; at += 4) track.add(STEP.GP0, bytes.readUInt32LE(at), 1);
splitter.feed();
for (let row = 0; row < rows.length; row++) {
    console.log(rows.done[row] + 1, nameOf(rows.kind[row], rows.head[row]), rows.head[row].toString(16));
}
