// Answers the sessions in the files that are named, each in the file with `.replies` at its end: answer_lines.js FILE ..
import { readFileSync, writeFileSync } from 'node:fs';

import * as wollemigo from '../node.js';
import { replies } from './tool.js';

await wollemigo.load();
for (const file of process.argv.slice(2)) writeFileSync(`${file}.replies`, replies(wollemigo, readFileSync(file, 'utf8')));
