// Prints what is measured in Node.
import * as wollemigo from '../node.js';
import { measured } from './bench.js';

await wollemigo.load();
console.log(JSON.stringify(await measured(wollemigo)));
