// Prints what bindings/tests/digest.c prints: print_digest.js CALLS [names]
import * as wollemigo from '../node.js';
import { digest } from './digest/digest.js';

await wollemigo.load();
process.stdout.write(digest(wollemigo, Number(process.argv[2]), { hasNames: process.argv[3] === 'names' }));
