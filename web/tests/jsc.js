// In JavaScriptCore's shell, which has neither `fetch` nor `URL`: jsc -m jsc.js -- MODULE CALLS SESSION. Prints the digest of random
// calls, and then the replies to the lines of a file.
import * as wollemigo from '../src/api.js';
import { NAMES } from '../src/names.js';
import { start } from '../src/runtime.js';
import { digest } from './digest/digest.js';
import { replies } from './tool.js';

const [module, calls, session] = globalThis.arguments;
await start(1, NAMES, async () => readFile(module, 'binary'));
print(digest(wollemigo, Number(calls)) + replies(wollemigo, readFile(session)));
