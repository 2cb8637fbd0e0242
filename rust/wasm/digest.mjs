// Runs the module of bindings/tests/digest.c: digest.mjs MODULE CALLS. It prints what the program prints.
import { readFileSync } from 'node:fs';

const [module, calls] = [process.argv[2], Number(process.argv[3])];
const { instance } = await WebAssembly.instantiate(readFileSync(module), {});
const { digest_start, digest_calls } = instance.exports;
digest_start(1);
for (let done = 0; done < calls;) {
    const more = Math.min(10000, calls - done);
    done += more;
    console.log(`${done} ${BigInt.asUintN(64, digest_calls(more)).toString(16).padStart(16, '0')}`);
}
