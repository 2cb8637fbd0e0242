/** Of node:test what the tests use, in a browser: they are carried out one after another once their file is read. */
const all = [];

export function test(name, ...more) {
  all.push({ name, call: more.at(-1) });
}

/** The names of those that pass, and what is told of those that don't. */
export async function results() {
  const [passed, failed] = [[], []];
  for (const { name, call } of all) {
    try {
      await call();
      passed.push(name);
    } catch (error) {
      failed.push(`${name}: ${error}\n${error?.stack}`);
    }
  }
  return { passed, failed };
}
