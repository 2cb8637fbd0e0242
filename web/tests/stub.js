/** A module with all exports, of which one traps; the others answer 0. Its bytes are made here. */

function number(value) {
  return value < 128 ? [value] : [value % 128 + 128, ...number(Math.floor(value / 128))];
}

function vector(items) {
  return [...number(items.length), ...items.flat()];
}

function section(id, content) {
  return [id, ...number(content.length), ...content];
}

function text(name) {
  return vector([...new TextEncoder().encode(name)].map((byte) => [byte]));
}

const I32 = 0x7f;
const MEMORY = 2;

/** `names` are those of its functions. */
export function stub(names, trapping) {
  const types = [[0x60, ...vector([]), ...vector([[I32]])]];
  const bodies = names.map((name) => (name === trapping ? [0, 0x00, 0x0b] : [0, 0x41, 0, 0x0b])).map((body) => [...number(body.length), ...body]);
  const exports = [...names.map((name, i) => [...text(name), 0, ...number(i)]), [...text('memory'), MEMORY, 0]];
  return new Uint8Array([
    0, 0x61, 0x73, 0x6d, 1, 0, 0, 0, ...section(1, vector(types)), ...section(3, vector(names.map(() => [0]))),
    ...section(5, vector([[0, 1]])), ...section(7, vector(exports)), ...section(10, vector(bodies)),
  ]);
}
