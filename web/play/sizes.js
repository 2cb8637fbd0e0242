// Sizes as a person has them, and the outcome as a person takes it away.
const LINE = /^\s*(\d{1,9})\s*(?:[x×*,;]|\s)\s*(\d{1,9})\s*$/i;

/** The sides of one of a list of JSON: `[20, 60]`, or an object with `w` and `h`, or `width` and `height`. */
function sidesOf(value) {
  const sides = Array.isArray(value) ? value : [value?.width ?? value?.w, value?.height ?? value?.h];
  return sides.length === 2 && sides.every((side) => Number.isInteger(side) && side >= 0 && side < 1e9) ? sides : null;
}

function fromJson(text) {
  try {
    const told = JSON.parse(text);
    return Object.values(told).map((value) => sidesOf(value) ?? sidesOf(value?.frame));
  } catch {
    return [null];
  }
}

/** The sizes in a text, `20 60`, `20x60` or `20,60` in a line, or JSON; null where it is none of these. */
export function sizesOf(text) {
  const isJson = /^\s*[[{]/.test(text);
  const sizes = isJson ? fromJson(text) : text.split('\n').filter((line) => line.trim() !== '').map((line) => LINE.exec(line)?.slice(1).map(Number));
  return sizes.length > 0 && sizes.every((size) => size) ? sizes : null;
}

/** A drawing of boxes as a file: one part beside another, each with its sides and its boxes, which have a label. */
export function svgOf(parts) {
  const shown = (text) => String(text).replace(/[&<>"]/g, (letter) => `&#${letter.charCodeAt(0)};`);
  const box = ({ x, y, width, height, label, isFree }) => `<rect x="${x}" y="${y}" width="${width}" height="${height}" fill="${
    isFree ? '#ffffff' : '#cfe2ff'}" stroke="#3d5a80" vector-effect="non-scaling-stroke"><title>${shown(label)}</title></rect>`;
  let across = 0;
  const drawn = parts.map(({ width, height, boxes }) => {
    across += width + 8;
    return `<svg x="${across - width - 8}" width="${width}" height="${height}">${boxes.map(box).join('\n')}</svg>`;
  });
  const high = Math.max(...parts.map(({ height }) => height));
  return `<svg xmlns="http://www.w3.org/2000/svg" width="${across - 8}" height="${high}">\n${drawn.join('\n')}\n</svg>\n`;
}
