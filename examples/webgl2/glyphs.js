/** Glyphs of a font, drawn by a canvas: the size of each, its coverage, and how it lies around its origin. */
const canvas = document.createElement('canvas');
const on = canvas.getContext('2d', { willReadFrequently: true });
const known = new Map();

export function glyphOf(character, font) {
  const key = `${character} ${font}`;
  if (!known.has(key)) known.set(key, drawn(key, character, font));
  return known.get(key);
}

function drawn(key, character, font) {
  on.font = font;
  const told = on.measureText(character);
  const left = Math.ceil(told.actualBoundingBoxLeft), up = Math.ceil(told.actualBoundingBoxAscent);
  const width = Math.max(0, left + Math.ceil(told.actualBoundingBoxRight)), height = Math.max(0, up + Math.ceil(told.actualBoundingBoxDescent));
  const glyph = { key, width, height, left, up, advance: told.width, coverage: new Uint8Array(width * height) };
  if (width === 0 || height === 0) return glyph;
  [canvas.width, canvas.height] = [width, height];
  on.font = font;
  on.fillText(character, left, up);
  const { data } = on.getImageData(0, 0, width, height);
  for (let at = 0; at < glyph.coverage.length; at++) glyph.coverage[at] = data[4 * at + 3];
  return glyph;
}

const TEXT = ['The quick brown fox jumps over the lazy dog.', 'Zwölf Boxkämpfer jagen Viktor quer über den großen Sylter Deich.',
  'Съешь же ещё этих мягких французских булок, да выпей чаю.', 'Ξεσκεπάζω την ψυχοφθόρα βδελυγμία.'];
const COLOURS = [[0.06, 0.14, 0.25, 1], [0.74, 0.3, 0, 1], [0.03, 0.41, 0.85, 1], [0.1, 0.5, 0.2, 1]];

/** Draws the lines of a text that are in sight, each in a font of its own, scrolled by so many pixels. */
export function drawText(renderer, width, height, scrolled) {
  const size = (line) => 14 + (line * 5) % 23;
  let [line, y] = [0, -Math.round(scrolled)];
  renderer.begin();
  for (; y < height; y += Math.ceil(1.3 * size(line)), line++) {
    if (y + 2 * size(line) < 0) continue;
    let x = 8;
    for (const character of TEXT[line % TEXT.length]) {
      const glyph = glyphOf(character, `${size(line)}px sans-serif`);
      if (x > width) break;
      renderer.draw(glyph, Math.round(x) - glyph.left, y + size(line) - glyph.up, COLOURS[line % COLOURS.length]);
      x += glyph.advance;
    }
  }
  renderer.flush();
}
