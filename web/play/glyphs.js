// A text that scrolls, and the glyphs of it, measured by the canvas.
const SIZES = { 1: [22], 4: [16, 22, 28, 36], 12: [12, 14, 16, 18, 20, 22, 24, 28, 32, 36, 42, 48] };
const FACES = ['sans-serif', 'bold sans-serif', 'serif', 'italic serif', 'monospace'];
const LINE = 1.3;

export const TEXT = `The quick brown fox jumps over the lazy dog.
Zwölf Boxkämpfer jagen Viktor quer über den großen Sylter Deich.
Portez ce vieux whisky au juge blond qui fume.
Pchnąć w tę łódź jeża lub ośm skrzyń fig.
Съешь же ещё этих мягких французских булок, да выпей чаю.
El veloz murciélago hindú comía feliz cardillo y kiwi.
Ξεσκεπάζω την ψυχοφθόρα βδελυγμία.
Příliš žluťoučký kůň úpěl ďábelské ódy.
0123456789 + − × ÷ = ≠ ≤ ≥ € £ ¥ § % & @ # { } [ ] ( )
Pijamalı hasta yağız şoföre çabucak güvendi.
Kæmi ný öxi hér ykist þjófum nú bæði víl og ádrepa.
HOW VEXINGLY QUICK DAFT ZEBRAS JUMP!`;

/** Lines of a text, each in a font of its own, over and over. */
export class Text {
  /** `pixel` is how many pixels of the screen are one of the page. All sizes and places are in the screen's. */
  constructor(context, text, sizes, pixel) {
    this.context = context;
    this.lines = text.split('\n').filter((line) => line.trim() !== '');
    this.sizes = SIZES[sizes].map((size) => Math.round(size * pixel));
    this.left = Math.round(8 * pixel);
    this.measured = new Map();
  }

  fontOf(number) {
    const size = this.sizes[(number * 5) % this.sizes.length];
    const words = FACES[number % FACES.length].split(' ');
    const family = words.pop();
    return { size, font: `${words.join(' ')} ${size}px ${family}`.trim() };
  }

  height(number) {
    return Math.ceil(this.fontOf(number).size * LINE);
  }

  /** The glyph of a character: its key, its box in whole pixels, where its origin lies in the box, how far the next one is. */
  glyph(character, font) {
    const key = `${character} ${font}`;
    const known = this.measured.get(key);
    if (known) return known;
    this.context.font = font;
    const told = this.context.measureText(character);
    const left = Math.ceil(told.actualBoundingBoxLeft), up = Math.ceil(told.actualBoundingBoxAscent);
    const width = left + Math.ceil(told.actualBoundingBoxRight), height = up + Math.ceil(told.actualBoundingBoxDescent);
    const glyph = { key, character, font, left, up, width, height, advance: told.width };
    this.measured.set(key, glyph);
    return glyph;
  }

  /** The glyphs of a line, each with the position of its origin. Those with nothing to draw are left out. */
  line(number, width) {
    const { size, font } = this.fontOf(number);
    const placed = [];
    let x = this.left;
    for (const character of this.lines[number % this.lines.length]) {
      const glyph = this.glyph(character, font);
      if (x + glyph.advance > width) break;
      if (glyph.width > 0 && glyph.height > 0) placed.push({ glyph, x: Math.round(x), y: size });
      x += glyph.advance;
    }
    return placed;
  }
}
