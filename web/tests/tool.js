/** The lines of docs/TOOL.md by the package, `record` and `replay` aside: each gives its reply lines, or null where it is bad. */

const NUM = '(-?[0-9]+)';
const ID = '([0-9]+)';
const FORMS = {
  atlas: [2, 6], alloc: [2], grow: [2], resize: [2], simple: [2], take: [2], free: [1],
  live: [0], holes: [0], size: [0], empty: [0], clear: [0], rearrange: [0], 'from-atlas': [0],
};
const CODES = { BAD_CALL: 'bad call', NOT_LIVE: 'refused not live', SLOTS: 'refused slots', MEMORY: 'refused memory' };

function corners(box) {
  return `${box.x} ${box.y} ${box.x + box.width} ${box.y + box.height}`;
}

function box(it) {
  return `${it.id} ${corners(it)}`;
}

/** The word and the numbers of a line. */
export function parse(line) {
  const [word] = line.split(' ', 1);
  if (line.length > 120 || !Object.hasOwn(FORMS, word)) return null;
  for (const many of FORMS[word]) {
    const found = new RegExp(`^${word}${` ${word === 'free' ? ID : NUM}`.repeat(many)}$`).exec(line);
    if (found === null) continue;
    const numbers = found.slice(1).map(Number);
    const isInRange = word === 'free' ? (n) => n < 2 ** 32 : (n) => -(2 ** 31) <= n && n < 2 ** 31;
    return numbers.every(isInRange) ? { word, numbers } : null;
  }
  return null;
}

export class Tool {
  #api;
  #atlas = null;
  #simple = null;

  constructor(api) {
    this.#api = api;
  }

  /** The reply lines of a line. */
  answer(line) {
    const parsed = parse(line);
    if (parsed === null) return null;
    try {
      return this.#carryOut(parsed.word, parsed.numbers);
    } catch (error) {
      if (!(error instanceof this.#api.WollemigoError) || !Object.hasOwn(CODES, error.code)) throw error;
      return [CODES[error.code]];
    }
  }

  #carryOut(word, numbers) {
    if (word === 'atlas') return this.#makeAtlas(...numbers);
    if (word === 'simple') return this.#makeSimple(...numbers);
    if (word === 'take') return this.#take(...numbers);
    if (this.#atlas === null) return ['no atlas'];
    if (word === 'from-atlas' && this.#simple === null) return ['no simple'];
    return this.#ask(this.#atlas, word, numbers);
  }

  #ask(atlas, word, numbers) {
    switch (word) {
      case 'alloc': {
        const granted = atlas.allocate(...numbers);
        return [granted === null ? 'none' : `id ${granted.id} at ${corners(granted)}`];
      }
      case 'free': atlas.deallocate(...numbers); return ['ok'];
      case 'grow': atlas.grow(...numbers); return ['ok'];
      case 'clear': atlas.clear(); return ['ok'];
      case 'from-atlas': this.#simple.initFrom(atlas); return ['ok'];
      case 'size': return [`size ${atlas.size.width} ${atlas.size.height}`];
      case 'empty': return [String(atlas.isEmpty)];
      case 'rearrange': return this.#moved(atlas.rearrange());
      case 'resize': return this.#moved(atlas.resizeAndRearrange(...numbers));
      case 'live': {
        const live = atlas.allocated();
        return [...live.map((each) => `box ${box(each)}`), `live ${live.length}`];
      }
      default: {
        const holes = atlas.freeBoxes().sort((a, b) => a.y - b.y || a.x - b.x);
        return [...holes.map((each) => `hole ${corners(each)}`), `holes ${holes.length}`];
      }
    }
  }

  #moved({ changes, failures }) {
    return [...changes.map(({ before, after }) => `moved ${box(before)} to ${box(after)}`), ...failures.map((each) => `lost ${box(each)}`),
      `changes ${changes.length} failures ${failures.length}`];
  }

  #makeAtlas(width, height, ...more) {
    const [alignedWidth, alignedHeight, smallSizeThreshold, largeSizeThreshold] = more;
    const alignment = { width: alignedWidth, height: alignedHeight };
    const options = more.length === 0 ? undefined : { alignment, smallSizeThreshold, largeSizeThreshold };
    const made = new this.#api.Atlas(width, height, options);
    this.#atlas?.dispose();
    this.#atlas = made;
    return ['ok'];
  }

  #makeSimple(width, height) {
    const made = new this.#api.SimpleAtlas(width, height);
    this.#simple?.dispose();
    this.#simple = made;
    return ['ok'];
  }

  #take(width, height) {
    if (this.#simple === null) return ['no simple'];
    const granted = this.#simple.allocate(width, height);
    return [granted === null ? 'none' : `at ${corners(granted)}`];
  }
}

/** All replies to a session, as the program writes them. */
export function replies(api, text) {
  const tool = new Tool(api);
  const lines = text.split('\n');
  const told = [];
  for (let i = 0; i < lines.length; i++) {
    if (lines[i] === '') continue;
    const reply = tool.answer(lines[i]);
    told.push(...(reply ?? [`bad line ${i + 1}`]));
    if (reply === null) break;
  }
  return told.map((each) => `${each}\n`).join('');
}
