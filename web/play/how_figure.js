// What the figures share: boxes that move, a slider with steps, and lines of code.
import { copy, isStill, make, say } from './page.js';

const SPACE = 'http://www.w3.org/2000/svg';
const LEAVE = 320; // milliseconds that a box takes to fade
const QUIET = 700; // milliseconds after which a caption that stays is told to a screen reader
const TOLD = 40; // boxes of a drawing that its name lists at most

export function draw(name, attributes = {}, ...inside) {
  const made = document.createElementNS(SPACE, name);
  for (const [key, value] of Object.entries(attributes)) made.setAttribute(key, value);
  made.append(...inside);
  return made;
}

let views = 0;

/** The pattern of what is free, as dense in each view. */
function hatching(id, scale) {
  const line = draw('path', { d: 'M-1 7L7 -1M-1 1L1 -1M5 7L7 5', stroke: 'var(--hatch)', 'stroke-width': 0.7 });
  return draw('defs', {}, draw('pattern', { id, width: 6, height: 6, patternUnits: 'userSpaceOnUse', patternTransform: `scale(${scale})` },
    draw('rect', { width: 6, height: 6, fill: 'var(--sheet)' }), line));
}

/** The boxes in words: whether each is live or free, its label, its sides and its place. */
function listed(boxes) {
  const words = boxes.slice(0, TOLD).map(({ looks, label = '', x, y, width, height }) => [looks.split(' ')[0], /^[\d×]+$/.test(label) ? '' : label,
    `${width} by ${height} at ${Math.round(x)}, ${Math.round(y)}`].filter(Boolean).join(' '));
  return words.join('; ') + (boxes.length > TOLD ? `; and ${boxes.length - TOLD} more` : '');
}

/** A caption. It is told to a screen reader too, once it stays for a while: not each step of what plays by itself. */
export class Caption {
  constructor() {
    this.element = make('p', { className: 'caption' });
    this.later = null;
  }

  tell(text) {
    if (text === this.element.textContent) return;
    const isFirst = this.element.textContent === '';
    this.element.textContent = text;
    clearTimeout(this.later);
    if (!isFirst) this.later = setTimeout(() => say(text), QUIET);
  }
}

/** A view of an atlas. Boxes have keys: one that was there before moves to its new place, so that the eye can follow. */
export class View {
  constructor(width, height, label) {
    this.label = label;
    this.svg = draw('svg', { viewBox: `-1 -1 ${width + 2} ${height + 2}`, role: 'img', 'aria-label': label });
    const id = `hatching-${views}`;
    views += 1;
    this.svg.append(hatching(id, width / 320));
    this.svg.style.setProperty('--hatching', `url(#${id})`);
    this.largest = width / 16; // of labels
    this.boxes = new Map();
    this.layer = this.svg.appendChild(draw('g'));
    this.above = this.svg.appendChild(draw('g'));
  }

  /** Shows these boxes, each with a key, its sides, a label and the names of its looks. */
  show(boxes) {
    const keys = new Set(boxes.map(({ key }) => key));
    for (const [key, each] of this.boxes) if (!keys.has(key)) this.leave(key, each);
    for (const box of boxes) this.place(box);
    this.svg.setAttribute('aria-label', `${this.label}: ${listed(boxes)}`);
  }

  place({ key, x, y, width, height, label = '', looks, pale = 1 }) {
    let each = this.boxes.get(key);
    const isNew = each === undefined;
    if (isNew) {
      each = { group: draw('g'), rect: draw('rect'), text: draw('text') };
      each.group.append(each.rect, each.text);
      this.boxes.set(key, each);
    }
    const { group, rect, text } = each;
    this.layer.append(group);
    group.setAttribute('class', `box ${looks}${isNew && !isStill() ? ' entering' : ''}`);
    group.style.transform = `translate(${x}px, ${y}px)`;
    Object.assign(rect.style, { width: `${width}px`, height: `${height}px`, fillOpacity: pale });
    text.textContent = label;
    const fit = (along, across) => Math.min(across * 0.5, along / (0.66 * Math.max(1, label.length)), this.largest);
    const isUpright = label.length > 2 && height > 2 * width;
    const [size, turn] = isUpright ? [fit(height, width), ' rotate(-90deg)'] : [fit(width, height), ''];
    text.setAttribute('style', `font-size: ${size}px; transform: translate(${width / 2}px, ${height / 2}px)${turn}`);
    if (isNew) requestAnimationFrame(() => requestAnimationFrame(() => group.classList.remove('entering')));
  }

  leave(key, { group }) {
    this.boxes.delete(key);
    if (isStill()) {
      group.remove();
      return;
    }
    group.classList.add('leaving');
    setTimeout(() => group.remove(), LEAVE);
  }

  /** Draws what lies above the boxes anew. */
  mark(...marks) {
    this.above.replaceChildren(...marks);
  }
}

export const frame = ({ x, y, width, height }, name) => draw('rect', { x, y, width, height, class: name });

/** Lines of a module beside a figure, one of which may be the one that is carried out now; and a button that copies them. They begin with
 * the import of these names, and run as they stand. */
export class Code {
  constructor(text, names = 'Atlas') {
    this.head = `import { ${names}, load } from 'wollemigo';\nawait load();\n\n`;
    this.text = this.head + text;
    this.lines = this.text.split('\n').map((line) => make('span', { textContent: line }));
    const button = make('button', { className: 'copy', textContent: 'Copy these lines' });
    button.addEventListener('click', async () => {
      button.textContent = (await copy(this.text, 'The lines')) ? 'Copied' : 'Copy them by hand';
      setTimeout(() => { button.textContent = 'Copy these lines'; }, 2000);
    });
    this.element = make('div', {}, make('pre', { tabIndex: 0 }, make('code', {}, ...this.lines)), button);
    this.element.querySelector('pre').setAttribute('aria-label', 'The lines of JavaScript that do this');
  }

  /** Shows other lines below the import. There are as many of them. */
  show(text) {
    this.text = this.head + text;
    this.text.split('\n').forEach((line, at) => { this.lines[at].textContent = line; });
  }

  /** Marks the first line that begins with these words, and brings it into sight. */
  point(words) {
    const now = this.lines.find((line) => line.textContent.trimStart().startsWith(words));
    for (const line of this.lines) line.classList.toggle('now', line === now);
    if (now === undefined) return;
    const frame = now.closest('pre');
    frame.scrollTop = Math.max(0, now.offsetTop - frame.offsetTop - frame.clientHeight / 2);
  }
}

export function slider(name, { least = 0, greatest, value, told, onInput }) {
  const field = make('input', { type: 'range', min: least, max: greatest, value, step: 1 });
  const output = make('output', { textContent: told(value) });
  const set = (to) => {
    field.value = to;
    output.textContent = told(Number(field.value));
    field.setAttribute('aria-valuetext', output.textContent);
    onInput(Number(field.value));
  };
  field.addEventListener('input', () => set(field.value));
  return { field, set, element: make('label', {}, name, field, output) };
}

/** Steps that a slider goes through, forth and back, and that a button plays. */
export class Steps {
  /** `show` is given the number of a step; `captions` has a sentence for each. */
  constructor({ name, many, captions, show, pause, told = (at) => `${at + 1} of ${many}` }) {
    this.caption = new Caption();
    Object.assign(this, { many, captions, show, pause, at: 0, timer: null });
    this.slider = slider(name, { greatest: many - 1, value: 0, told, onInput: (at) => this.go(at) });
    for (const kind of ['pointerdown', 'input']) this.slider.field.addEventListener(kind, () => this.stop());
    this.button = make('button', { className: 'main', textContent: 'Play' });
    this.button.addEventListener('click', () => (this.timer === null ? this.play() : this.stop()));
    this.element = make('div', {}, make('div', { className: 'controls' }, this.button, this.slider.element), this.caption.element);
  }

  go(at) {
    this.at = at;
    this.caption.tell(this.captions(at));
    this.show(at);
  }

  play() {
    if (this.at === this.many - 1) this.slider.set(0);
    this.button.textContent = 'Stop';
    this.timer = setInterval(() => {
      this.slider.set(this.at + 1);
      if (this.at === this.many - 1) this.stop();
    }, this.pause);
  }

  stop() {
    clearInterval(this.timer);
    this.timer = null;
    this.button.textContent = 'Play';
  }
}

/** Puts a figure together: what is seen and what moves it, and beside it the code. */
export function fill(figure, seen, ...beside) {
  const name = figure.closest('section').querySelector('h2');
  name.id = `${name.parentElement.id}-name`;
  figure.setAttribute('aria-labelledby', name.id);
  figure.append(make('div', { className: 'view' }, ...seen), make('div', { className: 'side' }, ...beside));
}
