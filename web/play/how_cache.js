// Figure 4: a cache of letters over frames; what wasn't used for the longest time goes.
import { Atlas, TextureCache } from '../index.js';
import { Code, Steps, View, draw, fill, slider } from './how_figure.js';
import { make } from './page.js';

const TEXT = 'the quick brown fox jumps over the lazy dog, pack my box with five dozen liquor jugs, how vexingly quick daft zebras jump';
// In lines of at most 44 letters.
const TEXT_OF_CODE = TEXT.match(/.{1,44}(?: |$)/g).map((part) => `'${part}'`).join('\n  + ');
const [WINDOW, FRAMES, BEFORE] = [16, 100, 8];
const [WIDTH, HEIGHT, LEAST, MOST] = [72, 56, 56, 96];
const HIGH = 3; // new letters that make a bar of the full height
const codeOf = (width, height) => `const cache = new TextureCache({
  page: { width: ${width}, height: ${height} },
});

// As a letter of a font may have it.
function sizeOf(letter) {
  const width = 'ijlt,'.includes(letter) ? 7
    : 'mw'.includes(letter) ? 17 : 12;
  return [width, 'bdfhklt'.includes(letter) ? 16
    : 'gjpqy'.includes(letter) ? 15 : 11];
}

function placeOf(letter) {
  const held = cache.get(letter);
  if (held !== null) return held;
  const place = cache.insert(letter, ...sizeOf(letter));
  for (const { kind, key, page } of cache.changes())
    console.log(kind, key ?? page); // follow it here
  return place; // null: this frame uses all room
}

function drawFrame(letters) {
  cache.beginFrame();
  for (const it of letters) {
    let place = placeOf(it);
    if (place === null) {
      console.log('flush'); // draw what is batched
      cache.beginFrame();
      place = placeOf(it);
    }
    if (place.isNew) console.log('write', it);
  }
}

const text = ${TEXT_OF_CODE};
for (let at = 0; at < ${FRAMES}; at += 1) {
  const seen = text.slice(at, at + ${WINDOW});
  drawFrame(new Set(seen.replaceAll(' ', '')));
}`;

/** As the lines have it. */
function sizeOf(letter) {
  const width = 'ijlt,'.includes(letter) ? 7 : 'mw'.includes(letter) ? 17 : 12;
  return [width, 'bdfhklt'.includes(letter) ? 16 : 'gjpqy'.includes(letter) ? 15 : 11];
}

const lettersOf = (frame) => [...new Set(TEXT.slice(frame, frame + WINDOW).replaceAll(' ', ''))];

/** Of each frame the letters that are held, when each was last used, what came and went, and the free boxes of the page, whose cuts are
 * those of an atlas with the same calls. */
function frames(height) {
  const [cache, twin, boxes] = [new TextureCache({ page: { width: WIDTH, height } }), new Atlas(WIDTH, height), new Map()];
  const [found, used] = [[], new Map()];
  for (let frame = 0; frame < FRAMES; frame += 1) {
    const [fresh, evicted] = [[], []];
    cache.beginFrame();
    for (const letter of lettersOf(frame)) {
      const isNew = cache.get(letter) === null;
      if (isNew && cache.insert(letter, ...sizeOf(letter)) !== null) fresh.push(letter);
      used.set(letter, frame);
      for (const { kind, key } of cache.changes()) {
        if (kind !== 'evicted') continue;
        evicted.push(key);
        twin.deallocate(boxes.get(key));
      }
      if (isNew && fresh.at(-1) === letter) boxes.set(letter, twin.allocate(...sizeOf(letter)).id);
    }
    const held = [];
    for (let each = cache.newest(); each !== null; each = cache.older(each.key)) {
      held.push({ letter: each.key, box: each.place.inner, last: used.get(each.key) });
    }
    found.push({ fresh, evicted, held, free: twin.freeBoxes() });
  }
  const { statistics } = cache;
  cache.dispose();
  twin.dispose();
  return { found, statistics };
}

const part = ({ length }) => 9 * Math.min(1, length / HIGH);
const barsOf = (found) => found.map(({ fresh, evicted }, at) => draw('rect', {
  x: at + 0.1, y: 10 - part(fresh), width: 0.8, height: part(fresh), class: evicted.length ? 'evicts' : 'adds' }));

function stripOf() {
  const [bars, cursor] = [draw('g'), draw('rect', { class: 'cursor', y: 0, width: 1, height: 10 })];
  const strip = draw('svg', { class: 'strip', viewBox: `0 0 ${FRAMES} 10`, preserveAspectRatio: 'none', role: 'img' }, bars, cursor);
  return { strip, bars, cursor };
}

const listed = (letters) => letters.map((letter) => `“${letter}”`).join(', ');

function captionOf({ fresh, evicted, held }) {
  if (fresh.length === 0) return `All letters are held: there is nothing to write. ${held.length} letters are in the texture.`;
  const are = fresh.length === 1 ? 'is' : 'are';
  const [it, were] = [fresh.length === 1 ? 'it' : 'them', evicted.length === 1 ? 'was' : 'were'];
  const out = evicted.length ? `; no free box had room for ${it} until ${listed(evicted)} ${were} gone` : '';
  return `${listed(fresh)} ${are} new${out}. ${held.length} letters are in the texture.`;
}

export function cacheFigure(figure) {
  const [shown, code] = [{ height: HEIGHT, ...frames(HEIGHT) }, new Code(codeOf(WIDTH, HEIGHT), 'TextureCache')];
  const view = new View(WIDTH, HEIGHT, 'A page with letters');
  const { strip, bars, cursor } = stripOf();
  const text = make('p', { className: 'text' });
  const show = (at) => {
    const { held, fresh, evicted, free } = shown.found[at];
    const paleOf = (last) => (last === at ? 1 : Math.max(0.12, 0.6 - 0.03 * (at - last)));
    view.show([...free.map((box) => ({ key: `free ${box.x} ${box.y} ${box.width} ${box.height}`, ...box, looks: 'free' })),
      ...held.map(({ letter, box, last }) => (
        { key: letter, ...box, label: letter, looks: fresh.includes(letter) ? 'live fresh' : 'live', pale: paleOf(last) }))]);
    const seen = make('b', { textContent: TEXT.slice(at, at + WINDOW) });
    text.replaceChildren(TEXT.slice(Math.max(0, at - BEFORE), at).padStart(BEFORE), seen, TEXT.slice(at + WINDOW, at + WINDOW + 24));
    cursor.setAttribute('x', at);
    code.point(fresh.length === 0 ? 'if (held' : evicted.length === 0 ? 'const place = cache.insert' : 'console.log(kind');
  };
  const steps = new Steps({ name: 'Frame', many: FRAMES, captions: (at) => captionOf(shown.found[at]), show, pause: 420 });
  const roomFor = (height) => {
    Object.assign(shown, { height, ...frames(height) });
    view.svg.setAttribute('viewBox', `-1 -1 ${WIDTH + 2} ${height + 2}`);
    bars.replaceChildren(...barsOf(shown.found));
    const count = (test) => shown.found.filter(test).length;
    strip.setAttribute('aria-label', `${FRAMES} frames: ${count(({ fresh }) => fresh.length)} wrote new letters, ${
      count(({ evicted }) => evicted.length)} of them evicted old ones`);
    code.show(codeOf(WIDTH, height));
    steps.go(steps.at);
  };
  const room = slider('Room', { least: LEAST, greatest: MOST, value: HEIGHT, told: (height) => `${WIDTH} × ${height}`, onInput: roomFor });
  steps.element.firstChild.append(room.element);
  fill(figure, [text, view.svg, strip, steps.element], code.element);
  steps.at = 24;
  room.set(HEIGHT);
  steps.slider.set(24);
  return { steps, room, lettersOf, code, get frames() { return shown.found; }, get statistics() { return shown.statistics; } };
}
